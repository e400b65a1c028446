//! Request 9: "Requests that arrive later."

mod pieces;
mod refusals;
mod states;

use super::laws::*;
use crate::desk::*;
use crate::house::*;
use crate::records::{commands_of, BANKS, LATEST};
use crate::rules::{ACT, RDA, REF, WRA};

const REFRESH: [u8; 4] = REFRESH_BYTES;

/// Cycle, kind, bank and transaction of each command, and the finishing cycles.
type Gone = (Vec<(u32, u8, u8, u16)>, Vec<u32>);

fn scheduled(table: &[u16], list: &[[u8; 4]], arrivals: &[u32]) -> Gone {
    let (room, finishes) = built_later(table, &arriving(list, arrivals));
    let fields = |c: &Command| (c.cycle, c.kind, c.bank, c.transaction);
    let gone = commands_of(&room).iter().map(fields).collect();
    (gone, finishes)
}

/// "Neither queue sees a transaction before its arrival": equal arrivals, and arrivals before another's work, within it and after it.
#[test]
fn worked() {
    let (gone, finishes) = scheduled(&TABLE_A, &[READ], &[25]);
    assert_eq!(gone, [(25, ACT, 0, 0), (35, RDA, 0, 0)]);
    assert_eq!(finishes, [49]);
    let two = [READ, [0, 1, 1, 1]];
    for (arrivals, cycles) in [
        ([0, 0], [0, 6, 10, 16]),
        ([5, 5], [5, 11, 15, 21]),
        ([0, 6], [0, 6, 10, 16]),
        ([0, 7], [0, 7, 10, 17]),
        // At 10 the first's read goes, so the second's ACT waits a cycle.
        ([0, 10], [0, 10, 11, 21]),
        ([0, 11], [0, 10, 11, 21]),
        ([0, 300], [0, 10, 300, 310]),
    ] {
        let (gone, _) = scheduled(&TABLE_A, &two, &arrivals);
        let at: Vec<u32> = gone.iter().map(|c| c.0).collect();
        assert_eq!(at, cycles, "{arrivals:?}");
    }
    // A REF waits for its arrival, and what stands behind it waits with it; RFC counts from the REF.
    let list = [READ, REFRESH, WRITE];
    let (gone, finishes) = scheduled(&REFRESHED, &list, &[0, 60, 60]);
    let all = [
        (0, ACT, 0, 0),
        (10, RDA, 0, 0),
        (60, REF, 0, 1),
        (110, ACT, 0, 2),
        (120, WRA, 0, 2),
    ];
    assert_eq!((gone, finishes), (all.to_vec(), vec![24, 110, 120]));
}

/// At the last arrival there is, alone and behind others: built by history, and by what a state tells.
#[test]
fn at_the_last_arrival() {
    for (list, arrivals) in [
        (&[READ][..], &[LATEST][..]),
        (&[WRITE, READ], &[0, LATEST]),
        (&[WRITE, READ, [0, 3, 2, 2]], &[0, LATEST, LATEST]),
    ] {
        let laters = arriving(list, arrivals);
        let (room, finishes) = built_later(&TABLE_A, &laters);
        let (_, mut c) = start(7, &bytes_of(&TABLE_A));
        let mut same = vec![0; room.len()];
        let (a, bytes) = (bytes_of(&TABLE_A), laters.concat());
        let told = run_later_bytes(&mut c, 7, &a, &bytes, u32::MAX, &mut same);
        assert_eq!(same, room);
        let last = commands_of(&room).last().map_or(0, |c| c.cycle);
        assert_eq!(told.map(|told| told.cycles), Ok(last + 1));
        assert!(finishes[list.len() - 1] > LATEST);
        laters_pass_and_meet_the_bound(&TABLE_A, &laters);
    }
}

/// No rule looks at a cycle but by its distance from others: were all to come so much later, all would go so much later.
#[test]
fn all_later_by_as_much() {
    for (table, list) in lists_and_tables() {
        let (room, finishes) = built(&table, &list);
        for by in [1, 77, 5000] {
            let (later, last) = built_later(&table, &arriving(&list, &vec![by; list.len()]));
            let one = |c: &Command| command(c.cycle + by, c.kind, c.bank, c.transaction);
            let moved: Vec<u8> = commands_of(&room).iter().flat_map(one).collect();
            assert_eq!(later, moved);
            assert!(last.iter().zip(&finishes).all(|(&l, &f)| l == f + by));
        }
    }
}

/// Tables of every kind, with a list of so many transactions and arrivals a few cycles apart or many.
pub fn any(round: usize, numbers: &mut Numbers) -> (Vec<u16>, Vec<[u8; 8]>) {
    let of_32 = [TABLE_A, TABLE_B, LEAST, REFRESHED, ODD[1], ODD[3], ODD[11]];
    let of_40 = [TABLE_D, group_tables()[4]];
    let table = match round % 9 {
        k @ 7..=8 => of_40[k - 7].to_vec(),
        k => of_32[k].to_vec(),
    };
    let banks = usize::from(table[BANKS]);
    let mut arrival = 0;
    let one = |_| {
        let most = numbers.of(&[1, 1, 3, 12, 60, 250]);
        arrival += numbers.below(most) as u32;
        if table[RFC] != 0 && numbers.below(4) == 0 {
            return later(REFRESH, arrival);
        }
        let (start, bi) = (numbers.below(banks), 1 + numbers.below(banks.min(4)));
        let (kind, bc) = (numbers.byte() % 2, 1 + numbers.byte() % 3);
        later([kind, start as u8, bi as u8, bc], arrival)
    };
    let list = (0..round % 7).map(one).collect();
    (table, list)
}

/// Demand 3 with arrivals: each type comes exactly at its limit somewhere, and neither count alone would hold.
#[test]
fn any_lists_meet_the_bound() {
    let mut numbers = Numbers(83);
    let mut exact = std::collections::BTreeSet::new();
    let (mut past_arrival, mut past_predecessor) = (0, 0);
    for round in 0..2500 {
        let (table, list) = any(round, &mut numbers);
        let met = laters_pass_and_meet_the_bound(&table, &list);
        exact.extend(met.exact);
        past_arrival += u32::from(met.past_arrival);
        past_predecessor += u32::from(met.past_predecessor);
    }
    assert!(exact.into_iter().eq(0..=2));
    assert!(
        past_arrival > 300 && past_predecessor > 100,
        "{past_arrival} {past_predecessor}"
    );
}

/// "Transactions added at the end move no command of the earlier ones by a cycle", whenever they arrive.
#[test]
fn what_is_added_at_the_end_moves_nothing() {
    let mut numbers = Numbers(89);
    for round in 0..300 {
        let (table, list) = any(round, &mut numbers);
        assert_moves_nothing(&list, |list| built_later(&table, list));
    }
}
