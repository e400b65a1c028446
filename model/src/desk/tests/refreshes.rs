//! Request 5: "Refresh, and wider numbers."

mod states;
mod verdicts;

use super::laws::{passes_and_meets_the_bound, transaction};
use super::refusals::told;
use crate::desk::*;
use crate::house::*;
use crate::listing::schedule_lines;
use crate::records::{commands_of, whole, B, BANKS, CCD, EDITION, PLAIN, RFC};
use crate::rules::{ACT, RDA, REF, WRA};

const REFRESH: [u8; 4] = REFRESH_BYTES;

fn refresh() -> Transaction {
    transaction(2, 0, 0, 0)
}

/// Cycle, kind, bank and transaction of each command, and the finishing cycles.
type Gone = (Vec<(u32, u8, u8, u16)>, Vec<u32>);

fn scheduled(table: &[u16], list: &[[u8; 4]]) -> Gone {
    let (room, finishes) = built(table, list);
    let fields = |c: &Command| (c.cycle, c.kind, c.bank, c.transaction);
    let gone = commands_of(&room).iter().map(fields).collect();
    (gone, finishes)
}

/// "Number 1 no longer looks at it", and all thirteen timing numbers go to 1,023.
#[test]
fn tables() {
    for place in B..=RFC {
        for n in [0, 1, 255, 256, 1023, 1024, 65535] {
            // So that B and CCD are held by the ceiling alone.
            let mut t = with(&[(B, 1), (CCD, 1023)]);
            t[place] = n;
            let fine = match place {
                RFC => n <= 1023,
                CCD => (2..=1023).contains(&n),
                _ => (1..=1023).contains(&n),
            };
            let mut room = [9; 32];
            let (read, written) = (read_table(&bytes_of(&t)), write_table(t, &mut room));
            if fine {
                assert_eq!((read, written), (Ok(whole(&t)), Ok(7)));
                assert_eq!(room[..], bytes_of(&t));
            } else {
                assert_eq!((told(read), told(written)), ((2, 0, 0), (2, 0, 0)));
                assert_eq!(room, [9; 32]);
            }
        }
    }
    let over = with(&[(RFC, 65535)]);
    assert_eq!(told(read_table(&bytes_of(&over)[..31])), (1, 0, 0));
    assert_eq!(told(write_table(over, &mut [0; 33])), (1, 0, 0));
    assert!(read_table(&bytes_of(&GREATEST)).is_ok());
}

/// "A transaction of type 2, with the other three bytes 0, is a refresh", and is "accepted where no table is given".
#[test]
fn single_records() {
    for place in 0..4 {
        for n in 0..=255 {
            let mut x = REFRESH;
            x[place] = n;
            let mut room = [9; 4];
            let answers = (
                read_transaction(&x),
                write_transaction(Transaction::of(&x), &mut room),
            );
            if x == REFRESH {
                assert_eq!((answers, room), ((Ok(refresh()), Ok(0)), x));
            } else {
                let (read, written) = answers;
                assert_eq!((told(read), told(written)), ((4, 0, 0), (4, 0, 0)));
                assert_eq!(room, [9; 4]);
            }
        }
    }
}

/// "It's refused by number 4 when RFC is 0", by each call that is given a list.
#[test]
fn without_refresh() {
    for (table, list, number) in [
        (TABLE_A, vec![READ, REFRESH], Some((4, 1, 7))),
        (TABLE_A, vec![REFRESH], Some((4, 0, 7))),
        (REFRESHED, vec![READ, REFRESH, REFRESH], None),
        (REFRESHED, vec![REFRESH, [2, 0, 0, 1]], Some((4, 1, 70))),
        (REFRESHED, vec![REFRESH, [2, 0, 1, 1]], Some((4, 1, 70))),
        (REFRESHED, vec![REFRESH, [3, 0, 0, 0]], Some((4, 1, 70))),
    ] {
        let (edition, bytes, list) = (table[EDITION], bytes_of(&table), list.concat());
        let refused = |answer: Result<(), Refusal>| answer.err().map(|_| told(answer));
        let (mut room, mut finishes) = ([0; 64], [0; 3]);
        let answer = schedule_bytes(edition, &bytes, &list, &mut room, &mut finishes);
        assert_eq!(refused(answer.map(|_| ())), number);
        let answer = read_transactions(edition, &bytes, &list, &mut [refresh(); 3]);
        assert_eq!(refused(answer.map(|_| ())), number);
        let (_, mut c) = start(edition, &bytes);
        let answer = run_bytes(&mut c, edition, &bytes, &list, 9, &mut room);
        assert_eq!(refused(answer.map(|_| ())), number);
    }
    // The bound has no answer for a refresh.
    let answer = bound(70, &bytes_of(&REFRESHED), 0, 0);
    assert_eq!(told(answer), (4, 0, 70));
}

/// "A refresh finishes at its cycle + RFC": first, two in a row, and only refreshes.
#[test]
fn refreshes_alone() {
    let (gone, finishes) = scheduled(&REFRESHED, &[REFRESH; 3]);
    assert_eq!(gone, [(0, REF, 0, 0), (50, REF, 0, 1), (100, REF, 0, 2)]);
    assert_eq!(finishes, [50, 100, 150]);
    let (gone, finishes) = scheduled(&GREATEST, &[REFRESH; 256]);
    assert_eq!(gone[255], (255 * 1023, REF, 0, 255));
    assert_eq!(finishes[255], 256 * 1023);
    let rfc_1 = with(&[(RFC, 1)]);
    assert_eq!(scheduled(&rfc_1, &[REFRESH; 3]).1, [1, 2, 3]);
}

/// A REF waits for the precharge of a bank just closed, by its read (RAS + RP is later here) or its write; an ACT for RFC.
#[test]
fn between_others() {
    let (gone, finishes) = scheduled(&REFRESHED, &[READ, REFRESH, READ]);
    let reads = [
        (0, ACT, 0, 0),
        (10, RDA, 0, 0),
        (38, REF, 0, 1),
        (88, ACT, 0, 2),
        (98, RDA, 0, 2),
    ];
    assert_eq!((gone, finishes), (reads.to_vec(), vec![24, 88, 112]));
    let (gone, finishes) = scheduled(&REFRESHED, &[WRITE, REFRESH, REFRESH]);
    let writes = [
        (0, ACT, 0, 0),
        (10, WRA, 0, 0),
        (44, REF, 0, 1),
        (94, REF, 0, 2),
    ];
    assert_eq!((gone, finishes), (writes.to_vec(), vec![10, 94, 144]));
    // 44 is S after the write's last command: as late as a REF can come.
}

/// "Rule 11 asks every one of the table's banks": the list's last bank too, which is closed before the others.
#[test]
fn a_refresh_waits_for_every_bank() {
    let (gone, _) = scheduled(&REFRESHED, &[[1, 7, 1, 1], [0, 0, 1, 1], REFRESH]);
    assert_eq!(
        gone[1..4],
        [(6, ACT, 0, 1), (10, WRA, 7, 0), (28, RDA, 0, 1)]
    );
    assert_eq!(gone[4..], [(44, REF, 0, 2)]);
}

/// A REF at the head of its queue bars every later ACT, to any bank, "the data queue goes on meanwhile".
#[test]
fn a_refresh_bars_what_stands_behind_it() {
    let list = [[0, 0, 4, 2], REFRESH, [0, 5, 1, 1], [1, 6, 3, 1]];
    let (gone, finishes) = scheduled(&REFRESHED, &list);
    let place = gone.iter().position(|c| c.1 == REF).expect("it went");
    assert_eq!(gone[place], (57, REF, 0, 1));
    // As example 5 has it, and only then what is behind.
    let of_first = gone[..place].iter().filter(|c| c.3 == 0);
    assert_eq!((of_first.count(), place), (12, 12));
    assert_eq!(gone[place - 1], (38, RDA, 3, 0));
    assert_eq!(gone[place + 1], (107, ACT, 5, 2));
    assert_eq!(finishes[..3], [52, 107, 131]);
}

/// "A refresh is one command due."
#[test]
fn room() {
    let (table, list) = (bytes_of(&REFRESHED), [REFRESH, READ, REFRESH].concat());
    let build = |size: usize| schedule_bytes(70, &table, &list, &mut vec![0; size], &mut [0; 3]);
    assert_eq!(told(build(31)), (5, 0, 70));
    assert_eq!(build(32).map(|told| told.commands), Ok(4));
    let (_, mut c) = start(70, &table);
    let mut run = |count, size: usize| {
        let answer = run_bytes(&mut c, 70, &table, &list, count, &mut vec![0; size]);
        answer.map(|told| (told.commands, told.cycles))
    };
    assert_eq!(told(run(u32::MAX, 31)), (5, 0, 70));
    assert_eq!(run(1, 8), Ok((1, 1)));
    // One is gone of the four: three are left.
    assert_eq!(told(run(u32::MAX, 23)), (5, 0, 70));
    assert_eq!(run(u32::MAX, 24), Ok((3, 88)));
    assert_eq!(run(u32::MAX, 0), Ok((0, 0)));
}

#[test]
fn the_listing() {
    let list = [READ, REFRESH].concat();
    let told =
        "edition 70 commands 3\n0 ACT 0 0\n10 RDA 0 0\n38 REF 0 1\nfinish 0 24\nfinish 1 88\n";
    let lines = schedule_lines(PLAIN, 70, &bytes_of(&REFRESHED), &list, 64, 2);
    assert_eq!(lines.as_deref(), Ok(told));
}

/// Wrapping lists around a refresh, over every number of banks: the judge accepts them, and each REF has all before it behind.
#[test]
fn every_number_of_banks() {
    for banks in 1..=16 {
        let table = with(&[(BANKS, banks.into()), (RFC, 33)]);
        let all = |kind| [kind, banks - 1, banks, 2];
        let (room, _) = built(&table, &[all(1), REFRESH, all(0), REFRESH]);
        let answer = judge(7, &bytes_of(&table), &room);
        assert_eq!(answer, Ok((7, Verdict::Accepted)));
        let order: Vec<u16> = commands_of(&room).iter().map(|c| c.transaction).collect();
        assert!(order.windows(2).all(|pair| pair[0] <= pair[1]));
    }
}

/// A table that has a refresh, of small numbers and some that stand out.
fn any_table(numbers: &mut Numbers) -> Table {
    let mut t = TABLE_A.map(|_| 1 + numbers.below(12) as u16);
    t[BANKS] = 1 + numbers.below(5) as u16;
    t[CCD] = t[B].max(2) + numbers.below(3) as u16;
    for _ in 0..numbers.below(3) {
        t[4 + numbers.below(12)] = 20 + u16::from(numbers.byte()) / 2;
    }
    t
}

/// Any list with refreshes: each REF within S of where its count starts, and what follows it within its bound of the refresh's finish.
/// Each type meets its limit exactly somewhere.
#[test]
fn any_lists() {
    let mut numbers = Numbers(41);
    let mut exact = std::collections::BTreeSet::new();
    for round in 0..1500 {
        let table = any_table(&mut numbers);
        let banks = usize::from(table[BANKS]);
        let list: Vec<[u8; 4]> = (0..1 + round % 7)
            .map(|_| match numbers.below(3) as u8 {
                2 => REFRESH,
                kind => {
                    let (start, bi) = (numbers.below(banks), 1 + numbers.below(banks));
                    [kind, start as u8, bi as u8, 1 + numbers.byte() % 3]
                }
            })
            .collect();
        exact.extend(passes_and_meets_the_bound(&table, &list));
    }
    assert!(exact.into_iter().eq(0..=2));
}
