//! Any tables of 40 bytes, and any lists under them.

use super::*;
use crate::desk::tests::laws::passes_and_meets_the_bound;
use crate::records::WTR;
use crate::rules::{breaks, first_broken, Record};

fn any_table(numbers: &mut Numbers) -> GroupTable {
    let mut t = TABLE_A.map(|_| 1 + numbers.below(12) as u16);
    t[BANKS] = 1 + numbers.below(16) as u16;
    t[CCD] = t[2].max(2) + numbers.below(3) as u16;
    for _ in 0..numbers.below(3) {
        t[4 + numbers.below(12)] = 20 + u16::from(numbers.byte()) / 2;
    }
    let groups = 1 + numbers.below(usize::from(t[BANKS].min(8))) as u16;
    let more = |n: u16, numbers: &mut Numbers| n + numbers.of(&[0, 1, 3, 9, 40]);
    let longs = [t[CCD], t[RRD], t[WTR]].map(|n| more(n, numbers));
    grouped(&t, groups, longs)
}

/// What is built is accepted and comes within its bound, and a run gives the same, whatever the count of groups.
#[test]
fn any_lists() {
    let mut numbers = Numbers(43);
    let mut exact = std::collections::BTreeSet::new();
    for round in 0..1200 {
        let table = any_table(&mut numbers);
        let banks = usize::from(table[BANKS]);
        let list: Vec<[u8; 4]> = (0..1 + round % 6)
            .map(|_| match numbers.below(5) as u8 {
                4 => REFRESH_BYTES,
                kind => {
                    let (start, bi) = (numbers.below(banks), 1 + numbers.below(banks.min(5)));
                    [kind % 2, start as u8, bi as u8, 1 + numbers.byte() % 3]
                }
            })
            .collect();
        exact.extend(passes_and_meets_the_bound(&table, &list));
        let (room, _) = built(&table, &list);
        let (edition, table) = (table[EDITION], bytes_of(&table));
        let (_, mut c) = start(edition, &table);
        let mut same = vec![0; room.len()];
        run_bytes(&mut c, edition, &table, &list.concat(), u32::MAX, &mut same)
            .expect("nothing is refused");
        assert_eq!(same, room);
    }
    assert!(exact.into_iter().eq(0..=2));
}

/// The latest ACT, RD and WR of each group decide: of any legal schedule, at any cycle, for any next record.
#[test]
fn the_latest_of_each_group_decide() {
    let mut numbers = Numbers(47);
    for _ in 0..400 {
        let table = any_table(&mut numbers);
        let banks = usize::from(table[BANKS]);
        let list = [[numbers.byte() % 2, 0, banks.min(6) as u8, 2], [0, 0, 1, 1]];
        let (room, _) = built(&table, &list);
        let all: Vec<Record> = commands_of(&room).iter().map(Record::of).collect();
        let t = Times::of(&table);
        let before = &all[..1 + numbers.below(all.len())];
        let sort = |r: &Record| (t.group(r.bank), r.acts(), r.reads(), r.writes());
        // Only the newest of each sort: what came before it in its group is dropped.
        let is_newest =
            |(at, r): &(usize, &Record)| !before[at + 1..].iter().any(|e| sort(e) == sort(r));
        let newest = before.iter().enumerate().filter(is_newest);
        let newest: Vec<Record> = newest.map(|(_, r)| *r).collect();
        let from = before[before.len() - 1].cycle;
        for kind in [ACT, RD, WR] {
            let bank = numbers.below(banks) as u8;
            for cycle in from + 1..from + 40 {
                let r = Record { cycle, kind, bank };
                for rule in [6, 9] {
                    let by = |before| breaks(rule, &table, before, &r);
                    assert_eq!(by(before), by(&newest[..]));
                }
            }
        }
        assert_eq!(first_broken(&table, &[], &all[0]), None);
    }
}
