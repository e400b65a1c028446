//! Request 7: "DDR4 bank groups."

mod any;
mod states;

use super::refusals::told;
use crate::desk::*;
use crate::house::*;
use crate::records::{commands_of, whole, BANKS, CCD, EDITION, RRD};
use crate::rules::{Times, ACT, RD, RDA, WR, WRA};
use crate::scheduler::longest_wait;

/// Cycle, kind and bank.
type One = (u32, u8, u8);

fn bytes(records: &[One]) -> Vec<u8> {
    let one = |&(cycle, kind, bank): &One| command(cycle, kind, bank, 0);
    records.iter().flat_map(one).collect()
}

/// The rule and the record that the judge names, if any.
fn broken(table: &[u16], records: &[One]) -> Option<(u8, usize)> {
    let answer = judge(table[EDITION], &bytes_of(table), &bytes(records));
    match answer.expect("whole records").1 {
        Verdict::Accepted => None,
        Verdict::Broken { rule, record } => Some((rule, record)),
    }
}

/// The last record breaks this rule at every cycle before this one that comes after the record before it, and none at it.
fn kept_until(table: &[u16], before: &[One], last: One, rule: u8) {
    let (cycle, kind, bank) = last;
    let from = before.last().map_or(0, |last| last.0 + 1);
    for early in from..cycle {
        let records = [before, &[(early, kind, bank)]].concat();
        assert_eq!(broken(table, &records), Some((rule, before.len())));
    }
    let records = [before, &[(cycle, kind, bank)]].concat();
    assert!(matches!(broken(table, &records), None | Some((10, _))));
}

/// "1 to 8, at most banks", "each at most 1,023; a long number below the short one is refused by number 2", by reader and writer alike.
#[test]
fn tables() {
    for banks in 1..=16 {
        for groups in [0, 1, 2, 7, 8, 9, 15, 16, 17, 65_535] {
            let t = grouped(&with(&[(BANKS, banks)]), groups, [9, 20, 13]);
            read_and_written(&t, (1..=8).contains(&groups) && groups <= banks);
        }
    }
    for (long, short) in LONGS {
        for n in (0..30).chain([1022, 1023, 1024, 1025, 65_535]) {
            let mut t = TABLE_D;
            t[long] = n;
            read_and_written(&t, n >= TABLE_A[short] && n <= 1023);
        }
        let mut t = TABLE_D;
        t[short] = t[long] + 1;
        read_and_written(&t, false);
    }
    for place in 0..16 {
        let mut t = TABLE_D;
        t[place] = 65_535;
        read_and_written(&t, place == EDITION);
    }
}

/// "Reading and writing each record are inverse": in 40 bytes and no other size.
fn read_and_written(t: &GroupTable, fine: bool) {
    let mut room = [9; 48];
    let (read, written) = (
        read_table(&bytes_of(t)),
        write_group_table(*t, &mut room[..40]),
    );
    if fine {
        assert_eq!((read, written), (Ok(*t), Ok(t[EDITION])));
        assert_eq!(room[..40], bytes_of(t));
    } else {
        assert_eq!((told(read), told(written)), ((2, 0, 0), (2, 0, 0)));
        assert_eq!(room, [9; 48]);
    }
}

/// "Number 1 now refuses any size but 32 and 40", before number 2; each writer has its own size.
#[test]
fn sizes() {
    let long = bytes_of(&[TABLE_D; 3].concat());
    for size in 0..=long.len() {
        let (good, zeros) = (read_table(&long[..size]), read_table(&vec![0; size]));
        match size {
            32 => assert_eq!(good, Ok(whole(&TABLE_A))),
            40 => assert_eq!(good, Ok(TABLE_D)),
            _ => assert_eq!(told(good), (1, 0, 0)),
        }
        let number = if size == 32 || size == 40 { 2 } else { 1 };
        assert_eq!(told(zeros), (number, 0, 0));
        let mut room = vec![9; size];
        assert_eq!(write_table(TABLE_A, &mut room).is_ok(), size == 32);
        assert_eq!(write_group_table(TABLE_D, &mut room).is_ok(), size == 40);
        if size != 40 {
            assert_eq!(told(write_group_table([0; 20], &mut room)), (1, 0, 0));
        }
    }
}

/// The long number within a group and the short across, for ACTs and for each pair of data kinds.
#[test]
fn pairs() {
    for bank in 1..8 {
        let near = bank == 4;
        let distance = if near { 20 } else { 6 };
        kept_until(&TABLE_D, &[(0, ACT, 0)], (distance, ACT, bank), 6);
        for (earlier, later, long, short) in [
            (RD, RDA, 9, 4),
            (WR, WRA, 9, 4),
            (RD, WRA, 13, 8),
            (WR, RDA, 25, 18),
        ] {
            let before = [(0, ACT, 0), (20, ACT, bank), (50, earlier, 0)];
            let distance = if near { long } else { short };
            kept_until(&TABLE_D, &before, (50 + distance, later, bank), 9);
        }
    }
}

/// "Over all earlier commands, since a neighbour in another group hides an older one."
#[test]
fn hidden() {
    let acts = [(0, ACT, 0), (6, ACT, 1), (12, ACT, 2)];
    kept_until(&TABLE_D, &acts, (20, ACT, 4), 6);
    // Reads in each of the other groups stand between.
    let mut t = grouped(&with(&[(2, 2), (CCD, 2)]), 4, [20, 6, 6]);
    let opened = [0, 6, 12, 18, 32].into_iter().zip(0..);
    let mut before: Vec<One> = opened.map(|(cycle, bank)| (cycle, ACT, bank)).collect();
    before.extend((0..4).map(|bank| (50 + 2 * u32::from(bank), RD, bank)));
    kept_until(&t, &before, (70, RDA, 4), 9);
    // And a read hides a write: WL + B + long WTR after it.
    t = TABLE_D;
    let before = [
        (0, ACT, 0),
        (6, ACT, 1),
        (20, ACT, 4),
        (40, WR, 0),
        (58, RD, 1),
    ];
    kept_until(&t, &before, (65, RDA, 4), 9);
    // The newest of its own group is near, but not the one that counts: a write before it is.
    let before = [(0, ACT, 0), (20, ACT, 4), (40, WR, 0), (65, RD, 0)];
    kept_until(&t, &before, (74, RDA, 4), 9);
}

/// "A bank's group is its number modulo the number of groups", whether or not the count divides the banks: 8 groups of 16 banks too.
#[test]
fn remainders() {
    for (banks, groups) in (1..=16).flat_map(|b| (1..=8.min(b)).map(move |g| (b, g))) {
        let t = grouped(&with(&[(BANKS, banks)]), groups, [4, 31, 6]);
        for (first, then) in (0..banks).flat_map(|a| (0..banks).map(move |b| (a, b))) {
            if first != then {
                let distance = if first % groups == then % groups {
                    31
                } else {
                    6
                };
                let before = [(0, ACT, first as u8)];
                kept_until(&t, &before, (distance, ACT, then as u8), 6);
            }
        }
    }
}

/// Copy 2 breaks by a long number, of rule 6 and of rule 9, with a neighbour that hides it and without; not under table A.
#[test]
fn patterns() {
    let broken = [(6, 0), (6, 0), (9, 1), (9, 1)];
    for (pattern, (rule, record)) in long_in_copy_2().iter().zip(broken) {
        let verdict = |t: &[u16], length| {
            let answer = judge_pattern(7, &bytes_of(t), &bytes(pattern), length);
            answer.expect("whole records").1
        };
        let broken = PatternVerdict::Broken {
            rule,
            copy: 2,
            record,
        };
        assert_eq!(verdict(&TABLE_A, 59), PatternVerdict::Accepted);
        assert_eq!(verdict(&TABLE_D, 59), broken);
        assert_eq!(verdict(&TABLE_D, 60), PatternVerdict::Accepted);
    }
}

/// As table D has it: reads of banks 0, 1 and 4, of which the last is of the first's group.
#[test]
fn schedules() {
    let (room, finishes) = built(&TABLE_D, &[[0, 0, 1, 1], [0, 1, 1, 1], [0, 4, 1, 2]]);
    let rows = commands_of(&room);
    let rows: Vec<One> = rows.iter().map(|c| (c.cycle, c.kind, c.bank)).collect();
    let right = [
        (0, ACT, 0),
        (6, ACT, 1),
        (10, RDA, 0),
        (16, RDA, 1),
        (20, ACT, 4),
        (30, RD, 4),
        (39, RDA, 4),
    ];
    assert_eq!((rows, finishes), (right.to_vec(), vec![24, 30, 53]));
}

/// "In the bound CCD, RRD and WTR are the long ones": S 34, D 20, X 25 of table D.
#[test]
fn bounds() {
    assert_eq!(longest_wait(&Times::of(&TABLE_D)), 34);
    for (bi, bc, cycles) in [
        (1, 1, 44),
        (2, 1, 65),
        (1, 4, 71),
        (4, 2, 116),
        (1, 16, 179),
    ] {
        assert_eq!(bound(7, &bytes_of(&TABLE_D), bi, bc), Ok((7, cycles)));
    }
    // Each long number where it decides: RRD in S and in D, WTR and CCD in X.
    let of = |longs| bytes_of(&grouped(&TABLE_A, 2, longs));
    assert_eq!(bound(7, &of([4, 100, 6]), 1, 1), Ok((7, 100)));
    assert_eq!(bound(7, &of([4, 100, 6]), 2, 1), Ok((7, 201)));
    assert_eq!(bound(7, &of([4, 6, 900]), 1, 2), Ok((7, 916)));
    assert_eq!(bound(7, &of([500, 6, 6]), 1, 2), Ok((7, 1004)));
}
