//! Schedules and patterns under tables of 40 bytes: "Rules 6 and 9 take the long number within a group and the short across, over all earlier
//! commands, since a neighbour in another group hides an older one."

use super::put::{Cases, One, EXAMPLE_1};
use super::search::{bytes_of_records, hidden};
use super::told::JUDGE;
use crate::house::*;
use crate::records::BANKS;
use crate::rules::*;

pub fn groups(cases: &mut Cases) {
    sizes(cases);
    ranges(cases);
    pairs(cases);
    hidden_ones(cases);
    remainders(cases);
    one_group(cases);
    patterns(cases);
    searched(cases);
}

/// "Number 1 now refuses any size but 32 and 40": whatever the numbers are.
fn sizes(cases: &mut Cases) {
    let long = bytes_of(&[TABLE_D, TABLE_D].concat());
    for size in [0, 1, 31, 32, 33, 34, 38, 39, 40, 41, 42, 64, 80] {
        cases.by(&long[..size]);
    }
    cases.by(&[255; 40]);
    cases.by(&[0; 40]);
    cases.by(&[0; 39]);
}

/// Number 2 by the group count and by each long number, at their limits and one past them.
fn ranges(cases: &mut Cases) {
    let mut put = |place: usize, n: u16| {
        let mut t = TABLE_D;
        t[place] = n;
        cases.schedule(&t, &EXAMPLE_1);
    };
    for n in [0, 1, 8, 9, 256, 65_535] {
        put(GROUPS, n);
    }
    for (long, short) in LONGS {
        for n in [0, TABLE_D[short] - 1, TABLE_D[short], 1023, 1024, 65_535] {
            put(long, n);
        }
    }
    for (banks, groups) in [(1, 1), (1, 2), (3, 3), (3, 4), (7, 8), (8, 8), (0, 0)] {
        let t = grouped(&with(&[(BANKS, banks)]), groups, [9, 20, 13]);
        cases.schedule(&t, &EXAMPLE_1);
    }
    // The short number is out of range, its long one is not, and the other way round.
    for (long, short) in LONGS {
        let mut t = TABLE_D;
        (t[short], t[long]) = (1024, 1024);
        cases.schedule(&t, &EXAMPLE_1);
        (t[short], t[long]) = (1023, 1023);
        cases.schedule(&t, &EXAMPLE_1);
    }
}

/// The last record at this cycle, and one before it.
fn around(cases: &mut Cases, table: &[u16], before: &[One], last: One) {
    let (cycle, kind, bank) = last;
    for cycle in [cycle - 1, cycle] {
        cases.schedule(table, &[before, &[(cycle, kind, bank)]].concat());
    }
}

/// ACT to ACT, and each pair of data kinds: within a group, banks 0 and 4 of table D, and across, banks 0 and 1.
fn pairs(cases: &mut Cases) {
    for (bank, distance) in [(4, 20), (1, 6)] {
        around(cases, &TABLE_D, &[(0, ACT, 0)], (distance, ACT, bank));
    }
    for (earlier, later, near, across) in [
        (RD, RDA, 9, 4),
        (WR, WRA, 9, 4),
        (RD, WRA, 13, 8),
        (WR, RDA, 25, 18),
    ] {
        for (bank, distance) in [(4, near), (1, across), (0, near)] {
            let mut before = vec![(0, ACT, 0)];
            if bank != 0 {
                before.push((20, ACT, bank));
            }
            before.push((50, earlier, 0));
            around(cases, &TABLE_D, &before, (50 + distance, later, bank));
        }
    }
}

/// A neighbour in another group is nearer than the older command of the own group, and far enough; without it the same is told.
fn hidden_ones(cases: &mut Cases) {
    around(cases, &TABLE_D, &[(0, ACT, 0), (14, ACT, 1)], (20, ACT, 4));
    around(cases, &TABLE_D, &[(0, ACT, 0)], (20, ACT, 4));
    let opened = [(0, ACT, 0), (6, ACT, 1), (20, ACT, 4)];
    for (first, neighbour, last, distance) in [
        (RD, RD, RD, 9),
        (WR, WR, WR, 9),
        (RD, RD, WR, 13),
        (WR, WR, RD, 25),
        (WR, RD, RD, 25),
    ] {
        let from = 40;
        let between = if neighbour == first {
            from + 4
        } else {
            from + 18
        };
        let before = [&opened[..], &[(from, first, 0), (between, neighbour, 1)]].concat();
        around(cases, &TABLE_D, &before, (from + distance, last, 4));
    }
    // The own group's newest is the latest of all: then no neighbour matters.
    let before = [&opened[..], &[(40, RD, 1), (44, RD, 0)]].concat();
    around(cases, &TABLE_D, &before, (53, RD, 4));
}

/// "A bank's group is its number modulo the number of groups": two ACTs at the short distance, of banks that a division, or another count,
/// would put together or apart.
fn remainders(cases: &mut Cases) {
    for groups in 1..=8 {
        let t = grouped(&with(&[(BANKS, 16)]), groups, [4, 7, 6]);
        for bank in [1, 7, 8, groups as u8, 15] {
            let acts = [(0, ACT, 0), (6, ACT, bank)];
            cases.schedule(&t, &acts[..if bank == 0 { 1 } else { 2 }]);
        }
    }
    let five = grouped(&with(&[(BANKS, 5)]), 2, [4, 7, 6]);
    for (first, then) in [(4, 0), (4, 1), (3, 4), (2, 4)] {
        cases.schedule(&five, &[(0, ACT, first), (6, ACT, then)]);
    }
}

/// With one group the long number holds of every pair; equal to the short one, the same is told as under the table of 32 bytes.
fn one_group(cases: &mut Cases) {
    let same = grouped(&TABLE_A, 1, [4, 6, 6]);
    let long = grouped(&TABLE_A, 1, [9, 20, 13]);
    let before = [(0, ACT, 0), (20, ACT, 1), (40, RD, 0)];
    for cycle in [43, 44, 48, 49] {
        for t in [&TABLE_A[..], &same, &long] {
            cases.schedule(t, &[&before[..], &[(cycle, RDA, 1)]].concat());
        }
    }
    for cycle in [5, 6, 19, 20] {
        for t in [&TABLE_A[..], &same, &long] {
            cases.schedule(t, &[(0, ACT, 0), (cycle, ACT, 1)]);
        }
    }
}

/// Copy 2 breaks by a long number: its first ACT against an ACT of copy 1, and its first read against a write; each also where a neighbour
/// hides that one.
fn patterns(cases: &mut Cases) {
    for pattern in &long_in_copy_2() {
        for length in [59, 60, 200] {
            cases.pattern(&TABLE_D, pattern, length);
        }
        cases.pattern(&TABLE_A, pattern, 59);
    }
}

/// For each count of groups a record that a hidden command keeps from its place, at one cycle too early and at its place.
fn searched(cases: &mut Cases) {
    let mut numbers = Numbers(17);
    for (table, place, mut records) in hidden(&group_tables(), &mut numbers) {
        records.truncate(place + 1);
        cases.put(JUDGE, &table, 0, &bytes_of_records(&records));
        records[place].cycle += 1;
        cases.put(JUDGE, &table, 0, &bytes_of_records(&records));
    }
}
