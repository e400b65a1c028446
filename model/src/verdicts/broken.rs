//! Schedules that break each rule at each place, made by hand.

use super::put::{Cases, EXAMPLE_1};
use crate::house::*;
use crate::records::BANKS;
use crate::rules::*;

/// Rules 1 to 3 at the first, a middle and the last record.
pub fn first_rules(cases: &mut Cases) {
    let fine = [
        (3, ACT, 0),
        (13, RD, 0),
        (20, ACT, 1),
        (30, RDA, 0),
        (34, WRA, 1),
    ];
    for place in 0..fine.len() {
        let mut others = vec![];
        let (cycle, kind, bank) = fine[place];
        others.push((cycle, 6, bank));
        others.extend([8, 255].map(|bank| (cycle, kind, bank)));
        others.push((cycle, WRA, 7));
        others.push((cycle, kind, 1 - bank));
        if place > 0 {
            let before = fine[place - 1].0;
            others.extend([before, before - 1].map(|cycle| (cycle, kind, bank)));
            others.push((cycle, ACT, 0));
        }
        for other in others {
            let mut records = fine;
            records[place] = other;
            cases.schedule(&TABLE_A, &records);
        }
    }
    for banks in [1, 2, 15, 16] {
        for bank in [banks - 1, banks] {
            let records = [(0, ACT, bank as u8), (10, RDA, bank as u8)];
            cases.schedule(&with(&[(BANKS, banks)]), &records);
            cases.pattern(&with(&[(BANKS, banks)]), &records, 38);
        }
    }
    for kind in [6, 7, 8, 128, 255] {
        cases.schedule(&TABLE_A, &[(0, kind, 0)]);
    }
}

/// Rules 4 to 9 at the first record that can break them, by the cycle that is just too early and the one that is not.
pub fn later_rules(cases: &mut Cases) {
    let rc_60 = with(&[(RC, 60)]);
    let acts = [(0, ACT, 0), (6, ACT, 1), (12, ACT, 2), (18, ACT, 3)];
    let firsts = [
        (TABLE_A, &EXAMPLE_1[..], (37, ACT, 0)),
        (rc_60, &EXAMPLE_1[..], (59, ACT, 0)),
        (TABLE_A, &acts[..1], (5, ACT, 1)),
        (TABLE_A, &acts[..], (31, ACT, 4)),
        (TABLE_A, &acts[..1], (9, RDA, 0)),
        (TABLE_A, &[(0, ACT, 0), (10, WR, 0)], (27, RDA, 0)),
        (TABLE_A, &[(0, ACT, 0), (10, RD, 0)], (17, WRA, 0)),
        // CCD is the greater one: WR to RD, and RD to WR with a difference below 0.
        (ODD[10], &[(0, ACT, 0), (77, WR, 0)], (117, RDA, 0)),
        (ODD[5], &[(0, ACT, 0), (2, RD, 0)], (3, WRA, 0)),
    ];
    for (table, before, (cycle, kind, bank)) in firsts {
        for cycle in [cycle, cycle + 1] {
            let records = [before, &[(cycle, kind, bank)]].concat();
            cases.schedule(&table, &records);
            cases.schedule(&table, &[&records[..], &[(200, RDA, bank)]].concat());
        }
    }
}

/// Rule 10, with the bank that the first, a middle or the last record left open.
pub fn left_open(cases: &mut Cases) {
    let fine = [
        (0, ACT, 0),
        (6, ACT, 7),
        (10, RDA, 0),
        (18, RDA, 7),
        (40, ACT, 3),
        (50, WRA, 3),
    ];
    for cut in 1..=fine.len() {
        cases.schedule(&TABLE_A, &fine[..cut]);
        cases.pattern(&TABLE_A, &fine[..cut], 100);
    }
    for place in [2, 3, 5] {
        let mut records = fine;
        records[place].1 -= 1;
        cases.schedule(&TABLE_A, &records);
        cases.pattern(&TABLE_A, &records, 100);
    }
}

/// Two records are broken, and the first is named, whether its rule is the lower or not.
pub fn two_records(cases: &mut Cases) {
    let fine = [
        (0, ACT, 0),
        (10, RD, 0),
        (14, RD, 0),
        (20, ACT, 1),
        (30, RDA, 1),
        (34, RDA, 0),
    ];
    let faults = [
        (1, (9, RD, 0)),
        (1, (10, RD, 2)),
        (2, (12, WR, 0)),
        (3, (19, 9, 1)),
        (3, (20, ACT, 0)),
        (4, (29, RDA, 1)),
        (5, (30, RDA, 0)),
        (5, (32, RDA, 0)),
    ];
    for (i, &(first, a)) in faults.iter().enumerate() {
        for &(second, b) in faults[i..].iter().filter(|f| f.0 > first) {
            let mut records = fine;
            records[first] = a;
            records[second] = b;
            cases.schedule(&TABLE_A, &records);
        }
    }
}
