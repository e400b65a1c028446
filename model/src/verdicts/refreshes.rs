//! Schedules and patterns with refreshes: rules 1, 11 and 12 broken by one cycle and just kept, and which rule is told first.

use super::put::{Cases, One, EXAMPLE_1};
use crate::house::*;
use crate::records::{BANKS, RFC, RRD};
use crate::rules::*;

pub fn refreshes(cases: &mut Cases) {
    rule_1(cases);
    rule_11(cases);
    rule_12(cases);
    after_the_others(cases);
    no_act(cases);
    patterns(cases);
    wide(cases);
}

/// The last record at this cycle, and one before it.
fn around(cases: &mut Cases, table: &[u16], before: &[One], last: One) {
    let (cycle, kind, bank) = last;
    for cycle in [cycle - 1, cycle] {
        cases.schedule(table, &[before, &[(cycle, kind, bank)]].concat());
    }
}

/// "Rule 1 admits kind 5 with bank 0 only", whether the table has a refresh or not.
fn rule_1(cases: &mut Cases) {
    for table in [TABLE_A, REFRESHED] {
        for bank in [0, 1, 7, 8, 255] {
            cases.schedule(&table, &[(0, REF, bank)]);
        }
        cases.schedule(&table, &[(0, 6, 0)]);
        cases.schedule(&table, &[(0, REF, 0), (1, REF, 0)]);
        cases.schedule(&table, &[(9, REF, 0), (9, REF, 0)]);
    }
    let one_bank = with(&[(BANKS, 1), (RFC, 9)]);
    cases.schedule(&one_bank, &[(0, REF, 0), (9, ACT, 0), (19, RDA, 0)]);
    cases.schedule(&one_bank, &[(0, REF, 1)]);
}

/// By ACT + RAS, RD + RTP, WR + WL + B + WR, of bank 0 and of others, and while a bank is open.
fn rule_11(cases: &mut Cases) {
    let two = [(0, ACT, 0), (6, ACT, 1), (16, WRA, 1), (34, RDA, 0)];
    let write_then_read = [(0, ACT, 7), (10, WR, 7), (28, RDA, 7)];
    for (before, cycle) in [
        (&EXAMPLE_1[..], 38),
        (&[(0, ACT, 0), (30, RDA, 0)], 46),
        (&[(0, ACT, 0), (10, WRA, 0)], 44),
        (&[(0, ACT, 3), (10, WRA, 3)], 44),
        (&write_then_read, 44),
        (&two, 50),
    ] {
        around(cases, &REFRESHED, before, (cycle, REF, 0));
    }
    around(cases, &TABLE_A, &EXAMPLE_1, (38, REF, 0));
    for open in [&two[..1], &two[..3], &write_then_read[..2]] {
        cases.schedule(&REFRESHED, &[open, &[(60_000, REF, 0)]].concat());
    }
    // The bank is closed and opened again.
    let again = [&EXAMPLE_1[..], &[(38, ACT, 0)]].concat();
    cases.schedule(&REFRESHED, &[&again[..], &[(76, REF, 0)]].concat());
}

/// "An ACT or REF less than RFC after a REF", whatever stands between, at the ends of RFC's range.
fn rule_12(cases: &mut Cases) {
    for rfc in [2, 50, 255, 256, 1023] {
        let table = with(&[(RFC, rfc)]);
        let from = 9 + u32::from(rfc);
        around(cases, &table, &[(9, REF, 0)], (from, REF, 0));
        around(cases, &table, &[(9, REF, 0)], (from, ACT, 5));
    }
    let read = [&EXAMPLE_1[..], &[(38, REF, 0)]].concat();
    around(cases, &REFRESHED, &read, (88, ACT, 0));
    let next = [(88, ACT, 0), (98, RDA, 0)];
    cases.schedule(&REFRESHED, &[&read[..], &next].concat());
    // The latest of several REFs decides.
    around(
        cases,
        &REFRESHED,
        &[(0, REF, 0), (60, REF, 0)],
        (110, ACT, 1),
    );
    // As late as can be: no sum wraps.
    let top = u32::MAX;
    around(cases, &REFRESHED, &[(top - 50, REF, 0)], (top, REF, 0));
    around(cases, &REFRESHED, &[(top - 50, REF, 0)], (top, ACT, 0));
    cases.schedule(&REFRESHED, &[(top, REF, 0), (49, REF, 0)]);
}

/// "Both are tested after rule 9": an ACT that breaks 1, 2, 5, 6 or 7 as well, and a REF that breaks 1 or 2.
fn after_the_others(cases: &mut Cases) {
    let read = [&EXAMPLE_1[..], &[(38, REF, 0)]].concat();
    for (place, bank) in [(RC, 0), (RRD, 1)] {
        let table = with(&[(RFC, 50), (place, 60)]);
        around(cases, &table, &read, (60, ACT, bank));
    }
    cases.schedule(&REFRESHED, &[&read[..], &[(40, ACT, 8)]].concat());
    cases.schedule(&REFRESHED, &[&read[..], &[(38, ACT, 1)]].concat());
    cases.schedule(&REFRESHED, &[(0, ACT, 0), (5, REF, 1)]);
    cases.schedule(&REFRESHED, &[(0, ACT, 0), (0, REF, 0)]);
    let mut four: Vec<One> = (0..4).map(|k| (6 * k, ACT, k as u8)).collect();
    four.extend((0..4).map(|k| (30 + 4 * k, RDA, k as u8)));
    four.push((60, REF, 0));
    around(cases, &with(&[(RFC, 50), (FAW, 80)]), &four, (80, ACT, 7));
}

/// A REF is not among rule 6's ACTs, nor among rule 7's four; it opens and closes nothing, bank 0 neither.
fn no_act(cases: &mut Cases) {
    let rfc_1 = with(&[(RFC, 1), (RRD, 30), (FAW, 255)]);
    let refs = [(0, REF, 0), (1, REF, 0), (2, REF, 0), (3, REF, 0)];
    let read = [(4, ACT, 0), (14, RDA, 0), (42, REF, 0)];
    for end in [
        &read[..2],
        &[(4, RDA, 0)],
        &[&read[..], &[(43, ACT, 0), (53, WRA, 0)]].concat(),
        &[&read[..], &[(43, RD, 0)]].concat(),
    ] {
        cases.schedule(&rfc_1, &[&refs[..], end].concat());
    }
    let each = |k: u32| {
        [
            (40 * k, ACT, 0),
            (40 * k + 10, RDA, 0),
            (40 * k + 39, REF, 0),
        ]
    };
    let four: Vec<One> = (0..4).flat_map(each).collect();
    around(cases, &rfc_1, &four, (255, ACT, 0));
}

/// Broken in the first copy, in the second by rule 11 and by rule 12, and in the third and fifth, where a REF is no ACT.
fn patterns(cases: &mut Cases) {
    let refresh_last = [&EXAMPLE_1[..], &[(38, REF, 0)]].concat();
    let refresh_first = [(0, REF, 0), (50, ACT, 0), (60, WRA, 0)];
    for (pattern, least) in [
        (&[(0, REF, 0)][..], 50),
        (&[(7, REF, 0), (57, REF, 0)], 100),
        (&refresh_last, 88),
        (&refresh_first, 94),
    ] {
        for length in [least - 1, least, u32::MAX] {
            cases.pattern(&REFRESHED, pattern, length);
        }
    }
    for length in [1, 2] {
        cases.pattern(&TABLE_A, &[(0, REF, 0)], length);
    }
    cases.pattern(&REFRESHED, &[(7, REF, 0), (56, REF, 0)], 200);
    cases.pattern(&REFRESHED, &[(7, REF, 1)], 200);
    cases.pattern(&REFRESHED, &[(0, ACT, 0), (7, REF, 0)], 200);
    let top = u32::MAX;
    for length in [1022, 1023, top] {
        cases.pattern(&GREATEST, &[(top, REF, 0)], length);
    }
    let rfc_1 = with(&[(RFC, 1), (FAW, 200)]);
    for length in [39, 49, 50] {
        cases.pattern(&rfc_1, &refresh_last, length);
    }
    let two = [(39, ACT, 1), (49, RDA, 1), (77, REF, 0)];
    for length in [78, 99, 100] {
        let pattern = [&refresh_last[..], &two].concat();
        cases.pattern(&rfc_1, &pattern, length);
    }
}

/// RD to WR by an RL past 255.
fn wide(cases: &mut Cases) {
    around(cases, &ODD[6], &[(0, ACT, 0), (2, RD, 0)], (1028, WRA, 0));
}
