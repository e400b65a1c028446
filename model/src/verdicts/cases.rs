//! The cases themselves: the worked examples, built schedules, each rule at each place, the ends of every range, sizes one off, and
//! editions that are not expected.

use super::broken::*;
use super::editions::editions;
use super::groups::groups;
use super::put::{bytes_of_some, Cases, EXAMPLE_1};
use super::refreshes::refreshes;
use super::search::*;
use super::told::{first_case, JUDGE, JUDGE_PATTERN};
use crate::house::*;
use crate::records::{whole, BANKS, CCD, EDITION, RFC};
use crate::rules::*;
use crate::stored;

const TOP: u64 = u32::MAX as u64;

pub fn cases() -> Vec<u8> {
    let mut cases = Cases::default();
    let mut numbers = Numbers(11);
    worked(&mut cases);
    legal(&mut cases);
    wraps(&mut cases);
    first_rules(&mut cases);
    later_rules(&mut cases);
    left_open(&mut cases);
    two_records(&mut cases);
    refreshes(&mut cases);
    for (table, place, records) in too_early(&mut numbers) {
        let bytes = bytes_of_records(&records);
        cases.put(JUDGE, &table, 0, &bytes);
        let rule = first_broken(&whole(&table), &records[..place], &records[place]);
        if rule == Some(5) || rule == Some(7) {
            cases.put(JUDGE_PATTERN, &table, 4000, &bytes);
        }
        if ODD[..6].contains(&table) {
            at_the_top(&mut cases, &table, &records[..=place]);
        }
    }
    for (table, records) in broken_sets(&mut numbers) {
        cases.put(JUDGE, &table, 0, &bytes_of_records(&records));
    }
    for (table, records, length) in patterns(&mut numbers) {
        cases.put(JUDGE_PATTERN, &table, length, &bytes_of_records(&records));
    }
    top_patterns(&mut cases);
    sizes(&mut cases);
    refused_tables(&mut cases);
    editions(&mut cases);
    groups(&mut cases);
    not_cases(&mut cases);
    cases.0
}

/// The tables, as bytes, and the schedules of the cases that judge one: those that hold whole records.
pub fn schedules() -> Vec<(Vec<u8>, Vec<u8>)> {
    let input = cases();
    let (all, _) = stored::read(&input, first_case);
    all.iter()
        .filter(|case| case.call == JUDGE && case.bytes.len() % 8 == 0)
        .map(|case| (case.table.to_vec(), case.bytes.to_vec()))
        .collect()
}

fn worked(cases: &mut Cases) {
    let five = built(&TABLE_A, &[[0, 0, 4, 2]]).0;
    for length in [1, 37, 38, 39, u32::MAX] {
        cases.pattern(&TABLE_A, &EXAMPLE_1, length);
        cases.pattern(&TABLE_B, &EXAMPLE_1, length);
        cases.put(JUDGE_PATTERN, &TABLE_A, length, &five);
    }
    for act in [43, 44] {
        let start = [(0, ACT, 0), (10, WR, 0), (28, RDA, 0)];
        let whole = [&start[..], &[(act, ACT, 0), (act + 10, RDA, 0)]].concat();
        cases.schedule(&TABLE_C, &whole);
        cases.pattern(&TABLE_C, &whole, 200);
    }
}

fn legal(cases: &mut Cases) {
    let lists: [&[[u8; 4]]; 8] = [
        &[],
        &[[0, 0, 1, 1]],
        &[[0, 0, 1, 1], [0, 0, 1, 1]],
        &[[1, 0, 1, 1], [0, 0, 1, 1]],
        &[[0, 0, 1, 1], [1, 1, 1, 1]],
        &[[0, 0, 4, 2]],
        &[[0, 0, 5, 1]],
        &[[1, 6, 3, 2], [0, 7, 2, 3], [1, 5, 5, 1]],
    ];
    for list in lists {
        cases.put(JUDGE, &TABLE_A, 0, &built(&TABLE_A, list).0);
        cases.put(JUDGE, &TABLE_B, 1, &built(&TABLE_B, list).0);
    }
    let ends = [LEAST, GREATEST];
    for table in ODD.iter().chain(&ends) {
        let (last, banks) = (table[BANKS] as u8 - 1, table[BANKS].min(5) as u8);
        let list = [[0, last, banks, 1], [1, 0, 1, 3], [0, last, 1, 2]];
        cases.put(JUDGE, table, u32::MAX, &built(table, &list).0);
        if ends.contains(table) {
            cases.put(JUDGE_PATTERN, table, 4000, &built(table, &list).0);
        }
    }
    let (long, _) = built(&LEAST, &[[0, 15, 16, 16], [1, 12, 3, 3]]);
    cases.put(JUDGE, &LEAST, 0, &long);
    cases.put(JUDGE_PATTERN, &LEAST, 3000, &long[long.len() - 96..]);
}

/// Schedules of all banks from some starts, "with bank 0 after the last"; the last of them as a pattern of the least length that is
/// accepted, and of one less.
fn wraps(cases: &mut Cases) {
    let from = |start: u8| built(&TABLE_A, &[[start % 2, start, 8, 1]]).0;
    for start in [0, 4, 7] {
        cases.put(JUDGE, &TABLE_A, 0, &from(start));
    }
    let seven = from(7);
    let verdict = |length| judge_pattern(&whole(&TABLE_A), &seven, length);
    let accepted = |&length: &u32| verdict(length) == Ok(PatternVerdict::Accepted);
    let least = (1..1000).find(accepted).expect("a length that is enough");
    for length in [least - 1, least] {
        cases.put(JUDGE_PATTERN, &TABLE_A, length, &seven);
    }
}

/// The records moved so that the last is at the greatest cycle there is, and one before it.
fn at_the_top(cases: &mut Cases, table: &[u16], records: &[Record]) {
    let by = TOP - records[records.len() - 1].cycle;
    // A record before the last may be later than it.
    if records.iter().any(|r| r.cycle + by > TOP) {
        return;
    }
    let records: Vec<Record> = records.iter().map(|r| r.later(by)).collect();
    cases.put(JUDGE, table, 0, &bytes_of_records(&records));
}

fn top_patterns(cases: &mut Cases) {
    for last in [u32::MAX, u32::MAX - 1] {
        let records = [(last - 10, ACT, 0), (last, RDA, 0)];
        cases.schedule(&TABLE_A, &records);
        cases.schedule(&TABLE_A, &[(last - 9, ACT, 0), (last, RDA, 0)]);
        cases.schedule(&TABLE_A, &[&records[..], &[(0, ACT, 0)]].concat());
        cases.schedule(&TABLE_A, &[&records[..], &[(last, ACT, 1)]].concat());
        cases.schedule(
            &TABLE_A,
            &[&records[..], &[(28, ACT, 0), (38, RDA, 0)]].concat(),
        );
        for length in [1, 11, 37, 38, u32::MAX] {
            cases.pattern(&TABLE_A, &records, length);
            cases.pattern(&TABLE_B, &records, length);
        }
    }
    for bank in [0, 1] {
        let records = [
            (0, ACT, 0),
            (10, RDA, 0),
            (u32::MAX - 10, ACT, bank),
            (u32::MAX, RDA, bank),
        ];
        for length in [1, u32::MAX - 10, u32::MAX, 37] {
            cases.pattern(&TABLE_A, &records, length);
        }
    }
}

fn sizes(cases: &mut Cases) {
    let bytes = bytes_of_some(&[&EXAMPLE_1[..], &[(38, ACT, 0)]].concat());
    for size in [0, 1, 4, 7, 8, 9, 15, 16, 17, 24] {
        cases.put(JUDGE, &TABLE_A, 0, &bytes[..size]);
        for length in [0, 38] {
            cases.put(JUDGE_PATTERN, &TABLE_A, length, &bytes[..size]);
        }
    }
    for length in [1, u32::MAX] {
        cases.put(JUDGE_PATTERN, &GREATEST, length, &[]);
    }
    cases.put(JUDGE, &GREATEST, 0, &[255; 31]);
    cases.put(JUDGE, &GREATEST, 0, &[255; 32]);
}

/// The table is refused before anything else is looked at.
fn refused_tables(cases: &mut Cases) {
    let tables = [
        with(&[(RFC, 1024)]),
        with(&[(RFC, 65535), (CCD, 1)]),
        with(&[(CCD, 1)]),
        with(&[(CCD, 3)]),
        with(&[(BANKS, 0)]),
        with(&[(BANKS, 17)]),
        with(&[(EDITION, 0)]),
        with(&[(FAW, 1024)]),
        with(&[(RTP, 0)]),
        [0; 16],
        [65535; 16],
    ];
    for table in &tables {
        cases.schedule(table, &EXAMPLE_1);
        cases.pattern(table, &EXAMPLE_1, 38);
        cases.put(JUDGE, table, 0, &[0; 9]);
    }
}

/// Calls that there are not, and at the end a case that is cut short.
fn not_cases(cases: &mut Cases) {
    for call in [0, 3, 128, 255] {
        cases.put(call, &TABLE_A, 38, &bytes_of_some(&EXAMPLE_1));
        cases.put(call, &[0; 16], 0, &[]);
    }
    let whole = cases.0.len();
    cases.pattern(&TABLE_A, &EXAMPLE_1, 38);
    let cut = cases.0.len() - 1;
    assert!(whole < cut);
    cases.0.truncate(cut);
}
