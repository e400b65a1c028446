//! "If they differ it's refused as number 10 .. straight after number 2": what goes before it, and what after.

use super::put::{Cases, EXAMPLE_1};
use super::told::{JUDGE, JUDGE_PATTERN};
use crate::house::{self, *};
use crate::records::EDITION;
use crate::rules::{ACT, RDA};

pub fn editions(cases: &mut Cases) {
    others(cases);
    refused_tables(cases);
    later_numbers(cases);
}

/// Nothing else is wrong.
fn others(cases: &mut Cases) {
    for (table, expected) in other_editions() {
        cases.expecting(expected, |cases| cases.schedule(&table, &EXAMPLE_1));
        cases.expecting(expected, |cases| cases.pattern(&table, &EXAMPLE_1, 38));
    }
}

/// Number 2 goes before it, and "expected 0 always differs": no table of edition 0 is accepted.
fn refused_tables(cases: &mut Cases) {
    let edition_0 = [0, 7].map(|expected| (with(&[(EDITION, 0)]), expected));
    for (table, expected) in house::refused_tables().into_iter().chain(edition_0) {
        cases.expecting(expected, |cases| cases.put(JUDGE, &table, 0, &[0; 9]));
        cases.expecting(expected, |cases| {
            cases.put(JUDGE_PATTERN, &table, 0, &[0; 9])
        });
    }
}

/// Numbers 7 and 8, and every verdict, go after it.
fn later_numbers(cases: &mut Cases) {
    let broken = [(0, ACT, 0), (9, RDA, 0)];
    for expected in [8, 0] {
        let mut put = |put: &dyn Fn(&mut Cases)| cases.expecting(expected, put);
        put(&|cases| cases.put(JUDGE, &TABLE_A, 0, &[0; 9]));
        put(&|cases| cases.schedule(&TABLE_A, &broken));
        put(&|cases| cases.schedule(&TABLE_A, &[]));
        put(&|cases| cases.put(JUDGE_PATTERN, &TABLE_A, 38, &[0; 9]));
        put(&|cases| cases.put(JUDGE_PATTERN, &TABLE_A, 0, &[0; 9]));
        put(&|cases| cases.pattern(&TABLE_A, &EXAMPLE_1, 0));
        put(&|cases| cases.pattern(&TABLE_A, &EXAMPLE_1, 37));
        put(&|cases| cases.pattern(&TABLE_A, &[], 0));
    }
}
