//! "If they differ it's refused as number 10 .. straight after number 2": what goes before it, and what after.

use super::put::Cases;
use crate::desk::Controller;
use crate::house::{self, *};
use crate::records::{CCD, EDITION, RFC};

/// A run's case is long, so it's tried with so many of the pairs.
const RUNS: usize = 3;

pub fn editions(cases: &mut Cases) {
    others(cases);
    refused_tables(cases);
    later_numbers(cases);
    states(cases);
}

/// Nothing else is wrong.
fn others(cases: &mut Cases) {
    for (table, expected) in other_editions() {
        cases.expecting(expected, |cases| cases.build(&table, 16, 1, &READ));
        cases.expecting(expected, |cases| cases.bound(&table, 1, 1));
    }
    for (table, expected) in other_editions().take(RUNS) {
        let fresh = Controller::fresh(&table);
        cases.expecting(expected, |cases| cases.run(&table, 9, 16, &fresh, &READ));
    }
}

/// Number 2 goes before it, and "expected 0 always differs": no table of edition 0 is accepted.
fn refused_tables(cases: &mut Cases) {
    let edition_0 = with(&[(EDITION, 0)]);
    for (table, expected) in house::refused_tables().into_iter().chain([(edition_0, 7)]) {
        cases.expecting(expected, |cases| cases.build(&table, 0, 0, &[1]));
        cases.expecting(expected, |cases| cases.bound(&table, 0, 0));
    }
    for (table, expected) in [
        (with(&[(RFC, 1024)]), 8),
        (with(&[(CCD, 1)]), 8),
        (edition_0, 0),
    ] {
        let fresh = Controller::fresh(&table);
        cases.expecting(expected, |cases| cases.run(&table, 1, 0, &fresh, &[1]));
    }
}

/// Numbers 3, 4, 5 and 6 go after it.
fn later_numbers(cases: &mut Cases) {
    for expected in [8, 0] {
        let mut put = |put: &dyn Fn(&mut Cases)| cases.expecting(expected, put);
        put(&|cases| cases.build(&TABLE_A, 65_535, 1, &READ[..3]));
        put(&|cases| cases.build(&TABLE_A, 65_535, 1, &[0, 8, 1, 1]));
        put(&|cases| cases.build(&TABLE_A, 15, 1, &READ));
        put(&|cases| cases.build(&TABLE_A, 16, 0, &READ));
        put(&|cases| cases.build(&TABLE_A, 0, 0, &[]));
        put(&|cases| cases.bound(&TABLE_A, 0, 1));
        put(&|cases| cases.bound(&TABLE_A, 9, 17));
    }
    let fresh = Controller::fresh(&TABLE_A);
    let mut put = |put: &dyn Fn(&mut Cases)| cases.expecting(8, put);
    put(&|cases| cases.run(&TABLE_A, 9, 16, &fresh, &READ[..3]));
    put(&|cases| cases.run(&TABLE_A, 9, 16, &fresh, &[0, 8, 1, 1]));
    put(&|cases| cases.run(&TABLE_A, 9, 15, &fresh, &READ));
    put(&|cases| cases.run(&TABLE_A, 0, 0, &fresh, &READ));
}

/// Number 9 goes after it: whose edition the state has, the table's, the expected one or neither, and how far it has come.
fn states(cases: &mut Cases) {
    let mut state = Controller::fresh(&TABLE_A);
    for (edition, cycle, expected) in [(8, 0, 8), (8, 0, 9), (0, 0, 0), (7, 100_000_000, 8)] {
        (state.edition, state.cycle) = (edition, cycle);
        cases.expecting(expected, |cases| cases.run(&TABLE_A, 9, 16, &state, &READ));
    }
}
