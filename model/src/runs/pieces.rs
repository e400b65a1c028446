//! Runs of transactions of 8 bytes: "Requests may come in pieces: each run is lent the whole list so far".

use super::lists::{any_arrivals, any_list};
use super::put::Cases;
use crate::desk::{run_later_bytes, Controller, Transaction};
use crate::house::*;
use crate::records::{CCD, EDITION, LATEST};

pub fn pieces(cases: &mut Cases) {
    cuts(cases);
    late(cases);
    lent(cases);
    order(cases);
    waits(cases);
    latest(cases);
    any(cases, &mut Numbers(29));
}

/// A run of a list that is not refused, as a case; and the state that it leaves.
fn run(
    cases: &mut Cases,
    table: &[u16],
    count: u32,
    state: &Controller,
    list: &[[u8; 8]],
) -> Controller {
    let (edition, bytes, list, room) = (
        table[EDITION],
        bytes_of(table),
        list.concat(),
        room_for(list),
    );
    cases.later(|cases| cases.run(table, count, room, state, &list));
    let mut left = state.clone();
    run_later_bytes(&mut left, edition, &bytes, &list, count, &mut vec![0; room])
        .expect("it's accepted");
    left
}

/// A list cut at every place, the second piece lent at its arrival, or before it where the first is served by then; and each transaction a
/// piece of its own.
fn cuts(cases: &mut Cases) {
    let list = [WRITE, [0, 1, 2, 2], REFRESH_BYTES, [1, 7, 2, 1]];
    let list = arriving(&list, &[0, 7, 20, 95]);
    let fresh = Controller::fresh(&REFRESHED);
    for at in 0..=list.len() {
        let until = list.get(at).map_or(30, |x| Transaction::of(x).arrival);
        let state = run(cases, &REFRESHED, until, &fresh, &list[..at]);
        run(cases, &REFRESHED, u32::MAX, &state, &list);
    }
    let mut state = fresh;
    for at in 1..=list.len() {
        let until = list
            .get(at)
            .map_or(u32::MAX, |x| Transaction::of(x).arrival);
        state = run(cases, &REFRESHED, until - state.cycle, &state, &list[..at]);
    }
}

/// "If the first new arrival is below the state's cycle, the piece is late: number 12, position 0; an equal arrival is in time, an empty
/// piece never late."
fn late(cases: &mut Cases) {
    let first = [later(WRITE, 2)];
    // Served, at cycle 13; and within its work, at 8.
    let fresh = Controller::fresh(&TABLE_A);
    for count in [u32::MAX, 8] {
        let state = run(cases, &TABLE_A, count, &fresh, &first);
        let cycle = state.cycle;
        for arrival in [cycle - 1, cycle, cycle + 1] {
            let list = [first[0], later(READ, arrival), later(READ, arrival)].concat();
            for count in [0, 60] {
                cases.later(|cases| cases.run(&TABLE_A, count, 48, &state, &list));
            }
        }
        run(cases, &TABLE_A, 9, &state, &first);
    }
    // "The 4-byte record is arrival 0": after cycle 0 a new one is late.
    let mut state = fresh;
    for (cycle, lent) in [(0, 0), (1, 0), (1, 1), (1, 2)] {
        (state.cycle, state.lent) = (cycle, lent);
        cases.run(&TABLE_A, 9, 32, &state, &[WRITE, READ].concat());
    }
}

/// "The state tells how many of it were lent before (more than the list has: number 9)", whatever the count.
fn lent(cases: &mut Cases) {
    let list = arriving(&[WRITE, READ], &[50, 60]);
    let mut state = Controller::fresh(&TABLE_A);
    for lent in [0, 1, 2, 3, 256, u32::MAX] {
        state.lent = lent;
        for count in [0, 3] {
            cases.later(|cases| cases.run(&TABLE_A, count, 32, &state, &list.concat()));
        }
        cases.run(&TABLE_A, 0, 0, &state, &[]);
    }
}

/// Numbers 1, 2, 10, 3, 4 and 5 before 9, and 12 after it.
fn order(cases: &mut Cases) {
    let list = arriving(&[WRITE, READ], &[4, 9]).concat();
    let falls = arriving(&[WRITE, READ], &[9, 4]).concat();
    let mut late = Controller::fresh(&TABLE_A);
    late.cycle = 5;
    let mut nine = late.clone();
    nine.refresh = 5;
    let mut put = |state: &Controller, list: &[u8], room| {
        cases.later(|cases| cases.run(&TABLE_A, 9, room, state, list));
    };
    put(&late, &list, 32);
    put(&nine, &list, 32);
    put(&nine, &list, 31);
    put(&late, &list, 31);
    put(&late, &falls, 0);
    put(&late, &list[..12], 0);
    // "Numbers 3 and 4 are read over the whole list", what was lent before too.
    let mut lent = late.clone();
    for before in [1, 2] {
        lent.lent = before;
        put(&lent, &falls, 32);
        put(&lent, &list[..12], 32);
    }
    for expected in [8, 0] {
        let put = |cases: &mut Cases| cases.run(&TABLE_A, 9, 32, &late, &list);
        cases.later(|cases| cases.expecting(expected, put));
    }
    cases.later(|cases| cases.run(&with(&[(CCD, 1)]), 9, 32, &late, &list));
    let short = |cases: &mut Cases| cases.run(&TABLE_A, 9, 32, &late, &[]);
    cases.later(|cases| cases.by(&bytes_of(&TABLE_A)[..31], short));
}

/// The data queue waits too, from states whose ACT went before; and what is due counts those not yet arrived.
fn waits(cases: &mut Cases) {
    let mut state = Controller::fresh(&TABLE_A);
    (state.cycle, state.acts, state.lent, state.banks[0].opened) = (10, 1, 2, 1);
    for arrival in [9, 10, 11, 30] {
        for kind in [0, 1] {
            let list = [later([kind, 0, 1, 2], arrival), later(READ, arrival + 20)].concat();
            cases.later(|cases| cases.run(&TABLE_A, 40, 32, &state, &list));
        }
    }
    let list = [later([0, 0, 1, 2], 500), later(READ, 600)].concat();
    cases.later(|cases| cases.run(&TABLE_A, 3, 23, &state, &list));
    cases.later(|cases| cases.run(&TABLE_A, 3, 24, &state, &list));
    // A data command whose ACT has gone, before one that arrives later: the ACT queue waits alone.
    let list = [later([0, 0, 1, 2], 10), later([0, 1, 1, 1], 25)].concat();
    cases.later(|cases| cases.run(&TABLE_A, 60, 32, &state, &list));
}

fn latest(cases: &mut Cases) {
    let list = arriving(&[READ, WRITE], &[LATEST, LATEST]);
    let mut state = Controller::fresh(&TABLE_A);
    run(cases, &TABLE_A, 1000, &state, &list);
    run(cases, &TABLE_A, u32::MAX, &state, &list);
    for cycle in [LATEST - 5, LATEST, LATEST + 1] {
        state.cycle = cycle;
        cases.later(|cases| cases.run(&TABLE_A, 80, 32, &state, &list.concat()));
    }
}

/// Any lists, each in three pieces, the last of which may be empty.
fn any(cases: &mut Cases, numbers: &mut Numbers) {
    let tables = [
        &TABLE_A[..],
        &LEAST,
        &REFRESHED,
        &TABLE_D,
        &ODD[1],
        &ODD[11],
    ];
    for round in 0..8 {
        let table = tables[round % tables.len()];
        let list = any_list(table, 4, numbers);
        let list = arriving(&list, &any_arrivals(4, numbers));
        let mut state = Controller::fresh(table);
        let (first, second) = (1 + round % 3, 3 + round % 2);
        for at in [first, second, list.len()] {
            let most = list.get(at).map_or(u32::MAX, |x| {
                Transaction::of(x).arrival.saturating_sub(state.cycle)
            });
            let count = match numbers.below(3) {
                0 if at < list.len() => numbers.below(20) as u32,
                _ => most,
            };
            state = run(cases, table, count.min(most), &state, &list[..at]);
        }
    }
}
