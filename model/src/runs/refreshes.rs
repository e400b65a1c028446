//! Builds and runs with refreshes, and states that tell a last REF.

use super::put::Cases;
use crate::desk::{Controller, NEVER};
use crate::house::*;
use crate::records::{BANKS, RFC};

const REFRESH: [u8; 4] = REFRESH_BYTES;

pub fn refreshes(cases: &mut Cases) {
    builds(cases);
    refused(cases);
    states(cases);
    wide(cases);
    places(cases);
}

/// First, last, between, two in a row, none but refreshes, and behind lists that run over the last bank.
fn builds(cases: &mut Cases) {
    let lists: [&[[u8; 4]]; 10] = [
        &[REFRESH],
        &[REFRESH, READ],
        &[READ, REFRESH, READ],
        &[WRITE, REFRESH, REFRESH],
        &[WRITE, REFRESH, [0, 5, 1, 1]],
        &[REFRESH; 3],
        &[[0, 0, 4, 2], REFRESH, [0, 5, 1, 1], [1, 6, 3, 1]],
        &[[1, 7, 8, 1], REFRESH, [0, 3, 8, 2], REFRESH],
        &[[1, 7, 1, 1], READ, REFRESH],
        &[[0, 2, 1, 1], [1, 3, 1, 2], REFRESH, [1, 3, 2, 1]],
    ];
    for list in lists {
        cases.build_all(&REFRESHED, list);
    }
    cases.build_all(&REFRESHED, &[REFRESH; 256]);
    for rfc in [1, 255, 256, 1023] {
        let table = with(&[(RFC, rfc)]);
        cases.build_all(&table, &[REFRESH, WRITE, REFRESH, REFRESH, READ]);
    }
    let mut least = LEAST;
    least[RFC] = 1;
    for table in [least, GREATEST] {
        let list = [[1, 15, 16, 1], REFRESH, REFRESH, [0, 9, 8, 2], REFRESH];
        cases.build_all(&table, &list);
    }
    for banks in [1, 3, 16] {
        let table = with(&[(BANKS, banks.into()), (RFC, 33)]);
        let all = |kind| [kind, banks - 1, banks, 2];
        cases.build_all(&table, &[all(1), REFRESH, all(0), REFRESH]);
    }
}

/// Number 4 where RFC is 0 and where another byte is not; numbers 5 and 6 by "one command due".
fn refused(cases: &mut Cases) {
    cases.build(&TABLE_A, 65_535, 2, &[READ, REFRESH].concat());
    cases.build(&TABLE_A, 0, 0, &REFRESH);
    for fault in [
        [2, 0, 0, 1],
        [2, 0, 1, 0],
        [2, 1, 0, 0],
        [2, 0, 1, 1],
        [3, 0, 0, 0],
    ] {
        cases.build(&REFRESHED, 65_535, 2, &[REFRESH, fault].concat());
    }
    let list = [REFRESH, READ, REFRESH].concat();
    for (room, slots) in [(31, 3), (32, 2), (32, 3), (40, 4)] {
        cases.build(&REFRESHED, room, slots, &list);
    }
    for (bi, bc) in [(0, 0), (1, 1), (8, 16)] {
        cases.bound(&REFRESHED, bi, bc);
    }
}

/// From cycle 100: rule 12 by the last REF, and it as a stored cycle for number 9; rule 11 by what the banks tell.
fn states(cases: &mut Cases) {
    let mut put = |list: &[[u8; 4]], count, change: &dyn Fn(&mut Controller)| {
        let mut state = Controller::fresh(&REFRESHED);
        (state.cycle, state.lent) = (100, list.len() as u32);
        change(&mut state);
        cases.run(&REFRESHED, count, room_for(list), &state, &list.concat());
    };
    put(&[READ, REFRESH], 300, &|_| ());
    put(&[READ], 60, &|s| s.refresh = 50);
    put(&[READ], 60, &|s| s.refresh = 51);
    put(&[REFRESH, READ], 200, &|s| s.refresh = 99);
    put(&[REFRESH], 60, &|s| s.refresh = 100);
    put(&[], 0, &|s| s.refresh = NEVER - 1);
    put(&[REFRESH], 60, &|s| s.banks[5].opened = 1);
    put(&[REFRESH], 60, &|s| s.banks[7].act = 99);
    put(&[REFRESH], 60, &|s| {
        (s.banks[0].rd, s.banks[1].rd) = (80, 99)
    });
    put(&[REFRESH], 60, &|s| s.banks[2].wr = 99);
    // A REF is no ACT and no data command, and what lies past the table's banks is not read.
    put(&[REFRESH], 1, &|s| {
        s.last = [99; 4];
        (s.groups[0].act, s.groups[0].rd, s.groups[0].wr) = (99, 99, 99);
        (s.banks[8].opened, s.banks[15].act) = (1, NEVER - 1);
    });
    // RFC holds no data command.
    put(&[[0, 3, 1, 2], REFRESH, WRITE], 200, &|s| {
        (s.banks[3].opened, s.acts, s.refresh) = (1, 1, 99)
    });
    put(&[REFRESH], u32::MAX, &|s| {
        (s.cycle, s.banks[0].opened) = (99_999_990, 1)
    });
}

/// RFC past 255, for a REF and for an ACT.
fn wide(cases: &mut Cases) {
    let table = with(&[(RFC, 1023)]);
    let list = [REFRESH, REFRESH, READ];
    let fresh = Controller::fresh(&table);
    cases.run(&table, 3000, room_for(&list), &fresh, &list.concat());
}

/// REFs count as places of the ACT queue, and as commands left.
fn places(cases: &mut Cases) {
    let list = [REFRESH, READ, REFRESH, WRITE];
    let mut state = Controller::fresh(&REFRESHED);
    (state.cycle, state.lent, state.banks[0].opened) = (100, 4, 1);
    for (acts, datas, left) in [(1, 0, 5), (1, 1, 4), (3, 2, 1), (2, 0, 4)] {
        (state.acts, state.datas) = (acts, datas);
        cases.run(&REFRESHED, 200, 8 * left, &state, &list.concat());
    }
    // A REF and an ACT are left, and both data commands.
    cases.run(&REFRESHED, 200, 8 * 4 - 1, &state, &list.concat());
}
