//! Builds, bounds and runs under tables of 40 bytes, and states that tell each group's latest ACT, RD and WR.

use super::lists::{any_list, ran};
use super::put::Cases;
use crate::desk::{Controller, Group, NEVER};
use crate::house::*;
use crate::records::{BANKS, RFC};

pub fn groups(cases: &mut Cases) {
    let mut numbers = Numbers(19);
    sizes(cases);
    refused(cases);
    builds(cases, &mut numbers);
    bounds(cases);
    cuts(cases);
    states(cases);
    past_the_groups(cases);
    any_states(cases, &mut numbers);
}

/// "Number 1 now refuses any size but 32 and 40."
fn sizes(cases: &mut Cases) {
    let long = bytes_of(&[TABLE_D, TABLE_D].concat());
    let fresh = Controller::fresh(&TABLE_A);
    for size in [0, 31, 32, 33, 39, 40, 41, 64] {
        let table = &long[..size];
        cases.by(table, |cases| cases.build(&TABLE_A, 0, 0, &[]));
        cases.by(table, |cases| cases.bound(&TABLE_A, 2, 2));
    }
    for size in [39, 40] {
        cases.by(&long[..size], |cases| {
            cases.run(&TABLE_A, 1, 0, &fresh, &[])
        });
    }
}

/// Number 2 goes before 10 and all others.
fn refused(cases: &mut Cases) {
    let mut tables = vec![
        grouped(&TABLE_A, 9, [9, 20, 13]),
        grouped(&TABLE_A, 0, [9, 20, 13]),
    ];
    for (long, short) in LONGS {
        for n in [TABLE_A[short] - 1, 1024] {
            let mut t = TABLE_D;
            t[long] = n;
            tables.push(t);
        }
    }
    for t in &tables {
        cases.expecting(8, |cases| cases.build(t, 0, 0, &[1]));
        cases.bound(t, 0, 0);
    }
    let fresh = Controller::fresh(&TABLE_D);
    cases.run(&tables[0], 1, 0, &fresh, &READ);
    cases.expecting(8, |cases| cases.run(&TABLE_D, 1, 0, &fresh, &[1]));
    cases.run(&TABLE_D, 9, 0, &fresh, &[0, 8, 1, 1]);
    cases.run(&TABLE_D, 9, 15, &fresh, &READ);
    cases.build(&TABLE_D, 15, 1, &READ);
    cases.build(&TABLE_D, 16, 0, &READ);
}

/// Within a group and across, over the last bank, with refreshes; then any lists under each table.
fn builds(cases: &mut Cases, numbers: &mut Numbers) {
    let lists: [&[[u8; 4]]; 7] = [
        &[READ, [0, 4, 1, 1]],
        &[READ, [0, 1, 1, 1], [0, 4, 1, 1]],
        &[[1, 0, 1, 1], [0, 4, 1, 1]],
        &[[1, 0, 1, 1], [0, 1, 1, 1]],
        &[[0, 0, 8, 2]],
        &[[1, 6, 5, 1], [0, 3, 2, 3], [1, 2, 1, 2]],
        &[[0, 0, 1, 4], [1, 4, 1, 4], [0, 0, 1, 4]],
    ];
    for list in lists {
        cases.build_all(&TABLE_D, list);
    }
    let mut refreshed = TABLE_D;
    refreshed[RFC] = 50;
    cases.build_all(
        &refreshed,
        &[READ, REFRESH_BYTES, [1, 4, 2, 1], REFRESH_BYTES],
    );
    for table in group_tables() {
        let banks = table[BANKS] as u8;
        cases.build_all(
            &table,
            &[[1, banks - 1, banks, 1], [0, banks / 2, banks, 1]],
        );
        let list = any_list(&table, 4, numbers);
        cases.build_all(&table, &list);
    }
}

/// "In the bound CCD, RRD and WTR are the long ones", each where it decides.
fn bounds(cases: &mut Cases) {
    for table in group_tables().iter().chain([&TABLE_D]) {
        for (bi, bc) in [(1, 1), (table[BANKS] as u8, 16), (3, 2)] {
            cases.bound(table, bi, bc);
        }
    }
    for (long, _) in LONGS {
        let mut t = TABLE_D;
        for n in [t[long], 60, 1023] {
            t[long] = n;
            for (bi, bc) in [(1, 1), (1, 2), (2, 1), (4, 3)] {
                cases.bound(&t, bi, bc);
            }
        }
    }
}

/// A fresh run to some counts, and on from there.
fn cuts(cases: &mut Cases) {
    let list = [[1, 0, 1, 1], [0, 4, 1, 2], [0, 1, 1, 1]];
    let (room, bytes) = (room_for(&list), list.concat());
    let fresh = Controller::fresh(&TABLE_D);
    for count in [6, 7, 21, 36] {
        let (first, _, state) = ran(&fresh, &TABLE_D, &list, count);
        cases.run(&TABLE_D, count, room, &fresh, &bytes);
        let left = room - 8 * first.commands as usize;
        cases.run(&TABLE_D, u32::MAX - count, left, &state, &bytes);
    }
}

/// From cycle 100, with an ACT to bank 1 or a data command to bank 1 next: its group is 1, of four.
fn states(cases: &mut Cases) {
    let mut put = |kind: u8, acts: u32, change: &dyn Fn(&mut Controller)| {
        let mut state = Controller::fresh(&TABLE_D);
        (state.cycle, state.acts, state.lent) = (100, acts, 1);
        state.banks[1].opened = acts;
        change(&mut state);
        cases.run(&TABLE_D, 60, 16, &state, &[kind, 1, 1, 1]);
    };
    for group in [0, 1, 3, 4, 7] {
        put(0, 0, &|s| s.groups[group].act = 99);
        put(0, 1, &|s| s.groups[group].rd = 99);
        put(1, 1, &|s| s.groups[group].rd = 99);
        put(0, 1, &|s| s.groups[group].wr = 99);
    }
    put(1, 1, &|s| (s.groups[1].wr, s.groups[2].wr) = (92, 97));
    put(1, 1, &|s| (s.groups[1].wr, s.groups[2].wr) = (95, 95));
    put(0, 0, &|s| (s.groups[1].act, s.groups[0].act) = (82, 95));
    // "No longer the first of the four", which rule 7 comes to read as the fourth.
    put(0, 0, &|s| s.last = [99, 98, 97, 60]);
    put(0, 0, &|s| s.last = [99, 98, 97, 96]);
    // Number 9: the table's groups, each of the three.
    for group in [0, 3, 4, 7] {
        put(0, 0, &|s| s.groups[group].act = 100);
        put(0, 0, &|s| s.groups[group].rd = 101);
        put(0, 0, &|s| s.groups[group].wr = NEVER - 1);
    }
    put(0, 0, &|s| s.last[0] = 100);
}

/// "Nothing kept past the table's groups is read or changed": it comes back as it stood, by tables of each count of groups.
fn past_the_groups(cases: &mut Cases) {
    for table in [&TABLE_A[..], &TABLE_D]
        .into_iter()
        .chain(group_tables().iter().map(|t| &t[..]))
    {
        let of_table = table.get(GROUPS).map_or(1, |&n| usize::from(n));
        let banks = table[BANKS] as u8;
        let list = [[1, banks - 1, banks.min(3), 1], [0, 0, 1, 1]];
        let mut state = Controller::fresh(table);
        (state.cycle, state.lent) = (5000, 2);
        for (n, group) in (0..).zip(&mut state.groups[of_table..]) {
            *group = Group {
                act: 4999 + n,
                rd: 4990 + n,
                wr: NEVER - 1 - n,
            };
        }
        cases.run(table, 400, room_for(&list), &state, &list.concat());
    }
}

/// Any stored cycles that are not refused, in each of the groups.
fn any_states(cases: &mut Cases, numbers: &mut Numbers) {
    let tables = group_tables();
    for round in 0..20 {
        let table = &tables[round % tables.len()];
        let list = any_list(table, 2 + round % 3, numbers);
        let mut state = Controller::fresh(table);
        (state.cycle, state.lent) = (300, list.len() as u32);
        let mut stored = || match numbers.byte() {
            n if n < 90 => NEVER,
            n => 299 - u32::from(n) % 60,
        };
        for bank in &mut state.banks[..usize::from(table[BANKS])] {
            (bank.act, bank.rd, bank.wr) = (stored(), stored(), stored());
        }
        state.last = [(); 4].map(|()| stored());
        for group in &mut state.groups {
            (group.act, group.rd, group.wr) = (stored(), stored(), stored());
        }
        cases.run(table, 200, room_for(&list), &state, &list.concat());
    }
}
