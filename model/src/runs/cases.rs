//! The cases themselves: builds and bounds under every table, runs cut at many counts, rooms and lists one off, editions that are not
//! expected, and transactions that arrive later.

use super::arrivals::arrivals;
use super::editions::editions;
use super::groups::groups;
use super::lists::{any_list, ran};
use super::pieces::pieces;
use super::put::Cases;
use super::refreshes::refreshes;
use super::states::*;
use crate::desk::Controller;
use crate::house::*;
use crate::records::{BANKS, CCD, EDITION, RFC};

pub fn cases() -> Vec<u8> {
    let mut cases = Cases::default();
    let mut numbers = Numbers(5);
    worked(&mut cases);
    builds(&mut cases, &mut numbers);
    wraps(&mut cases);
    largest(&mut cases);
    rooms(&mut cases);
    lists(&mut cases);
    cuts(&mut cases);
    refreshes(&mut cases);
    hand_made(&mut cases);
    any_states(&mut cases, &mut numbers);
    bounds(&mut cases);
    refused_tables(&mut cases);
    editions(&mut cases);
    groups(&mut cases);
    arrivals(&mut cases);
    pieces(&mut cases);
    // At the end a case that is cut short.
    cases.run(&TABLE_A, 1, 8, &Controller::fresh(&TABLE_A), &[0, 0, 1, 1]);
    cases.0.pop();
    cases.0
}

fn worked(cases: &mut Cases) {
    let lists: [&[[u8; 4]]; 10] = [
        &[],
        &[[0, 0, 1, 1]],
        &[[0, 0, 1, 1], [0, 0, 1, 1]],
        &[[1, 0, 1, 1], [0, 0, 1, 1]],
        &[[0, 0, 1, 1], [1, 1, 1, 1]],
        &[[1, 0, 1, 1], [0, 1, 1, 1]],
        &[[0, 0, 4, 2]],
        &[[0, 0, 5, 1]],
        &[[0, 7, 1, 1]],
        &[[0, 7, 2, 1]],
    ];
    for list in lists {
        cases.build_all(&TABLE_A, list);
    }
    for (bi, bc) in [(1, 1), (2, 1), (1, 4), (4, 2), (5, 1), (8, 1)] {
        cases.bound(&TABLE_A, bi, bc);
    }
}

fn builds(cases: &mut Cases, numbers: &mut Numbers) {
    let house = [TABLE_A, TABLE_B, TABLE_C, LEAST, GREATEST];
    for table in house.iter().chain(&ODD) {
        for size in [2, 5] {
            let list = any_list(table, size, numbers);
            cases.build_all(table, &list);
        }
    }
    for table in [TABLE_A, LEAST, GREATEST] {
        let banks = table[BANKS] as u8;
        cases.build_all(&table, &[[1, 0, banks, 16], [0, 0, banks, 1]]);
    }
    // "A read finishes at its last data command + RL + B, a write as before."
    for table in [LEAST, GREATEST].iter().chain(&ODD) {
        cases.build_all(table, &[[0, 0, 1, 3], [1, 0, 1, 2], [0, 0, 1, 1]]);
    }
}

/// "The banks are then start, start + 1 and so on, with bank 0 after the last": all banks from every start, one by one and in one
/// list; every start with every BI; and for each number of banks a start, and a BI, that is one too great.
fn wraps(cases: &mut Cases) {
    for start in 0..8 {
        cases.build_all(&TABLE_A, &[[start % 2, start, 8, 1]]);
    }
    for banks in [1, 2, 3, 5, 7, 8, 11, 13, 15, 16] {
        let table = with(&[(BANKS, banks.into())]);
        let every: Vec<[u8; 4]> = (0..banks).map(|s| [s % 2, s, banks, 1]).collect();
        cases.build_all(&table, &every);
        for (start, bi) in [(banks, 1), (0, banks + 1), (banks - 1, banks + 1)] {
            cases.build(
                &table,
                65_535,
                2,
                &[0, banks - 1, banks, 1, 1, start, bi, 1],
            );
        }
    }
    let every: Vec<[u8; 4]> = (0..64).map(|k| [k % 3 % 2, k % 8, 1 + k / 8, 1]).collect();
    cases.build_all(&TABLE_A, &every);
    let fresh = Controller::fresh(&TABLE_A);
    for list in [[1, 3, 8, 2], [0, 8, 1, 1], [0, 7, 9, 1]] {
        cases.run(&TABLE_A, 60, 480, &fresh, &list);
    }
}

/// 8191 commands, which fill the greatest room that a case can name; and as many as there can be, for which no case has room.
fn largest(cases: &mut Cases) {
    let mut list = vec![[0, 0, 16, 16]; 30];
    list.iter_mut().step_by(3).for_each(|x| x[0] = 1);
    list.extend([[0, 0, 1, 16], [1, 5, 1, 13]]);
    let room = room_for(&list);
    assert_eq!(room, 65_528);
    let bytes = list.concat();
    cases.build(&LEAST, room, list.len(), &bytes);
    cases.build(&LEAST, room - 1, list.len(), &bytes);
    cases.build(&LEAST, 65_535, 256, &[0, 0, 16, 16].repeat(256));
    for size in [256, 257] {
        let list: Vec<u8> = (0..size)
            .flat_map(|i| [i as u8 % 2, i as u8 % 8, 1, 1])
            .collect();
        cases.build(&TABLE_A, 65_535, 300, &list);
    }
}

fn rooms(cases: &mut Cases) {
    let list = [[0, 0, 2, 2], [1, 1, 1, 1]];
    let (room, bytes) = (room_for(&list), list.concat());
    for room in [0, 8, room - 8, room - 1, room, room + 1, 65_535] {
        for slots in [0, 1, 2, 65_535] {
            cases.build(&TABLE_A, room, slots, &bytes);
        }
    }
    cases.build(&TABLE_A, 0, 0, &[]);
    cases.build(&TABLE_A, 65_535, 65_535, &[]);
}

/// Sizes that are no multiple of 4, and transactions out of range, of which the lowest is named.
fn lists(cases: &mut Cases) {
    for size in [1, 2, 3, 5, 6, 7] {
        cases.build(&TABLE_A, 0, 0, &[255; 7][..size]);
    }
    let faults = [
        [2, 0, 1, 1],
        [255, 0, 1, 1],
        [0, 8, 1, 1],
        [0, 7, 9, 1],
        [1, 0, 9, 1],
        [1, 255, 1, 1],
        [1, 255, 255, 1],
        [0, 0, 0, 1],
        [0, 0, 1, 0],
        [0, 0, 1, 17],
        [0, 0, 17, 1],
    ];
    for (i, fault) in faults.into_iter().enumerate() {
        let mut list = [[0, 7, 2, 1]; 4];
        list[i % 4] = fault;
        list[3] = if i % 2 == 0 { fault } else { list[3] };
        cases.build(&TABLE_A, 65_535, 4, &list.concat());
        cases.build(&TABLE_A, 0, 0, &list.concat());
    }
    cases.build(&ODD[0], 65_535, 1, &[0, 0, 1, 16]);
    cases.build(&ODD[0], 65_535, 1, &[0, 1, 1, 1]);
    cases.build(&LEAST, 65_535, 1, &[0, 15, 16, 1]);
    cases.build(&LEAST, 65_535, 1, &[0, 16, 1, 1]);
}

/// Example 4 run to the counts just before and just after some of its commands, and another list, whose transactions run over the last
/// bank with a refresh between them, to every fifth count.
fn cuts(cases: &mut Cases) {
    let example_4 = [[0, 0, 1, 1], [1, 1, 1, 1]];
    cut(cases, &TABLE_A, &example_4, [1, 6, 7, 18, 19]);
    let small = [20, 3, 2, 2, 3, 3, 5, 7, 2, 9, 3, 2, 2, 2, 2, 5];
    let list = [[1, 2, 2, 2], REFRESH_BYTES, [0, 1, 3, 1]];
    let (whole, _, _) = ran(&Controller::fresh(&small), &small, &list, u32::MAX);
    cut(cases, &small, &list, (1..=whole.cycles).step_by(5));
}

/// A fresh run to each count, and on from there to the end.
fn cut(cases: &mut Cases, table: &[u16], list: &[[u8; 4]], counts: impl IntoIterator<Item = u32>) {
    let (room, bytes) = (room_for(list), list.concat());
    let fresh = Controller::fresh(table);
    for count in counts {
        let (first, _, state) = ran(&fresh, table, list, count);
        cases.run(table, count, room, &fresh, &bytes);
        let left = room - 8 * first.commands as usize;
        cases.run(table, u32::MAX - count, left, &state, &bytes);
    }
}

fn bounds(cases: &mut Cases) {
    for table in [TABLE_B, TABLE_C, LEAST, GREATEST].iter().chain(&ODD) {
        for (bi, bc) in [(1, 1), (table[BANKS] as u8, 16), (3, 2)] {
            cases.bound(table, bi, bc);
        }
    }
    for bi in [0, 1, 8, 9, 16, 17, 255] {
        for bc in [0, 1, 16, 17, 255] {
            cases.bound(&TABLE_A, bi, bc);
        }
    }
    cases.bound(&LEAST, 17, 1);
}

/// The table is refused before anything else is looked at.
fn refused_tables(cases: &mut Cases) {
    for table in [
        with(&[(RFC, 1024), (BANKS, 0)]),
        with(&[(CCD, 1)]),
        with(&[(BANKS, 17)]),
        with(&[(EDITION, 0)]),
    ] {
        cases.build(&table, 0, 0, &[1]);
        cases.build(&table, 65_535, 1, &[0, 0, 1, 1]);
        cases.bound(&table, 0, 0);
        cases.bound(&table, 1, 1);
    }
    for table in [with(&[(RFC, 1024)]), with(&[(FAW, 0)])] {
        cases.run(&table, 1, 0, &Controller::fresh(&table), &[0, 0, 1, 1]);
    }
}
