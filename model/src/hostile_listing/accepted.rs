//! Lists of every length under every table, and schedules that just fit in the room or just don't.

use super::lists::{any_list, EXAMPLE_3, EXAMPLE_5};
use crate::examples;
use crate::house::*;
use crate::inputs::Cases;
use crate::listing::ROOM;
use crate::records::{Table, B, BANKS, CCD, EDITION, RFC};

pub fn put(cases: &mut Cases) {
    let mut numbers = Numbers(21);
    cases.group("the example files");
    for example in examples::all() {
        cases.put(&example.bytes());
    }
    lists(cases, &mut numbers);
    over_the_last_bank(cases);
    most(cases, &mut numbers);
    rooms(cases);
    any(cases, &mut numbers);
}

fn lists(cases: &mut Cases, numbers: &mut Numbers) {
    cases.group("0, 1 and a few transactions under every table");
    let house = [TABLE_A, TABLE_B, TABLE_C, LEAST, GREATEST];
    for table in house.iter().chain(&ODD) {
        for (size, most) in [(0, (1, 1)), (1, (16, 16)), (3, (16, 4)), (7, (5, 3))] {
            cases.list(table, &any_list(table, size, most, numbers));
        }
    }
    cases.group("the greatest and the last transactions of a table");
    for table in [TABLE_A, LEAST, GREATEST, ODD[0], ODD[11]] {
        let banks = table[BANKS] as u8;
        cases.list(&table, &[[0, 0, banks, 16]]);
        cases.list(&table, &[[1, 0, banks, 1], [0, banks - 1, 1, 16]]);
        cases.list(&table, &[[1, banks - 1, banks, 16]]);
    }
}

/// "The banks are then start, start + 1 and so on, with bank 0 after the last."
fn over_the_last_bank(cases: &mut Cases) {
    cases.group("transactions that run over the last bank, all banks from every start among them");
    for banks in 1..=16 {
        let every: Vec<[u8; 4]> = (0..banks).map(|s| [s % 2, s, banks, 1]).collect();
        cases.list(&with(&[(BANKS, banks.into())]), &every);
        let mut least = LEAST;
        least[BANKS] = banks.into();
        cases.list(&least, &[[0, banks - 1, banks.min(2), 2]]);
    }
    for start in 0..8 {
        for bi in [2, 5, 8] {
            cases.list(&TABLE_A, &[[1, start, bi, 1], [0, 7 - start, 9 - bi, 2]]);
        }
    }
}

/// "256 transactions accepted, 257: number 3."
fn most(cases: &mut Cases, numbers: &mut Numbers) {
    cases.group("255, 256 and 257 transactions");
    for table in [TABLE_A, LEAST, ODD[8], REFRESHED] {
        let list = any_list(&table, 257, (3, 3), numbers);
        for size in [255, 256, 257] {
            cases.list(&table, &list[..size]);
        }
    }
    // One bank alone, under the greatest table: the latest cycles that a list of 256 bursts has.
    cases.list(&GREATEST, &[[1, 15, 1, 1]; 256]);
    // The list is refused as too long before any of it is looked at.
    cases.list(&TABLE_A, &[[9, 9, 9, 9]; 256]);
    cases.list(&TABLE_A, &[[9, 9, 9, 9]; 257]);
}

/// "64 KiB of command room" is 8192 commands.
fn rooms(cases: &mut Cases) {
    cases.group("schedules of 8191, 8192 and 8193 commands, and of many more");
    let mut fast = LEAST;
    fast[EDITION] = 65535;
    // 30 of 272 commands, and 32 left.
    let mut large = [[0, 0, 16, 16]; 30];
    large.iter_mut().step_by(4).for_each(|x| x[0] = 1);
    for table in [with(&[(BANKS, 16)]), fast] {
        for bc in [13, 14, 15] {
            let end = [[1, 3, 1, 16], [0, 5, 1, bc]];
            let list = [&large[..], &end].concat();
            assert_eq!(room_for(&list), ROOM - 8 * 14 + 8 * usize::from(bc));
            cases.list(&table, &list);
        }
    }
    // 256 transactions of 32 commands each, and one of them with one more burst.
    let mut many = vec![[1, 0, 8, 3]; 256];
    assert_eq!(room_for(&many), ROOM);
    cases.list(&TABLE_A, &many);
    many[255] = [1, 0, 3, 10];
    assert_eq!(room_for(&many), ROOM + 8);
    cases.list(&TABLE_A, &many);
    cases.list(&LEAST, &[[0, 0, 16, 16]; 256]);
    cases.list(&GREATEST, &[[1, 0, 16, 16]; 31]);
}

/// A table that is accepted, of small numbers and some that are not.
fn any_table(numbers: &mut Numbers) -> Table {
    let mut t = TABLE_A.map(|_| 1 + numbers.below(12) as u16);
    t[EDITION] = 1 + 257 * u16::from(numbers.byte() / 2);
    t[BANKS] = 1 + numbers.below(16) as u16;
    t[CCD] = t[B].max(2) + numbers.below(4) as u16;
    for _ in 0..numbers.below(4) {
        let place = 4 + numbers.below(11);
        t[place] = 1 + 4 * (u16::from(numbers.byte()) % 255);
    }
    t[RFC] = numbers.of(&[0, 1, 40, 255, 1023]);
    t
}

fn any(cases: &mut Cases, numbers: &mut Numbers) {
    cases.group("any table and any list that it accepts");
    for round in 0..40 {
        let table = any_table(numbers);
        let list = any_list(&table, 1 + round % 12, (6, 4), numbers);
        cases.list(&table, &list);
    }
    cases.group("examples 3 and 5 with one number of the table changed within its range");
    for place in 4..15 {
        for n in [1, 1023] {
            cases.list(&with(&[(place, n)]), &EXAMPLE_3);
            cases.list(&with(&[(place, n)]), &EXAMPLE_5);
        }
    }
}
