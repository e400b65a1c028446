//! Fewer than two bytes, and expected editions that are not the table's.

use super::lists::{EXAMPLE_3, EXAMPLE_5};
use crate::house::*;
use crate::inputs::Cases;
use crate::records::{BANKS, CCD, EDITION, RFC};

pub fn put(cases: &mut Cases) {
    fewer_than_two(cases);
    others(cases);
    flipped(cases);
    faults(cases);
}

/// "Fewer than two get number 1", whatever the byte; two are an edition and an empty table.
fn fewer_than_two(cases: &mut Cases) {
    cases.group("inputs of 0, 1 and 2 bytes");
    cases.put(&[]);
    for byte in [0, 1, 7, 8, 255] {
        cases.put(&[byte]);
        cases.put(&[byte, 0]);
        cases.put(&[0, byte]);
    }
}

/// A list that nothing is wrong with, and none.
fn others(cases: &mut Cases) {
    cases.group("another edition than the expected one, and each again with its own");
    for (edition, expected) in OTHER_EDITIONS {
        let table = bytes_of(&with(&[(EDITION, edition)]));
        let whole = [table.clone(), EXAMPLE_3.concat()].concat();
        cases.expecting(expected, &whole);
        cases.expecting(expected, &table);
        cases.own(&whole);
    }
    cases.group("an input without an expected edition");
    for table in [TABLE_A, LEAST, GREATEST] {
        cases.put(&[bytes_of(&table), EXAMPLE_3.concat()].concat());
        cases.put(&[&[7], &bytes_of(&table)[..], &EXAMPLE_5.concat()].concat());
    }
}

fn flipped(cases: &mut Cases) {
    cases.group("example 5 with one bit of the expected edition flipped, then of the table's");
    let whole = [&[7, 0], &bytes_of(&TABLE_A)[..], &EXAMPLE_5.concat()].concat();
    for bit in 0..32 {
        let mut bytes = whole.clone();
        bytes[bit / 8] ^= 1 << (bit % 8);
        cases.put(&bytes);
    }
}

/// Numbers 1 and 2 go before 10, and 3, 4 and 5 after it.
fn faults(cases: &mut Cases) {
    cases.group("another edition together with faults of the table, of the list and of the room");
    let tables = [
        with(&[(RFC, 1024)]),
        with(&[(RFC, 1024), (CCD, 1)]),
        with(&[(CCD, 1)]),
        with(&[(BANKS, 17)]),
        with(&[(EDITION, 0)]),
        TABLE_A,
    ];
    for table in tables.iter().map(|t| bytes_of(t)) {
        for expected in [0, 8] {
            cases.expecting(expected, &table[..31]);
            for list in [
                &[9; 7][..],
                &[2, 0, 1, 1],
                &[9; 1028],
                &[0, 0, 8, 16].repeat(61),
                &[0; 70_000],
            ] {
                cases.expecting(expected, &[&table, list].concat());
            }
        }
    }
}
