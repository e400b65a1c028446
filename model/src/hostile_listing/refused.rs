//! Inputs cut short, numbers one off, bytes flipped, lists too long, and bytes of no meaning.

use super::lists::{EXAMPLE_3, EXAMPLE_5};
use crate::house::*;
use crate::inputs::Cases;
use crate::records::{B, BANKS, CCD, EDITION, RFC};

pub fn put(cases: &mut Cases) {
    let mut numbers = Numbers(22);
    short(cases, &mut numbers);
    tables(cases);
    of_40_bytes(cases);
    flipped(cases);
    sizes(cases, &mut numbers);
    transactions(cases);
    meaningless(cases, &mut numbers);
}

fn short(cases: &mut Cases, numbers: &mut Numbers) {
    cases.group("example 3 cut to 0 to 41 bytes");
    let whole = [&[7, 0], &bytes_of(&TABLE_A)[..], &EXAMPLE_3.concat()].concat();
    for size in 0..whole.len() {
        cases.put(&whole[..size]);
    }
    cases.group("short inputs of any bytes");
    for size in [1, 2, 16, 31, 32, 33] {
        cases.own(&numbers.bytes(size));
        cases.own(&vec![0; size]);
        cases.own(&vec![255; size]);
    }
}

fn tables(cases: &mut Cases) {
    cases.group("each number of the table below and above its range, and at its ends");
    for place in EDITION..=RFC {
        // With table A's CCD, B is at most 4.
        let edges: &[u16] = match place {
            EDITION => &[0, 1, 65535],
            BANKS => &[0, 1, 16, 17, 65535],
            B => &[0, 1, 4, 5, 1023, 1024, 65535],
            CCD => &[0, 1, 2, 3, 4, 1023, 1024, 65535],
            RFC => &[1, 1023, 1024, 65535],
            _ => &[0, 1024, 65535],
        };
        for &n in edges {
            cases.list(&with(&[(place, n)]), &EXAMPLE_3);
        }
    }
    for (b, ccd) in [(1, 1), (1, 2), (2, 2), (3, 2), (1023, 1022), (1023, 1023)] {
        cases.list(&with(&[(B, b), (CCD, ccd)]), &EXAMPLE_3);
    }
    cases.group("several faults at once: the lowest number is told");
    for table in [
        with(&[(RFC, 1024), (CCD, 1)]),
        with(&[(CCD, 1)]),
        with(&[(BANKS, 1)]),
    ] {
        cases.bytes(&table, &[]);
        cases.bytes(&table, &[9; 7]);
        cases.list(&table, &[[2, 0, 1, 1]; 3]);
        cases.list(&table, &[[2, 0, 1, 1]; 257]);
        cases.list(&table, &[[0, 0, 8, 16]; 256]);
    }
}

/// "The listing program keeps the 32-byte table": what follows its 32 bytes are transactions, two of them here that are accepted in one table.
fn of_40_bytes(cases: &mut Cases) {
    cases.group("tables of 40 bytes");
    cases.list(&TABLE_D, &EXAMPLE_3);
    cases.list(&TWO_WRITES, &EXAMPLE_3);
    cases.list(&TWO_WRITES, &[]);
}

fn flipped(cases: &mut Cases) {
    cases.group("example 3, then example 5, with one byte flipped: its lowest bit, all its bits");
    for list in [&EXAMPLE_3[..], &EXAMPLE_5] {
        let whole = [bytes_of(&TABLE_A), list.concat()].concat();
        for place in 0..whole.len() {
            for bits in [1, 255] {
                let mut bytes = whole.clone();
                bytes[place] ^= bits;
                cases.own(&bytes);
            }
        }
    }
}

fn sizes(cases: &mut Cases, numbers: &mut Numbers) {
    cases.group("transaction bytes that are no multiple of 4, and over 1024 of them");
    let read = [0, 0, 1, 1];
    for size in [
        1, 2, 3, 5, 6, 7, 9, 1021, 1022, 1023, 1024, 1025, 1026, 1027, 1028, 1029, 1032, 1056,
        2048, 4095, 4096, 4097, 8192, 32768, 65503, 65504, 65505, 65535, 65536, 65537, 65540,
        66560, 100_000, 131_072, 199_968,
    ] {
        let bytes: Vec<u8> = read.iter().copied().cycle().take(size).collect();
        cases.bytes(&TABLE_A, &bytes);
    }
    for size in [1025, 1028, 5000, 70_000, 199_965] {
        cases.bytes(&TABLE_A, &numbers.bytes(size));
        cases.bytes(&with(&[(FAW, 0)]), &numbers.bytes(size));
    }
    for size in [2000, 65_536, 65_568, 200_000] {
        cases.own(&vec![0; size]);
        cases.own(&numbers.bytes(size));
    }
}

fn transactions(cases: &mut Cases) {
    cases.group("transactions out of range, the lowest told");
    let good = [1, 7, 2, 8];
    for fault in [
        [2, 0, 1, 1],
        [255, 0, 1, 1],
        [0, 8, 1, 1],
        [0, 8, 8, 1],
        [0, 7, 9, 1],
        [0, 0, 9, 1],
        [1, 255, 1, 1],
        [1, 248, 8, 1],
        [1, 255, 255, 1],
        [0, 0, 0, 1],
        [0, 0, 1, 0],
        [0, 0, 1, 17],
        [0, 0, 17, 1],
        [0, 0, 1, 255],
    ] {
        cases.list(&TABLE_A, &[fault]);
        cases.list(&TABLE_A, &[good, good, fault, fault]);
    }
    for place in [0, 9, 10, 99, 100, 254, 255] {
        let mut list = [good; 256];
        list[place] = [0, 7, 9, 1];
        cases.list(&TABLE_A, &list);
    }
    cases.list(&LEAST, &[[0, 15, 16, 1], [0, 16, 1, 1]]);
    cases.list(&LEAST, &[[0, 15, 16, 1], [0, 15, 17, 1]]);
    for banks in 1..16 {
        let table = with(&[(BANKS, banks.into())]);
        let last = [0, banks - 1, banks, 1];
        cases.list(&table, &[last, [0, banks, 1, 1]]);
        cases.list(&table, &[last, [1, 0, banks + 1, 1]]);
        cases.list(&table, &[last, last, [1, banks - 1, banks + 1, 16]]);
    }
    // Out of range at the end of a list whose schedule would have no room.
    let mut list = [[0, 0, 8, 16]; 256];
    list[255] = [0, 0, 9, 1];
    cases.list(&TABLE_A, &list);
}

fn meaningless(cases: &mut Cases, numbers: &mut Numbers) {
    cases.group("bytes of no meaning");
    for _ in 0..30 {
        let size = numbers.below(120);
        cases.own(&numbers.bytes(size));
    }
    cases.group("a good table and bytes of no meaning behind it");
    for table in [TABLE_A, LEAST, GREATEST] {
        for _ in 0..5 {
            let size = 4 * numbers.below(20);
            cases.bytes(&table, &numbers.bytes(size));
        }
    }
    cases.group("a good table and bytes that are small numbers");
    for round in 0..30 {
        let mut bytes = numbers.bytes(4 * (1 + round % 4));
        let most = numbers.of(&[3, 5, 17]);
        bytes.iter_mut().for_each(|b| *b %= most);
        bytes.iter_mut().step_by(4).for_each(|b| *b %= 2);
        cases.bytes(&LEAST, &bytes);
    }
}
