//! The cases themselves: the edges of each number, sizes one off, buffers that are too small or too great, and bytes of no meaning.

use super::put::Cases;
use super::tables::{group_tables, tables};
use super::told::*;
use crate::house::{bytes_of, command, later, Numbers, REFRESH_BYTES, TABLE_A, TABLE_D};
use crate::records::LATEST;

pub fn cases() -> Vec<u8> {
    let mut cases = Cases::default();
    let mut numbers = Numbers(1);
    tables(&mut cases);
    group_tables(&mut cases);
    transactions(&mut cases);
    laters(&mut cases);
    commands(&mut cases);
    cases.put_any(READ_TABLE, &bytes_of(&TABLE_A), &mut numbers);
    cases.put_any(READ_TABLE, &bytes_of(&TABLE_D), &mut numbers);
    cases.put_any(READ_TRANSACTION, &[1, 3, 4, 2], &mut numbers);
    cases.put_any(READ_COMMAND, &[10, 0, 0, 0, 2, 0, 0, 0], &mut numbers);
    cases.put_any(READ_LATER, &later([1, 3, 4, 2], LATEST), &mut numbers);
    not_cases(&mut cases);
    cases.0
}

fn transactions(cases: &mut Cases) {
    for size in 0..=6 {
        cases.put(READ_TRANSACTION, &[0, 0, 1, 1, 0, 0][..size]);
        cases.put(READ_TRANSACTION, &[255; 6][..size]);
    }
    let edges = [0, 1, 2, 15, 16, 17, 255];
    for kind in [0, 1, 2, 3, 255] {
        cases.put_both(READ_TRANSACTION, &[kind, 0, 1, 1]);
    }
    // "A transaction of type 2, with the other three bytes 0, is a refresh .. accepted where no table is given."
    for place in 0..4 {
        for n in [0, 1, 2, 3, 16, 255] {
            let mut x = REFRESH_BYTES;
            x[place] = n;
            cases.put_both(READ_TRANSACTION, &x);
        }
    }
    for start in edges {
        for bi in edges {
            cases.put_both(READ_TRANSACTION, &[0, start, bi, 1]);
        }
    }
    for bc in edges {
        cases.put_both(READ_TRANSACTION, &[1, 0, 1, bc]);
    }
    for (start, bi) in [
        (8, 8),
        (8, 9),
        (7, 9),
        (14, 2),
        (14, 3),
        (240, 16),
        (241, 15),
        (255, 2),
    ] {
        cases.put_both(READ_TRANSACTION, &[1, start, bi, 16]);
    }
    // "Where no table is given, banks counts as 16": all of them from every start, and one more.
    for start in 0..=17 {
        for bi in [16, 17] {
            cases.put_both(READ_TRANSACTION, &[start % 2, start, bi, 2]);
        }
    }
    for x in [
        [0, 0, 1, 1],
        [1, 15, 16, 16],
        [2, 0, 1, 1],
        [0, 16, 1, 1],
        [0, 15, 17, 1],
        [1, 0, 0, 1],
        [1, 0, 1, 17],
        [255; 4],
        REFRESH_BYTES,
        [2, 0, 0, 1],
    ] {
        cases.put_rooms(WRITE_TRANSACTION, &x);
    }
}

/// The record of 8 bytes: its arrival up to 20,000,000 and beyond, a refresh's too; the other bytes as before.
fn laters(cases: &mut Cases) {
    let good = later([1, 15, 16, 16], 260);
    for size in 0..=9 {
        cases.put(READ_LATER, &[&good[..], &[0]].concat()[..size]);
    }
    for x in [[0, 0, 1, 1], [1, 15, 16, 16], REFRESH_BYTES] {
        for arrival in [0, 1, 255, 256, 65536, 16909060, LATEST - 1, LATEST] {
            cases.put_both(READ_LATER, &later(x, arrival));
        }
        for arrival in [LATEST + 1, LATEST + 256, 1 << 31, u32::MAX] {
            cases.put_both(READ_LATER, &later(x, arrival));
        }
    }
    for x in [
        [2, 0, 1, 1],
        [3, 0, 0, 0],
        [0, 16, 1, 1],
        [0, 15, 17, 1],
        [1, 0, 0, 1],
        [1, 0, 1, 17],
        [2, 0, 0, 1],
    ] {
        cases.put_both(READ_LATER, &later(x, 7));
        cases.put_both(READ_LATER, &later(x, LATEST + 1));
    }
    cases.put_rooms(WRITE_LATER, &good);
    for x in [
        later([0, 0, 1, 1], LATEST + 1),
        later([0, 16, 1, 1], 0),
        later(REFRESH_BYTES, LATEST),
    ] {
        cases.put_rooms(WRITE_LATER, &x);
    }
}

fn commands(cases: &mut Cases) {
    let bytes: Vec<u8> = command(10, 2, 0, 0).repeat(2);
    for size in [0, 1, 7, 8, 9, 16] {
        cases.put(READ_COMMAND, &bytes[..size]);
    }
    for kind in [0, 1, 2, 3, 4, 5, 6, 255] {
        cases.put_both(READ_COMMAND, &command(10, kind, 0, 0));
    }
    for cycle in [0, 1, 255, 256, 65535, 65536, 4294967294, 4294967295] {
        cases.put_both(READ_COMMAND, &command(cycle, 0, 7, 1));
    }
    for bank in [0, 15, 16, 255] {
        for transaction in [0, 255, 256, 65535] {
            cases.put_both(READ_COMMAND, &command(16909060, 3, bank, transaction));
        }
    }
    for c in [
        command(54, 2, 0, 1),
        command(16909060, 4, 15, 772),
        command(4294967295, 255, 255, 65535),
    ] {
        cases.put_rooms(WRITE_COMMAND, &c);
    }
}

/// Calls that there are not, writes whose values are cut or whose buffer is too long, and at the end a case that is cut short.
fn not_cases(cases: &mut Cases) {
    for call in [0, 10, 128, 255] {
        cases.put(call, &[]);
        cases.put(call, &bytes_of(&TABLE_A));
    }
    for (write, values) in [
        (WRITE_TABLE, &bytes_of(&TABLE_A)[..]),
        (WRITE_GROUP_TABLE, &bytes_of(&TABLE_D)),
        (WRITE_TRANSACTION, &[0, 0, 1, 1]),
        (WRITE_COMMAND, &[0; 8]),
        (WRITE_LATER, &[0; 8]),
    ] {
        for size in [0, 1, values.len() - 1] {
            cases.put(write, &values[..size]);
        }
        for room in [ROOM + 1, 255 - values.len()] {
            cases.put_write(write, values, room);
        }
    }
    cases.0.extend([READ_TABLE, 32, 7, 0]);
}
