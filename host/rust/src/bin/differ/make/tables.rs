//! Tables: legal ones of every shape, and damaged ones.

use model::desk::{read_table, GroupTable, Table};
use model::house::*;

use crate::case::Case;
use crate::numbers::Random;

/// A table that is accepted.
pub fn legal(r: &mut Random) -> GroupTable {
    if r.one_in(12) {
        return TABLE_D;
    }
    if r.one_in(12) {
        return r.of_these(&group_tables());
    }
    let t = sixteen(r);
    if r.one_in(3) {
        return whole(&t);
    }
    in_groups(r, &t)
}

/// In any number of groups, whether or not it divides the banks, with long numbers at the short ones and above them.
fn in_groups(r: &mut Random, t: &Table) -> GroupTable {
    let groups = 1 + r.below(usize::from(t[1]).min(8)) as u16;
    let more = r.of_these(&[1, 4, 20, 100, 1023]);
    let longs = LONGS.map(|(_, short)| match r.below(4) {
        0 => t[short],
        _ => (t[short] + 1 + r.below(more) as u16).min(1023),
    });
    grouped(t, groups, longs)
}

/// The table's record: of 32 bytes now and then, where it has no more to tell.
fn record(r: &mut Random, t: &GroupTable) -> Vec<u8> {
    if *t == whole(&t[..16]) && !r.one_in(4) {
        return bytes_of(&t[..16]);
    }
    bytes_of(t)
}

fn sixteen(r: &mut Random) -> Table {
    let mut t = match r.below(10) {
        0 => r.of_these(&[TABLE_A, TABLE_B, TABLE_C, TABLE_T, REFRESHED]),
        1 => r.of_these(&[LEAST, GREATEST]),
        2 => r.of_these(&ODD),
        3 => near(r),
        4 => drawn(r, 1023),
        5 => drawn(r, 255),
        6 => drawn(r, 60),
        _ => drawn(r, 12),
    };
    if r.one_in(3) {
        t[0] = 1 + r.below(65_535) as u16;
    }
    if r.one_in(6) {
        t[1] = 1 + r.below(16) as u16;
    }
    t
}

/// Table A, or the one with a refresh, with a number or two moved a little.
fn near(r: &mut Random) -> Table {
    let mut t = r.of_these(&[TABLE_A, REFRESHED]);
    for _ in 0..=r.below(2) {
        let i = 4 + r.below(12);
        t[i] = (t[i] + r.below(5) as u16).saturating_sub(2).max(1);
    }
    t
}

fn drawn(r: &mut Random, most: u32) -> Table {
    let mut t = [0; 16];
    t[0] = 1 + r.below(65_535) as u16;
    t[1] = if r.one_in(2) {
        8
    } else {
        1 + r.below(16) as u16
    };
    for number in &mut t[2..] {
        *number = r.range(1, most) as u16;
    }
    if r.one_in(3) {
        t[RFC] = 0;
    }
    // One that stands out decides where it applies.
    if r.one_in(2) {
        let any = 2 + r.below(14);
        let i = r.of_these(&[any, RC, FAW, RFC]);
        t[i] = (t[i] * 8).min(1023);
    }
    t[3] = t[3].max(2).max(t[2]);
    t
}

/// One or two numbers at an edge or beyond it.
fn beyond(r: &mut Random) -> GroupTable {
    let mut t = legal(r);
    for _ in 0..=r.below(2) {
        let i = r.below(20);
        t[i] = match r.below(9) {
            0 => 0,
            1 => 1,
            2 => r.of_these(&[8, 9, 16, 17, 18]),
            3 => r.of_these(&[255, 256]),
            4 => 1023,
            5 => 1024,
            6 => 65_535,
            7 => 256 * r.below(256) as u16,
            _ => r.u32() as u16,
        };
    }
    if r.one_in(4) {
        t[3] = t[2].saturating_sub(r.below(2) as u16);
    }
    // A long number at its short one, or one below; as many groups as banks, or one more.
    if r.one_in(3) {
        let (long, short) = r.of_these(&LONGS);
        t[long] = t[short].saturating_sub(r.below(2) as u16);
    }
    if r.one_in(5) {
        t[GROUPS] = t[1].wrapping_add(r.below(2) as u16);
    }
    t
}

/// The twenty numbers to be written; of a table of 32 bytes the first sixteen.
pub fn numbers(r: &mut Random) -> GroupTable {
    if r.one_in(2) {
        legal(r)
    } else {
        beyond(r)
    }
}

/// Bytes that may not be a table.
pub fn hostile(r: &mut Random) -> Vec<u8> {
    let t = numbers(r);
    let mut bytes = record(r, &t);
    match r.below(8) {
        0 => {
            let sizes = [0, 1, 2, 30, 31, 33, 34, 36, 38, 39, 41, 42, 48, 64, 80, 200];
            let size = r.of_these(&sizes);
            bytes = bytes.iter().copied().cycle().take(size).collect();
        }
        1 => bytes.truncate(r.below(bytes.len())),
        2 => {
            let at = r.below(bytes.len());
            bytes[at] ^= 1 << r.below(8);
        }
        3 if r.one_in(2) => bytes.iter_mut().for_each(|b| *b = r.u8()),
        // The record of the other size: the first sixteen numbers, or with four that are any.
        4 => {
            let more: Vec<u8> = (0..8)
                .map(|_| r.below(20) as u8 * (r.below(2) as u8))
                .collect();
            bytes.truncate(32);
            if r.one_in(2) {
                bytes.extend(more);
            }
        }
        _ => (),
    }
    bytes
}

/// Another edition than the table's, mostly: 0, its bytes swapped, one off, a bit flipped, or any.
fn other(r: &mut Random, edition: u16) -> u16 {
    match r.below(6) {
        0 => 0,
        1 => edition.swap_bytes(),
        2 => edition.wrapping_add(1),
        3 => edition.wrapping_sub(1),
        4 => edition ^ 1 << r.below(16),
        _ => r.u32() as u16,
    }
}

/// Gives the case a table, mostly an accepted one, and an expected edition, mostly its own. Answers the table that the rest of the case is
/// made for.
pub fn some(r: &mut Random, case: &mut Case) -> GroupTable {
    let t = accepted(r, case);
    let mut one_in = 8;
    if r.one_in(16) {
        case.table = hostile(r);
        one_in = 2;
    }
    case.expected = case.edition();
    if r.one_in(one_in) {
        case.expected = other(r, case.expected);
    }
    t
}

/// Gives the case a table that is accepted, and its edition.
pub fn accepted(r: &mut Random, case: &mut Case) -> GroupTable {
    let t = legal(r);
    case.table = record(r, &t);
    case.expected = case.edition();
    t
}

/// The same as `some` with RC or FAW, which seldom decide, far out now and then.
pub fn for_judges(r: &mut Random, case: &mut Case) -> GroupTable {
    let mut t = some(r, case);
    if r.one_in(4) && read_table(&case.table) == Ok(t) {
        t[r.of_these(&[RC, FAW])] = r.range(60, 1023) as u16;
        case.table = bytes_of(&t[..case.table.len() / 2]);
    }
    t
}
