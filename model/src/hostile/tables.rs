//! Tables of either size: the edges of each number, sizes one off, and buffers that are too small or too great.

use super::put::Cases;
use super::told::*;
use crate::house::{group_tables as house_group_tables, *};
use crate::records::{B, BANKS, CCD, EDITION, RFC};

pub fn tables(cases: &mut Cases) {
    let a = bytes_of(&TABLE_A);
    for size in [0, 1, 2, 31, 32, 33, 39, 41, 64, 255] {
        let bytes: Vec<u8> = a.iter().copied().cycle().take(size).collect();
        cases.put(READ_TABLE, &bytes);
    }
    let mut tables = vec![
        TABLE_A,
        with(&[(FAW, 155)]),
        with(&[(RTP, 2)]),
        [0; 16],
        [65535; 16],
    ];
    for i in EDITION..=RFC {
        // With table A's CCD, B is at most 4.
        let greatest = match i {
            EDITION => 65535,
            BANKS => 16,
            B => 4,
            _ => 1023,
        };
        let over = if i == EDITION { 256 } else { greatest + 1 };
        tables.extend([0, 1, 255, 256, greatest, over, 65535].map(|n| with(&[(i, n)])));
    }
    tables.extend([1, 2, 3, 4, 5].map(|ccd| with(&[(CCD, ccd)])));
    for (b, ccd) in [
        (1, 1),
        (1, 2),
        (2, 2),
        (3, 2),
        (5, 4),
        (255, 254),
        (256, 256),
        (1023, 1022),
        (1023, 1023),
        (1023, 1024),
        (1024, 1024),
    ] {
        tables.push(with(&[(B, b), (CCD, ccd)]));
    }
    // RFC that is accepted doesn't hide another fault, nor the other way round.
    for rfc in [1, 1024] {
        for fault in [(EDITION, 0), (BANKS, 17), (CCD, 1), (FAW, 1024)] {
            tables.push(with(&[fault, (RFC, rfc)]));
        }
    }
    for t in &tables {
        cases.put_both(READ_TABLE, &bytes_of(t));
    }
    for t in [
        TABLE_A,
        with(&[(BANKS, 0)]),
        with(&[(RFC, 1)]),
        with(&[(RFC, 1024)]),
    ] {
        cases.put_rooms(WRITE_TABLE, &bytes_of(&t));
    }
}

/// Tables of 40 bytes: sizes about theirs, each limit and one past it, faults of the first sixteen numbers, and rooms.
pub fn group_tables(cases: &mut Cases) {
    let d = bytes_of(&TABLE_D);
    for size in [34, 36, 38, 39, 40, 41, 42, 48, 72, 80] {
        let bytes: Vec<u8> = d.iter().copied().cycle().take(size).collect();
        cases.put(READ_TABLE, &bytes);
    }
    let of_d = |place: usize, n| {
        let mut t = TABLE_D;
        t[place] = n;
        t
    };
    let mut tables = vec![TABLE_D, [0; 20], [65535; 20]];
    tables.extend([0, 1, 4, 8, 9, 256, 65535].map(|n| of_d(GROUPS, n)));
    for (long, short) in LONGS {
        let least = TABLE_D[short];
        tables.extend([0, 1, least - 1, least, 1023, 1024, 65535].map(|n| of_d(long, n)));
        // The short number is raised to the long one, and above it.
        let n = TABLE_D[long];
        tables.extend([of_d(short, n), of_d(short, n + 1)]);
        let mut both = of_d(short, 1023);
        both[long] = 1023;
        tables.push(both);
        (both[short], both[long]) = (1024, 1024);
        tables.push(both);
    }
    for banks in [1, 2, 7, 8, 16] {
        for groups in [banks - 1, banks, banks + 1] {
            tables.push(grouped(&with(&[(BANKS, banks)]), groups, [9, 20, 13]));
        }
    }
    for fault in [
        (EDITION, 0),
        (BANKS, 0),
        (BANKS, 17),
        (CCD, 1),
        (B, 5),
        (RFC, 1024),
    ] {
        tables.push(of_d(fault.0, fault.1));
    }
    tables.extend(house_group_tables());
    for t in &tables {
        cases.put(READ_TABLE, &bytes_of(t));
        cases.put_write(WRITE_GROUP_TABLE, &bytes_of(t), 40);
    }
    for t in [TABLE_D, of_d(GROUPS, 0), [0; 20]] {
        for room in [0, 1, 31, 32, 39, 40, 41, ROOM] {
            cases.put_write(WRITE_GROUP_TABLE, &bytes_of(&t), room);
        }
    }
}
