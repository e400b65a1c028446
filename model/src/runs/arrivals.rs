//! Builds of transactions of 8 bytes: "neither queue sees a transaction before its arrival".

use super::lists::{any_arrivals, any_list};
use super::put::Cases;
use crate::house::*;
use crate::records::{BANKS, CCD, EDITION, LATEST};

const REFRESH: [u8; 4] = REFRESH_BYTES;

pub fn arrivals(cases: &mut Cases) {
    equal_and_between(cases);
    latest(cases);
    out_of_range(cases);
    sizes(cases);
    order(cases);
    any(cases, &mut Numbers(23));
}

/// All at cycle 0, as the record of 4 bytes has it; others at one cycle; and a second that arrives before the first has gone, within its
/// work, and after it.
fn equal_and_between(cases: &mut Cases) {
    let mut put = |list: &[[u8; 4]], arrivals: &[u32]| {
        cases.build_later(&TABLE_A, &arriving(list, arrivals));
    };
    put(&[], &[]);
    put(&[WRITE, READ], &[0, 0]);
    put(&[READ], &[5]);
    put(&[READ, [1, 1, 1, 1], [0, 2, 2, 2]], &[25, 25, 25]);
    put(&[READ, [1, 1, 1, 1], [0, 2, 2, 2]], &[1, 256, 256]);
    for arrival in (0..12).chain([43, 44, 45, 500, 70_000]) {
        put(&[WRITE, READ], &[0, arrival]);
        put(&[[0, 0, 4, 2], [1, 5, 2, 1]], &[3, 3 + 3 * arrival]);
    }
    for arrival in [0, 9, 37, 38, 39, 88, 89, 200] {
        let list = [READ, REFRESH, [1, 3, 1, 2]];
        let list = arriving(&list, &[0, arrival, arrival + 40]);
        cases.build_later(&REFRESHED, &list);
        cases.build_later(&TABLE_D, &arriving(&[READ, [0, 4, 1, 1]], &[0, arrival]));
    }
    cases.build_later(&REFRESHED, &arriving(&[REFRESH; 3], &[7, 7, 100]));
}

/// "At most 20,000,000", and one more.
fn latest(cases: &mut Cases) {
    let mut put = |list: &[[u8; 4]], arrivals: &[u32]| {
        cases.build_later(&TABLE_A, &arriving(list, arrivals));
    };
    put(&[WRITE, READ], &[LATEST, LATEST]);
    put(&[WRITE, READ], &[0, LATEST]);
    put(&[WRITE, READ], &[0, LATEST + 1]);
    put(&[READ], &[LATEST + 1]);
    put(&[READ], &[u32::MAX]);
    cases.build_later(&REFRESHED, &arriving(&[REFRESH], &[LATEST + 1]));
}

/// "Never less than the one before it": the later of the two is named, unless another fault stands before it.
fn out_of_range(cases: &mut Cases) {
    let bad = [0, 8, 1, 1];
    for (list, arrivals) in [
        ([READ; 4], [9, 8, 8, 8]),
        ([READ; 4], [0, 9, 9, 8]),
        ([READ; 4], [0, 256, 255, 0]),
        ([READ; 4], [LATEST + 1, 0, 0, 0]),
        ([READ; 4], [0, 5, LATEST + 1, 4]),
        ([READ, READ, bad, READ], [0, 1, 2, 1]),
        ([READ, READ, bad, READ], [1, 0, 2, 2]),
        ([READ, READ, READ, REFRESH], [0, 1, 1, 2]),
    ] {
        cases.build_later(&TABLE_A, &arriving(&list, &arrivals));
    }
    cases.build_later(&REFRESHED, &arriving(&[READ, REFRESH, REFRESH], &[7, 7, 6]));
}

/// "For the new one number 3 wants a multiple of 8"; 256 and one more.
fn sizes(cases: &mut Cases) {
    let two = arriving(&[READ, WRITE], &[0, 0]).concat();
    for size in [1, 4, 7, 9, 12, 15] {
        cases.later(|cases| cases.build(&TABLE_A, 64, 2, &two[..size]));
    }
    let many: Vec<[u8; 8]> = (0..257)
        .map(|k| later([k as u8 % 2, k as u8 % 8, 1, 1], 30 * k))
        .collect();
    cases.build_later(&TABLE_A, &many[..256]);
    cases.build_later(&TABLE_A, &many);
}

/// Numbers 1, 2 and 10 before 3, and 4, 5 and 6 after it.
fn order(cases: &mut Cases) {
    let good = arriving(&[READ, WRITE], &[4, 9]).concat();
    let falls = arriving(&[READ, WRITE], &[9, 4]).concat();
    for (room, slots) in [(31, 2), (31, 1), (32, 1), (32, 2), (40, 3)] {
        cases.later(|cases| cases.build(&TABLE_A, room, slots, &good));
        cases.later(|cases| cases.build(&TABLE_A, room, slots, &falls));
    }
    for list in [&good, &falls, &good[..12]] {
        for expected in [8, 0] {
            let put = |cases: &mut Cases| cases.build(&TABLE_A, 32, 2, list);
            cases.later(|cases| cases.expecting(expected, put));
        }
        cases.later(|cases| cases.build(&with(&[(CCD, 1)]), 32, 2, list));
    }
    let short = |cases: &mut Cases| cases.build(&TABLE_A, 32, 2, &[]);
    cases.later(|cases| cases.by(&bytes_of(&TABLE_A)[..31], short));
}

/// Lists under every table, arriving a few cycles apart or at once.
fn any(cases: &mut Cases, numbers: &mut Numbers) {
    let tables = [TABLE_A, TABLE_B, LEAST, GREATEST, REFRESHED];
    let tables = tables.iter().chain(&ODD).map(|t| t.to_vec());
    let of_groups = group_tables().into_iter().chain([TABLE_D]);
    for table in tables.chain(of_groups.map(|t| t.to_vec())) {
        assert!(table[EDITION] != 0 && table[BANKS] != 0);
        let list = any_list(&table, 4, numbers);
        cases.build_later(&table, &arriving(&list, &any_arrivals(4, numbers)));
    }
}
