//! Refreshes in every place of a list, as many as there can be, faulty ones, and tables that have none.

use super::lists::any_list;
use crate::house::*;
use crate::inputs::Cases;
use crate::records::{BANKS, RFC};

const REFRESH: [u8; 4] = REFRESH_BYTES;

pub fn put(cases: &mut Cases) {
    let mut numbers = Numbers(23);
    accepted(cases);
    most(cases);
    refused(cases);
    any(cases, &mut numbers);
}

fn accepted(cases: &mut Cases) {
    cases.group("refreshes first, last, between and alone, for RFC at the ends of its range");
    for rfc in [1, 50, 256, 1023] {
        let table = with(&[(RFC, rfc)]);
        cases.list(&table, &[REFRESH]);
        cases.list(&table, &[REFRESH, READ]);
        cases.list(&table, &[READ, REFRESH, READ]);
        cases.list(&table, &[WRITE, REFRESH, REFRESH, WRITE]);
        cases.list(&table, &[[0, 6, 4, 2], REFRESH, [1, 5, 8, 1], REFRESH]);
    }
    for banks in [1, 2, 5, 16] {
        let table = with(&[(BANKS, banks.into()), (RFC, 33)]);
        let all = |kind| [kind, banks - 1, banks, 2];
        cases.list(&table, &[all(1), REFRESH, all(0), REFRESH]);
    }
}

/// A refresh is one command due: 8192 commands just fit, and with one refresh more they don't.
fn most(cases: &mut Cases) {
    cases.group(
        "255, 256 and 257 refreshes, and schedules of 8191, 8192 and 8193 commands with refreshes",
    );
    for table in [REFRESHED, GREATEST] {
        for size in [255, 256, 257] {
            cases.list(&table, &vec![REFRESH; size]);
        }
    }
    // 30 of 272 commands, and 32 left.
    let mut list = vec![[0, 0, 16, 16]; 30];
    list.resize(61, REFRESH);
    for _ in 0..3 {
        cases.list(&with(&[(BANKS, 16), (RFC, 50)]), &list);
        list.push(REFRESH);
    }
}

fn refused(cases: &mut Cases) {
    cases.group("refreshes under a table that has none, and with a byte that is not 0");
    cases.list(&TABLE_A, &[REFRESH]);
    cases.list(&TABLE_A, &[READ, REFRESH, [9; 4]]);
    cases.list(&with(&[(RFC, 1024)]), &[REFRESH]);
    for place in 0..4 {
        for n in [0, 1, 255] {
            let mut x = REFRESH;
            x[place] = n;
            cases.list(&REFRESHED, &[REFRESH, x]);
        }
    }
    cases.bytes(&REFRESHED, &[2, 0, 0]);
    cases.bytes(&REFRESHED, &[2, 0, 0, 0, 2]);
}

fn any(cases: &mut Cases, numbers: &mut Numbers) {
    cases.group("any list with refreshes");
    for round in 0..12 {
        let table = numbers.of(&[REFRESHED, ODD[1], ODD[3], ODD[7], ODD[11]]);
        let mut list = any_list(&table, 1 + round % 15, (5, 3), numbers);
        list.insert(numbers.below(list.len()), REFRESH);
        cases.list(&table, &list);
    }
}
