//! The cases themselves: built schedules, each cause of fault alone and each two together, all small edits of a schedule, long lists,
//! records outside the list, the empty list, and refusals.

use super::edits::edits;
use super::faults::{faults, Fault};
use super::long::long;
use super::put::Cases;
use super::refusals::{not_cases, refusals};
use crate::house::*;
use crate::rules::{ACT, RDA, REF, WRA};
use crate::scheduler::Due;

pub fn cases() -> Vec<u8> {
    let mut cases = Cases::default();
    built_ones(&mut cases);
    outside(&mut cases);
    none(&mut cases);
    for Fault { list, order, .. } in faults() {
        cases.list(&REFRESHED, list, &loose(&order));
    }
    edits(&mut cases);
    long(&mut cases);
    refusals(&mut cases);
    not_cases(&mut cases);
    cases.0
}

/// "Schedules we build must pass": with refreshes, groups and arrivals, round the last bank; and each with its first command a cycle later, which
/// may break a rule, and for another list.
fn built_ones(cases: &mut Cases) {
    let lists: [&[[u8; 4]]; 6] = [
        &[[0, 0, 1, 1]],
        &[[1, 0, 1, 1], [0, 0, 1, 1]],
        &[[0, 0, 4, 2]],
        &[[1, 6, 3, 2], [0, 7, 2, 3], [1, 5, 5, 1]],
        &[[0, 0, 1, 1], REFRESH_BYTES, [0, 0, 1, 1]],
        &[REFRESH_BYTES, REFRESH_BYTES, [1, 7, 2, 2], REFRESH_BYTES],
    ];
    let tables: [&[u16]; 3] = [&REFRESHED, &grouped(&REFRESHED, 4, [9, 20, 13]), &ODD[11]];
    for table in tables {
        for list in lists {
            let (schedule, _) = built(table, list);
            cases.list(table, list, &schedule);
            // The last command is then missing, or the first not its own.
            cases.list(table, list, &schedule[..schedule.len() - 8]);
            let mut other = list.to_vec();
            other[0][3] ^= 3;
            if other[0][0] != REFRESH_BYTES[0] && other[0][3] > 0 {
                cases.list(table, &other, &schedule);
            }
        }
    }
    // "Arrivals aren't looked at": the schedule of these arrivals, of none, and of others.
    let list = [[0, 0, 2, 1], REFRESH_BYTES, [1, 1, 1, 2]];
    let arrivals: [&[u32]; 3] = [&[0, 0, 0], &[5, 300, 900], &[20_000_000; 3]];
    for of_list in arrivals {
        for of_schedule in arrivals {
            let (schedule, _) = built_later(&REFRESHED, &arriving(&list, of_schedule));
            cases.laters(&REFRESHED, &arriving(&list, of_list), &schedule);
        }
    }
}

/// A visit to bank 3 under a number that may be outside the list, and a REF, before, between and after.
fn outside(cases: &mut Cases) {
    let list = [[0, 0, 1, 1], REFRESH_BYTES, [1, 0, 1, 1]];
    let order = [
        (ACT, 0, 0),
        (RDA, 0, 0),
        (REF, 0, 1),
        (ACT, 0, 2),
        (WRA, 0, 2),
    ];
    for number in [0, 1, 2, 3, 255, 256, 258, 65535] {
        for place in [0, 2, 3, 5] {
            let mut visited = order.to_vec();
            visited.splice(place..place, [(ACT, 3, number), (RDA, 3, number)]);
            cases.list(&REFRESHED, &list, &loose(&visited));
            let mut refreshed = order.to_vec();
            refreshed.insert(place, (REF, 0, number));
            cases.list(&REFRESHED, &list, &loose(&refreshed));
        }
        // Its ACT, or its data command, in place of a transaction's.
        for place in 0..order.len() {
            let mut renumbered = order.to_vec();
            renumbered[place].2 = number;
            cases.list(&REFRESHED, &list, &loose(&renumbered));
        }
    }
}

/// No transaction: nothing is at fault, and 0 is given where there is a record.
fn none(cases: &mut Cases) {
    let orders: [&[Due]; 5] = [
        &[],
        &[(ACT, 0, 0), (RDA, 0, 0)],
        &[(REF, 0, 65535)],
        &[(ACT, 0, 0)],
        &[(RDA, 0, 0)],
    ];
    for order in orders {
        cases.list(&REFRESHED, &[], &loose(order));
        cases.laters(&REFRESHED, &[], &loose(order));
    }
    // Nothing serves a list that is not empty.
    for list in [&[REFRESH_BYTES][..], &[[0, 0, 1, 1], [1, 3, 2, 2]]] {
        cases.list(&REFRESHED, list, &[]);
    }
}
