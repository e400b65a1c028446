//! Arrivals up to the last that there is, and pieces cut at every place, in time, late by one and lent once too often.

use model::house::{arriving, bytes_of, later, room_for, whole, REFRESHED, REFRESH_BYTES, TABLE_A};

use super::lists::LATEST;
use super::states::reached;
use crate::case::*;

const READ: [u8; 4] = [0, 0, 1, 1];
const WRITE: [u8; 4] = [1, 0, 1, 1];

/// Each call that is given transactions with arrivals, but for those that only decode them.
const BUILDS: [Call; 2] = [Call::Schedule, Call::ScheduleLaterBytes];
const RUNS: [Call; 3] = [Call::Run, Call::Step, Call::RunLaterBytes];

pub fn all() -> Vec<Case> {
    let mut cases = Vec::new();
    cases.extend(latest());
    cases.extend(many());
    cases.extend(cuts());
    cases.extend(waits());
    cases
}

fn of(call: Call, table: &[u16; 16], list: &[[u8; 8]]) -> Case {
    let mut case = Case::new(call);
    case.table = bytes_of(table);
    case.expected = table[0];
    case.state = fresh(table[0].into());
    case.lend(list);
    if call != Call::Step {
        case.values[0] = u32::MAX;
    }
    case.room = room_for(list);
    case.slots = list.len();
    case
}

/// The engine walks to the first arrival and between two; a refresh waits too, and one arrival more is refused.
fn latest() -> Vec<Case> {
    let mut cases = Vec::new();
    for arrivals in [[LATEST, LATEST], [0, LATEST], [0, LATEST + 1]] {
        for call in BUILDS.into_iter().chain([Call::RunLaterBytes]) {
            cases.push(of(call, &TABLE_A, &arriving(&[WRITE, READ], &arrivals)));
        }
    }
    let refresh = [later(REFRESH_BYTES, LATEST)];
    cases.push(of(Call::Schedule, &REFRESHED, &refresh));
    for (cycle, lent) in [
        (LATEST - 1, 0),
        (LATEST, 0),
        (LATEST + 1, 0),
        (LATEST + 1, 1),
    ] {
        for call in RUNS {
            let mut case = of(call, &TABLE_A, &[later(READ, LATEST)]);
            (case.state[CYCLE], case.state[LENT]) = (cycle, lent);
            cases.push(case);
        }
    }
    cases
}

/// 256 of them, and one more; each a thousand cycles after the one before it, all at one cycle, or one of them a cycle too early.
fn many() -> Vec<Case> {
    let mut cases = Vec::new();
    for size in [256, 257] {
        for (apart, from) in [(1000, 0), (30, 5), (0, 77)] {
            let one = |k: u32| {
                let x = [(k % 3 == 1) as u8, (k % 8) as u8, 1 + (k % 5) as u8, 2];
                later(x, from + apart * k)
            };
            let mut list: Vec<[u8; 8]> = (0..size).map(one).collect();
            for call in BUILDS.into_iter().chain(RUNS) {
                cases.push(of(call, &TABLE_A, &list));
            }
            let before = arrival(&list[199]);
            list[200] = later(READ, before.saturating_sub(1));
            cases.push(of(Call::ReadLaterTransactions, &TABLE_A, &list));
            cases.push(of(Call::RunLaterBytes, &TABLE_A, &list));
        }
    }
    cases
}

/// A list with a refresh, cut at every place: the first part run to each cycle up to the next arrival, and one more, which is late unless the
/// part is served by then; with as many lent before as there were, one more and one fewer, and more than there are.
fn cuts() -> Vec<Case> {
    let list = [WRITE, [0, 1, 2, 2], REFRESH_BYTES, [1, 7, 2, 1]];
    let list = arriving(&list, &[2, 9, 40, 40]);
    let table = whole(&REFRESHED);
    let mut cases = Vec::new();
    for at in 0..=list.len() {
        let until = list.get(at).map_or(20, arrival);
        for cycles in (0..=until).step_by(4).chain([until, until + 1, 1000]) {
            let state = reached(&table, &list[..at], cycles);
            let lent = state[LENT];
            for lent in [lent, lent + 1, lent.saturating_sub(1), 5, u32::MAX] {
                for call in RUNS {
                    let mut case = of(call, &REFRESHED, &list);
                    case.state = state;
                    case.state[LENT] = lent;
                    cases.push(case);
                }
            }
            let mut none = of(Call::RunLaterBytes, &REFRESHED, &list);
            none.state = state;
            (none.values[0], none.room) = (0, 0);
            cases.push(none);
        }
    }
    cases
}

/// From a state whose ACT went before: a data command next, which arrives before the cycle, at it and after it, and an ACT behind it.
fn waits() -> Vec<Case> {
    let mut cases = Vec::new();
    for arrivals in [[19, 19], [20, 20], [21, 21], [20, 26], [30, 44], [500, 600]] {
        for kind in [0, 1] {
            for call in RUNS {
                let list = arriving(&[[kind, 0, 1, 2], [1 - kind, 1, 1, 1]], &arrivals);
                let mut case = of(call, &TABLE_A, &list);
                let s = &mut case.state;
                (s[CYCLE], s[ACTS], s[BANKS], s[LENT]) = (20, 1, 1, 2);
                cases.push(case);
            }
        }
    }
    cases
}
