//! Set states for the two engines alone: each pair of numbers that hold two heads up, about one cycle and about the last; and states from which
//! nothing goes, up to the last cycle and the greatest count.

use model::desk::GroupTable;
use model::house::{arriving, bytes_of, grouped, room_for, with, REFRESH_BYTES, RFC};

use super::super::states::LAST_CYCLE;
use super::super::terms::{act_head, data_head, terms};
use crate::case::*;

const RUNS: [Call; 4] = [Call::Run, Call::Step, Call::RunBytes, Call::RunLaterBytes];

/// Table A's numbers in three groups, no two of the long ones alike, with a refresh.
fn table() -> GroupTable {
    grouped(&with(&[(RFC, 50)]), 3, [9, 11, 15])
}

fn of(call: Call, list: &[[u8; 4]]) -> Case {
    let mut case = Case::new(call).by(true);
    case.table = bytes_of(&table());
    case.lend(&at_once(list));
    case.room = room_for(list);
    case.state[LENT] = list.len() as u32;
    if call != Call::Step {
        case.values[0] = u32::MAX;
    }
    case
}

pub fn all() -> Vec<Case> {
    [pairs(), stuck(), waits()].concat()
}

/// A data command of bank 0 that is due, and behind it an ACT, to a bank of its group and to one of another, or a REF.
fn pairs() -> Vec<Case> {
    let t = table();
    let mut cases = Vec::new();
    for first in [[0, 0, 1, 1], [1, 0, 1, 2]] {
        for second in [[0, 3, 1, 1], [1, 4, 1, 1], REFRESH_BYTES] {
            let list = [first, second];
            let lent = at_once(&list);
            let heads = [act_head(&t, &lent, 1), data_head(&t, &lent, 0)];
            let [act, data] = heads.map(|head| head.expect("it waits").0);
            for (act_place, act_cycles) in terms(&t, act) {
                for (data_place, data_cycles) in terms(&t, data) {
                    for (aim, later) in [(500, 0), (500, 1), (500, 2), (LAST_CYCLE - 1, 1)] {
                        let mut case = of(Call::Run, &list);
                        let s = &mut case.state;
                        (s[CYCLE], s[ACTS], s[BANKS]) = (aim - 1, 1, 1);
                        let before = |to: u32, cycles: u32| (to - cycles).min(aim - 2);
                        s[act_place] = before(aim, act_cycles);
                        s[data_place] = before(aim - 1 + later, data_cycles);
                        cases.push(case);
                    }
                }
            }
        }
    }
    cases.extend(alone(&t));
    cases
}

/// One head alone, held up to the last cycle but one, to the last, and past it; and to the count's last cycle and past that.
fn alone(t: &GroupTable) -> Vec<Case> {
    let mut cases = Vec::new();
    for (first, acts) in [
        ([0, 1, 1, 1], 0),
        (REFRESH_BYTES, 0),
        ([0, 1, 1, 1], 1),
        ([1, 1, 1, 1], 1),
    ] {
        let lent = at_once(&[first]);
        let head = match acts {
            0 => act_head(t, &lent, 0),
            _ => data_head(t, &lent, 0),
        };
        for (place, cycles) in terms(t, head.expect("it waits").0) {
            for (aim, count) in [
                (LAST_CYCLE - 2, u32::MAX),
                (LAST_CYCLE - 1, u32::MAX),
                (LAST_CYCLE, u32::MAX),
                (LAST_CYCLE + 1, u32::MAX),
                (700, 1),
                (700, 2),
                (700, 3),
            ] {
                for call in RUNS {
                    let mut case = of(call, &[first]);
                    let s = &mut case.state;
                    (s[ACTS], s[BANKS + 4]) = (acts, acts);
                    s[CYCLE] = (aim - 1).min(LAST_CYCLE - 1) - 1;
                    s[place] = (aim - cycles).min(s[CYCLE] - 1);
                    if call != Call::Step {
                        case.values[0] = count;
                    }
                    cases.push(case);
                }
            }
        }
    }
    cases
}

/// An open bank whose data command has gone, before an ACT and before a REF; a closed one with a data command due, alone and before an ACT that
/// goes; with stamps at 0, of just now and never.
fn stuck() -> Vec<Case> {
    let read = [0, 2, 1, 1];
    let states: [(&[[u8; 4]], [u32; 3]); 5] = [
        (&[read, read], [1, 1, 1]),
        (&[read, REFRESH_BYTES], [1, 1, 1]),
        (&[read], [1, 0, 0]),
        (&[read, [1, 5, 2, 2]], [1, 0, 0]),
        (&[read, REFRESH_BYTES, [1, 5, 1, 1]], [1, 0, 0]),
    ];
    let mut cases = Vec::new();
    for (list, [acts, datas, opened]) in states {
        for cycle in [1, 12_345_678, LAST_CYCLE - 100, LAST_CYCLE - 1] {
            for count in [
                0,
                1,
                99,
                100,
                101,
                LAST_CYCLE - cycle,
                LAST_CYCLE - 1,
                LAST_CYCLE,
                u32::MAX - cycle,
                u32::MAX - cycle + 1,
                u32::MAX,
            ] {
                for stored in [0, cycle - 1, u32::MAX] {
                    let call = RUNS[cases.len() % RUNS.len()];
                    let mut case = of(call, list);
                    let s = &mut case.state;
                    (s[CYCLE], s[ACTS], s[DATAS]) = (cycle, acts, datas);
                    (s[BANKS + 8], s[BANKS + 9], s[REFRESH]) = (opened, stored, stored);
                    s[LAST..LAST + 4].fill(stored);
                    s[GROUPS + 6..GROUPS + 9].fill(stored);
                    if call != Call::Step {
                        case.values[0] = count;
                    }
                    cases.push(case);
                }
            }
        }
    }
    cases
}

/// Arrivals a cycle apart from the cycle, and the last there is, which the second engine goes straight to; built and run.
fn waits() -> Vec<Case> {
    let list = [[1, 0, 1, 1], REFRESH_BYTES, [0, 0, 2, 2]];
    let mut cases = Vec::new();
    for arrivals in [
        [0, 9_999_999, 20_000_000],
        [20_000_000; 3],
        [0, 1, 2],
        [0, 11, 84],
        [0, 54, 95],
    ] {
        for call in [
            Call::Schedule,
            Call::ScheduleLaterBytes,
            Call::Run,
            Call::RunLaterBytes,
        ] {
            let mut case = of(call, &list);
            case.lend(&arriving(&list, &arrivals));
            case.slots = list.len();
            cases.push(case);
        }
    }
    cases
}
