//! Numbers 1, 2, 10, 3, 4 and 7, alone and two at a time, the calls that there are not, and a case that is cut short.

use super::put::Cases;
use super::told::{LATER, PLAIN};
use crate::house::*;
use crate::records::{CCD, LATEST};
use crate::rules::{ACT, RDA};

/// What is handed in.
struct Handed {
    expected: u16,
    table: Vec<u8>,
    list: Vec<u8>,
    schedule: Vec<u8>,
}

/// A read's own schedule, of a record of either size.
fn fine(call: u8) -> Handed {
    let read = [0, 0, 1, 1];
    Handed {
        expected: 7,
        table: bytes_of(&TABLE_A),
        list: if call == PLAIN {
            [read, [1, 0, 1, 1]].concat()
        } else {
            [later(read, 9), later([1, 0, 1, 1], 9)].concat()
        },
        schedule: loose(&[(ACT, 0, 0), (RDA, 0, 0)]),
    }
}

/// Each makes one number refuse it.
type Spoil = fn(&mut Handed);

const SPOILS: [Spoil; 6] = [
    |h| _ = h.table.pop(),
    |h| h.table[2 * CCD] = 1,
    |h| h.expected += 1,
    |h| h.list.push(0),
    |h| {
        let last = h.list.len() / 2;
        h.list[last + 2] = 0;
    },
    |h| h.schedule.push(0),
];

pub fn refusals(cases: &mut Cases) {
    for call in [PLAIN, LATER] {
        let put = |cases: &mut Cases, h: &Handed| {
            cases.put(call, h.expected, &h.table, &h.list, &h.schedule);
        };
        put(cases, &fine(call));
        for (first, spoil) in SPOILS.iter().enumerate() {
            let mut h = fine(call);
            spoil(&mut h);
            put(cases, &h);
            for also in &SPOILS[first + 1..] {
                let mut h = fine(call);
                also(&mut h);
                spoil(&mut h);
                put(cases, &h);
            }
        }
        edges(cases, call);
    }
}

/// Lists and schedules at the ends of what is accepted: lengths, arrivals, no table of that edition, a refresh where there is none.
fn edges(cases: &mut Cases, call: u8) {
    let table = bytes_of(&TABLE_A);
    let read = [0, 0, 1, 1];
    let of = |arrival| {
        if call == PLAIN {
            read.to_vec()
        } else {
            later(read, arrival).to_vec()
        }
    };
    let schedule = loose(&[(ACT, 0, 0), (RDA, 0, 0)]);
    for n in [256, 257] {
        cases.put(call, 7, &table, &of(0).repeat(n), &schedule);
    }
    for arrivals in [[0, LATEST], [LATEST, LATEST], [0, LATEST + 1], [5, 4]] {
        let list = arrivals.map(of).concat();
        cases.put(call, 7, &table, &list, &schedule);
    }
    for size in 1..9 {
        cases.put(call, 7, &table, &of(0)[..of(0).len().min(size)], &schedule);
        cases.put(call, 7, &table, &of(0), &schedule[..size]);
    }
    let refresh = later(REFRESH_BYTES, 0);
    let refresh = &refresh[..of(0).len()];
    cases.put(call, 7, &table, refresh, &schedule);
    cases.put(call, 7, &[], &[], &[]);
    cases.put(call, 0, &table, &of(0), &schedule);
}

/// Calls that there are not, and at the end a case that is cut short.
pub fn not_cases(cases: &mut Cases) {
    for call in [0, 3, 128, 255] {
        cases.put(call, 7, &bytes_of(&TABLE_A), &[0, 0, 1, 1], &[]);
    }
    cases.list(&TABLE_A, &[], &[]);
    cases.0.pop();
}
