//! As many refreshes as there can be, alone and between others, for RFC at the ends of its range; and a REF that can never go.

use model::house::{bytes_of, room_for, with, GREATEST, REFRESHED, REFRESH_BYTES, RFC};

use crate::case::*;

pub fn all() -> Vec<Case> {
    let mut cases = Vec::new();
    let alone = [REFRESH_BYTES; 256].to_vec();
    let between: Vec<[u8; 4]> = (0..256).map(nth).collect();
    for rfc in [1, 50, 1023] {
        for list in [&alone, &between] {
            for call in [Call::Schedule, Call::RunBytes] {
                cases.push(whole(call, &with(&[(RFC, rfc)]), list));
            }
        }
    }
    let widest = [[1, 15, 16, 2], REFRESH_BYTES, [0, 3, 2, 16], REFRESH_BYTES];
    for call in [Call::Schedule, Call::Run] {
        cases.push(whole(call, &GREATEST, &widest));
    }
    cases.push(never());
    cases
}

/// A refresh, or a transaction of each type over the last bank.
fn nth(k: usize) -> [u8; 4] {
    match k % 4 {
        0 | 2 => REFRESH_BYTES,
        k => [(k == 1) as u8, (k % 8) as u8, 8, 2],
    }
}

fn whole(call: Call, table: &[u16; 16], list: &[[u8; 4]]) -> Case {
    let mut case = Case::new(call);
    case.table = bytes_of(table);
    case.expected = table[0];
    case.state = fresh(table[0].into());
    case.lend(&at_once(list));
    case.values[0] = u32::MAX;
    case.room = room_for(list);
    case.slots = list.len();
    case
}

/// A bank that no transaction closes is open: nothing goes up to the last cycle.
fn never() -> Case {
    let mut case = whole(Call::Run, &REFRESHED, &[REFRESH_BYTES]);
    (case.state[CYCLE], case.state[LENT]) = (99_000_000, 1);
    case.state[BANKS + 4 * 7] = 1;
    case
}
