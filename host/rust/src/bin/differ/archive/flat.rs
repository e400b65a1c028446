//! Answers and controllers as plain numbers.

use skvorzhan::raw::*;

use crate::case::{controllers, State, NUMBERS};

/// The numbers of a controller where it lies: it has no other bytes.
pub fn state_now(bytes: &[u8]) -> State {
    let mut s = [0; NUMBERS];
    for (number, word) in s.iter_mut().zip(bytes.chunks_exact(4)) {
        *number = u32::from_le_bytes([word[0], word[1], word[2], word[3]]);
    }
    s
}

const EMPTY: Controller = Controller {
    edition: 0,
    cycle: 0,
    acts: 0,
    datas: 0,
    banks: [HostBank {
        opened: 0,
        act: 0,
        rd: 0,
        wr: 0,
    }; 16],
    last: [0; 4],
    groups: [HostGroup {
        act: 0,
        rd: 0,
        wr: 0,
    }; 8],
    refresh: 0,
    lent: 0,
};

controllers!(Controller, EMPTY);

pub fn numbers(a: Answer) -> Vec<u32> {
    vec![a.refused, a.position, a.edition, a.count, a.cycles]
}

pub fn verdict(a: VerdictAnswer) -> Vec<u32> {
    vec![a.refused, a.position, a.edition, a.rule, a.copy, a.record]
}

pub fn transaction(a: TransactionAnswer) -> Vec<u32> {
    let x = [a.kind, a.start, a.bi, a.bc].map(u32::from);
    let head = [a.refused, a.position, a.edition];
    [&head[..], &x, &[a.arrival]].concat()
}

pub fn shortest(a: PatternAnswer) -> Vec<u32> {
    vec![a.refused, a.position, a.edition, a.length, a.count]
}

pub fn captured(a: CaptureAnswer) -> Vec<u32> {
    vec![a.refused, a.position, a.edition, a.count, a.rule, a.record]
}

pub fn served(a: ServesAnswer) -> Vec<u32> {
    let head = [a.refused, a.position, a.edition];
    let told = [a.serves, a.rule, a.record, a.transaction];
    [&head[..], &told].concat()
}
