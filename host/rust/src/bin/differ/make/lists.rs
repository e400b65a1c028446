//! Lists of transactions.

use model::desk::GroupTable;
use model::house::{arriving, later, REFRESH_BYTES, RFC};

use crate::case::Case;
use crate::numbers::Random;

/// An arrival is at most this.
pub const LATEST: u32 = 20_000_000;

fn banks(t: &GroupTable) -> u8 {
    t[1] as u8
}

/// A refresh, seldom where the table has none; or from any start, often over the last bank, now and then every bank.
fn legal(r: &mut Random, t: &GroupTable, most_bi: u32, most_bc: u32) -> [u8; 4] {
    if r.one_in(if t[RFC] == 0 { 300 } else { 6 }) {
        return REFRESH_BYTES;
    }
    let banks = banks(t);
    let bi = match r.below(16) {
        0 => banks,
        _ => r.range(1, most_bi.min(banks.into())) as u8,
    };
    let start = match r.below(6) {
        0 => banks - 1,
        // The first from which it goes on at bank 0; of one bank, bank 0 itself.
        1 => (banks - bi + 1) % banks,
        _ => r.below(banks.into()) as u8,
    };
    [r.below(2) as u8, start, bi, r.range(1, most_bc) as u8]
}

/// Every start with every BI, for so many banks: of the last start all banks come last.
pub fn every_start(banks: u8) -> Vec<[u8; 4]> {
    let one = |start, bi| [(start + bi) % 2, start, bi, 2];
    (1..=banks)
        .flat_map(|bi| (0..banks).map(move |start| one(start, bi)))
        .collect()
}

/// A transaction, often with a number at an edge or beyond it.
pub fn one(r: &mut Random, t: &GroupTable) -> [u8; 8] {
    let mut x = legal(r, t, 16, 16);
    if r.one_in(2) {
        spoil(r, &mut x, banks(t));
    }
    let arrival = match r.below(6) {
        0 => LATEST - 2 + r.range(0, 4),
        1 => r.edge(),
        _ => r.range(0, LATEST),
    };
    later(x, arrival)
}

/// So many arrivals: all at once, within one another's work, or long after it; seldom the last that there are, since the engine walks there.
fn arrivals(r: &mut Random, size: usize) -> Vec<u32> {
    let most = match r.below(40) {
        0..=13 => 0,
        14..=23 => 6,
        24..=33 => 40,
        34..=38 => 400,
        _ => 60_000,
    };
    let most = most.min(1_000_000 / (1 + size as u32));
    let mut arrival = if r.one_in(3) { r.range(0, most) } else { 0 };
    let mut all: Vec<u32> = (0..size)
        .map(|_| {
            arrival += if r.one_in(2) { r.range(0, most) } else { 0 };
            arrival
        })
        .collect();
    if r.one_in(40_000) {
        let from = r.below(size + 1);
        all[from..].fill(LATEST);
    }
    all
}

/// One that is less than the one before it, or too late.
fn spoil_arrivals(r: &mut Random, all: &mut [u32]) {
    let at = r.below(all.len());
    all[at] = match r.below(3) {
        0 if at > 0 => all[at - 1].saturating_sub(1),
        1 => all[at] / 2,
        _ => r.of_these(&[LATEST + 1, LATEST + 256, 1 << 31, u32::MAX]),
    };
}

fn spoil(r: &mut Random, x: &mut [u8; 4], banks: u8) {
    match r.below(10) {
        0 => x[0] = r.of_these(&[2, 3, 128, 255]),
        1 => x[1] = r.of_these(&[banks - 1, banks, banks, banks + 1]),
        2 => x[1] = r.u8(),
        3 => x[2] = r.of_these(&[0, 16, 17, 255]),
        4 => x[2] = banks + 1,
        // The last start with all banks, which is accepted, and with one more.
        5 => x[1..3].copy_from_slice(&[banks - 1, banks + r.below(2) as u8]),
        6 => x[3] = r.of_these(&[0, 16, 17, 255]),
        7 => *x = [0, r.of_these(&[240, 255]), r.of_these(&[1, 16]), 1],
        // A refresh with a byte that it may not have, and one that is one.
        8 => {
            *x = REFRESH_BYTES;
            x[r.below(4)] = r.of_these(&[0, 1, 2, 3, 255]);
        }
        _ => x.iter_mut().for_each(|b| *b = r.u8()),
    }
}

/// The longest lists only where the table's numbers are small, since the time that they take is of use elsewhere.
fn accepted(r: &mut Random, t: &GroupTable) -> Vec<[u8; 4]> {
    let (size, most_bi, most_bc) = match r.below(200) {
        0 => (r.of_these(&[255, 256, 257, 300]), 1, 1),
        1 => (r.range(1, 256) as usize, 16, 16),
        2..=4 => (r.range(1, 40) as usize, 8, 8),
        5..=20 => (r.below(2), 16, 16),
        21..=45 => (r.below(4), 4, 16),
        46..=75 => (r.below(25), 2, 2),
        76..=90 => (r.below(12), 4, 4),
        91..=100 => (0, 1, 1),
        101..=120 => (1, 6, 4),
        _ => (2 + r.below(4), 3, 3),
    };
    let most = LONGEST / (most_bi * most_bc * widest(t)) as usize;
    (0..size.min(most))
        .map(|_| legal(r, t, most_bi, most_bc))
        .collect()
}

/// In data commands times the greatest number of the table.
const LONGEST: usize = 2_000_000;

/// The greatest number of the table's times.
pub fn widest(t: &GroupTable) -> u32 {
    t[2..].iter().fold(1, |most, &n| most.max(n.into()))
}

/// A list without arrivals, mostly accepted.
pub fn plain(r: &mut Random, t: &GroupTable) -> Vec<[u8; 4]> {
    let banks = banks(t);
    let mut list = accepted(r, t);
    match r.below(16) {
        0 | 1 if !list.is_empty() => {
            let at = r.below(list.len());
            spoil(r, &mut list[at], banks);
            if r.one_in(3) {
                let at = r.below(list.len());
                spoil(r, &mut list[at], banks);
            }
        }
        2 if r.one_in(3) => {
            let any = |_| (r.u32()).to_le_bytes();
            list = (0..6).map(any).collect();
        }
        _ => (),
    }
    list
}

/// A list for the case's call that is accepted; now and then all arrivals far apart, which only the second engine passes over.
pub fn good(r: &mut Random, t: &GroupTable, case: &mut Case) {
    let list = accepted(r, t);
    let mut at = arrivals(r, list.len());
    if r.one_in(8) {
        let most = at.last().copied().unwrap_or(0).max(1);
        let by = r.range(1, LATEST / most);
        at.iter_mut().for_each(|n| *n *= by);
    }
    // Not the 257 of them that are too many.
    let size = list.len().min(256);
    case.lend(&arriving(&list[..size], &at));
}

/// The bytes of a list for the case's call, mostly accepted.
pub fn some(r: &mut Random, t: &GroupTable, case: &mut Case) {
    let list = plain(r, t);
    let mut at = arrivals(r, list.len());
    if !list.is_empty() && r.one_in(14) {
        spoil_arrivals(r, &mut at);
    }
    case.lend(&arriving(&list, &at));
    let (bytes, less) = (&mut case.bytes, case.call.of_record() - 1);
    if r.one_in(24) {
        bytes.truncate(bytes.len().saturating_sub(1 + r.below(less)));
    } else if r.one_in(40) {
        bytes.extend([9; 7].iter().take(1 + r.below(less)));
    }
}
