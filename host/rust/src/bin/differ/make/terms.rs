//! What holds the heads of the queues up: each number of a controller that does, with how many cycles it does so. Were this wrong, the states that
//! are made from it would only point at another cycle.

use model::desk::GroupTable;
use model::house::{queued, REFRESH_BYTES};

use crate::case::{arrival, BANKS, GROUPS, LAST, REFRESH};

/// Where the number stands, and the cycles.
pub type Term = (usize, u32);

/// A command that is next in its queue.
#[derive(Debug, Clone, Copy)]
pub enum Head {
    Act { bank: usize },
    Refresh,
    Data { bank: usize, writes: bool },
}

fn bank(t: &GroupTable, x: &[u8; 8], after: usize) -> usize {
    (usize::from(x[1]) + after) % usize::from(t[1])
}

/// The head of the ACT queue after so many have gone, and its arrival.
pub fn act_head(t: &GroupTable, list: &[[u8; 8]], mut gone: usize) -> Option<(Head, u32)> {
    for x in list {
        let [here, _] = queued(x);
        if gone < here {
            let head = match x[..4] == REFRESH_BYTES {
                true => Head::Refresh,
                false => Head::Act {
                    bank: bank(t, x, gone),
                },
            };
            return Some((head, arrival(x)));
        }
        gone -= here;
    }
    None
}

/// That of the data queue.
pub fn data_head(t: &GroupTable, list: &[[u8; 8]], mut gone: usize) -> Option<(Head, u32)> {
    for x in list {
        let [_, here] = queued(x);
        if gone < here {
            let head = Head::Data {
                bank: bank(t, x, gone / usize::from(x[3])),
                writes: x[0] == 1,
            };
            return Some((head, arrival(x)));
        }
        gone -= here;
    }
    None
}

/// The numbers of the bank: its ACT, its RD, its WR.
fn precharge(t: &[u32; 20], bank: usize) -> [Term; 3] {
    let [_, _, b, _, _, rp, ras, _, _, _, _, wl, rtp, wr, ..] = *t;
    let at = BANKS + 4 * bank;
    [
        (at + 1, ras + rp),
        (at + 2, rtp + rp),
        (at + 3, wl + b + wr + rp),
    ]
}

pub fn terms(t: &GroupTable, head: Head) -> Vec<Term> {
    let t = &t.map(u32::from);
    let [_, banks, b, ccd, rcd, _, _, rc, rrd, faw, rl, wl, _, _, wtr, rfc, ..] = *t;
    let [.., groups, long_ccd, long_rrd, long_wtr] = *t;
    let groups = groups as usize;
    // Of each group: whether the bank is of it.
    let near =
        |bank: usize| (0..groups).map(move |group| (GROUPS + 3 * group, group == bank % groups));
    match head {
        Head::Act { bank } => {
            let mut all = precharge(t, bank).to_vec();
            all.extend([(BANKS + 4 * bank + 1, rc), (LAST + 3, faw), (REFRESH, rfc)]);
            all.extend(near(bank).map(|(at, near)| (at, if near { long_rrd } else { rrd })));
            all
        }
        Head::Refresh => {
            let banks = (0..banks as usize).flat_map(|bank| precharge(t, bank));
            banks.chain([(REFRESH, rfc)]).collect()
        }
        Head::Data { bank, writes } => {
            let mut all = vec![(BANKS + 4 * bank + 1, rcd)];
            for (at, near) in near(bank) {
                let (ccd, wtr) = if near {
                    (long_ccd, long_wtr)
                } else {
                    (ccd, wtr)
                };
                let to_write = ccd.max((rl + ccd + 2).saturating_sub(wl));
                let to_read = ccd.max(wl + b + wtr);
                all.push((at + 1, if writes { to_write } else { ccd }));
                all.push((at + 2, if writes { ccd } else { to_read }));
            }
            all
        }
    }
}
