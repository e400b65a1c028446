//! The two queues.

use crate::records::{Command, GroupTable, Transaction, BANKS, REFRESH};
use crate::rules::{Record, ACT, RD, RDA, REF, WR, WRA};

/// A command that waits in a queue.
#[derive(Debug, Clone, Copy)]
pub struct Waiting {
    pub kind: u8,
    pub bank: u8,
    pub transaction: u16,
    /// The place of its bank's ACT in the ACT queue, or its own where it stands there.
    pub act: usize,
    /// Its transaction's.
    pub arrival: u32,
}

impl Waiting {
    /// "Neither queue sees a transaction before its arrival."
    pub fn is_seen(&self, cycle: u32) -> bool {
        self.arrival <= cycle
    }

    pub fn at(&self, cycle: u32) -> Command {
        Command {
            cycle,
            kind: self.kind,
            bank: self.bank,
            transaction: self.transaction,
        }
    }

    pub fn as_record(&self, cycle: u32) -> Record {
        Record {
            cycle: cycle.into(),
            kind: self.kind,
            bank: self.bank,
        }
    }
}

/// "The banks are then start, start + 1 and so on, with bank 0 after the last."
fn banks_of(table: &GroupTable, x: &Transaction) -> impl Iterator<Item = u8> {
    let to_the_last = x.start..table[BANKS] as u8;
    to_the_last.chain(0..x.start).take(x.bi.into())
}

/// Both queues as they stand before anything has left.
pub struct Queues {
    pub acts: Vec<Waiting>,
    pub datas: Vec<Waiting>,
}

impl Queues {
    /// Of a list that the table accepts.
    pub fn of(table: &GroupTable, list: &[Transaction]) -> Queues {
        let mut acts = Vec::new();
        let mut datas = Vec::new();
        for (transaction, x) in (0..).zip(list) {
            if x.kind == REFRESH {
                // "It stands in the ACT queue as one command of kind 5 (REF, bank 0)."
                acts.push(Waiting {
                    kind: REF,
                    bank: 0,
                    transaction,
                    act: acts.len(),
                    arrival: x.arrival,
                });
                continue;
            }
            let (open, closing) = if x.kind == 0 { (RD, RDA) } else { (WR, WRA) };
            for bank in banks_of(table, x) {
                let waits = |kind| Waiting {
                    kind,
                    bank,
                    transaction,
                    act: acts.len(),
                    arrival: x.arrival,
                };
                datas.extend((1..x.bc).map(|_| waits(open)));
                datas.push(waits(closing));
                acts.push(waits(ACT));
            }
        }
        Queues { acts, datas }
    }
}

/// A command that is due: kind, bank and transaction number.
pub type Due = (u8, u8, u16);

/// What a list that the table accepts puts into the ACT queue, and into the data queue.
pub fn dues(table: &GroupTable, list: &[Transaction]) -> [Vec<Due>; 2] {
    let due = |w: &Waiting| (w.kind, w.bank, w.transaction);
    let queues = Queues::of(table, list);
    [queues.acts, queues.datas].map(|queue| queue.iter().map(due).collect())
}
