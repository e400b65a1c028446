//! What an ordinary Rust program would do for a schedule, a step, a verdict, a capture, whether a schedule serves a list and a shortest
//! pattern: state per bank and per group, no proof.

mod capture;
mod judge;
mod schedule;
mod serves;
mod shortest;
mod step;
mod times;

pub use capture::judge_capture;
pub use judge::judge;
pub use schedule::{schedule, schedule_bytes};
pub use serves::serves;
pub use shortest::{counted, shortest, Asked};
pub use step::step;
pub use times::Times;

use model::desk::Transaction;
use times::Apart;

/// The type of a refresh, and the kind of its command.
const REFRESH: u8 = 2;
const REF: u8 = 5;

/// How many places a transaction has in the ACT queue.
fn in_act_queue(x: &Transaction) -> u32 {
    match x.kind {
        REFRESH => 1,
        _ => x.bi.into(),
    }
}

/// How many it has in the data queue: none for a refresh, whose BI and BC are 0.
fn in_data_queue(x: &Transaction) -> u32 {
    u32::from(x.bi) * u32::from(x.bc)
}

/// So long ago that it holds nothing up.
const LONG_AGO: i64 = -1_000_000;

#[derive(Clone, Copy)]
struct Bank {
    open: bool,
    act: i64,
    /// By its precharge alone.
    closed_until: i64,
}

/// Its latest ACT; its latest RD and WR.
#[derive(Clone, Copy)]
struct Group {
    act: i64,
    data: [i64; 2],
}

impl Group {
    fn data_from(&self, apart: &Apart, writes: usize) -> i64 {
        (self.data[0] + apart.distances[0][writes]).max(self.data[1] + apart.distances[1][writes])
    }
}

/// With several groups, or with one, which is then not looked for.
struct State<const SEVERAL: bool> {
    banks: [Bank; 256],
    /// A ring of the last four; `newest` is the place of the last.
    acts: [i64; 4],
    newest: usize,
    groups: [Group; 8],
    /// The last REF.
    refresh: i64,
}

impl<const SEVERAL: bool> State<SEVERAL> {
    fn fresh() -> Self {
        State {
            banks: [Bank {
                open: false,
                act: LONG_AGO,
                closed_until: LONG_AGO,
            }; 256],
            acts: [LONG_AGO; 4],
            newest: 0,
            groups: [Group {
                act: LONG_AGO,
                data: [LONG_AGO; 2],
            }; 8],
            refresh: LONG_AGO,
        }
    }

    fn act_from(&self, t: &Times, bank: u8) -> i64 {
        let own = &self.banks[usize::from(bank)];
        own.closed_until
            .max(own.act + t.rc)
            .max(self.act_after_groups(t, bank))
            .max(self.acts[(self.newest + 1) % 4] + t.faw)
            .max(self.refresh + t.rfc)
    }

    fn group_of(t: &Times, bank: u8) -> usize {
        if SEVERAL {
            t.group_of(bank)
        } else {
            0
        }
    }

    /// By the own group, and where there are others, by them.
    fn act_after_groups(&self, t: &Times, bank: u8) -> i64 {
        let own = Self::group_of(t, bank);
        let mut from = self.groups[own].act + t.near.rrd;
        if SEVERAL {
            let others = self.groups[..t.groups].iter().enumerate();
            for (_, group) in others.filter(|(place, _)| *place != own) {
                from = from.max(group.act + t.across.rrd);
            }
        }
        from
    }

    fn data_after_groups(&self, t: &Times, bank: u8, writes: usize) -> i64 {
        let own = Self::group_of(t, bank);
        let mut from = self.groups[own].data_from(&t.near, writes);
        if SEVERAL {
            let others = self.groups[..t.groups].iter().enumerate();
            for (_, group) in others.filter(|(place, _)| *place != own) {
                from = from.max(group.data_from(&t.across, writes));
            }
        }
        from
    }

    /// When all of the table's banks are precharged; never, while one is open.
    #[cold]
    fn rest_from(&self, t: &Times) -> i64 {
        let of_bank = |bank: &Bank| match bank.open {
            true => i64::MAX,
            false => bank.closed_until,
        };
        let banks = self.banks[..usize::from(t.banks)].iter();
        banks.map(of_bank).fold(LONG_AGO, i64::max)
    }

    fn data_from(&self, t: &Times, bank: u8, writes: usize) -> i64 {
        let own = &self.banks[usize::from(bank)];
        (own.act + t.rcd).max(self.data_after_groups(t, bank, writes))
    }

    fn act(&mut self, t: &Times, bank: u8, cycle: i64) {
        self.banks[usize::from(bank)] = Bank {
            open: true,
            act: cycle,
            closed_until: cycle + t.act_to_act,
        };
        self.newest = (self.newest + 1) % 4;
        self.acts[self.newest] = cycle;
        self.groups[Self::group_of(t, bank)].act = cycle;
    }

    fn data(&mut self, t: &Times, bank: u8, writes: usize, closes: bool, cycle: i64) {
        let own = &mut self.banks[usize::from(bank)];
        let delay = [t.rd_to_act, t.wr_to_act][writes];
        own.closed_until = own.closed_until.max(cycle + delay);
        own.open = !closes;
        self.groups[Self::group_of(t, bank)].data[writes] = cycle;
    }
}

/// A command's 8 bytes.
fn put(place: &mut [u8], cycle: i64, kind: u8, bank: u8, number: usize) {
    place[..4].copy_from_slice(&(cycle as u32).to_le_bytes());
    place[4] = kind;
    place[5] = bank;
    place[6..].copy_from_slice(&(number as u16).to_le_bytes());
}

#[cfg(test)]
mod tests;
