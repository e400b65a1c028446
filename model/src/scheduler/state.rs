//! "Running a few cycles": the cycle rule by what a state tells.

use super::lists::{check_list, MOST_TRANSACTIONS};
use super::queues::{Queues, Waiting};
use super::straight::Engine;
use crate::records::{refused_by, Command, GroupTable, Refusal, Transaction};
use crate::records::{BANKS, EDITION, GROUPS};
use crate::rules::{Times, ACT, RD, RDA, REF, WR};

/// A stored cycle of this value stands for "never".
pub const NEVER: u32 = u32::MAX;

/// A run stops here.
const LAST_CYCLE: u32 = 100_000_000;

#[derive(Debug, Clone, Copy, PartialEq, Eq)]
pub struct Bank {
    /// Open unless 0.
    pub opened: u32,
    pub act: u32,
    /// Since that ACT.
    pub rd: u32,
    pub wr: u32,
}

/// "The latest read and write of each group .. and the group's latest ACT."
#[derive(Debug, Clone, Copy, PartialEq, Eq)]
pub struct Group {
    pub act: u32,
    pub rd: u32,
    pub wr: u32,
}

#[derive(Debug, Clone, PartialEq, Eq)]
pub struct State {
    pub edition: u32,
    /// The next to be tried.
    pub cycle: u32,
    /// How many commands have left each queue.
    pub acts: u32,
    pub datas: u32,
    pub banks: [Bank; 16],
    /// Newest first.
    pub last: [u32; 4],
    /// "Nothing kept past the table's groups is read or changed."
    pub groups: [Group; 8],
    /// The last REF's cycle.
    pub refresh: u32,
    /// "How many of it", the list, "were lent before".
    pub lent: u32,
}

/// Whether a command may go at the cycle if the stored one must be so far before it.
fn far(stored: u32, distance: u64, cycle: u32) -> bool {
    stored == NEVER || u64::from(stored) + distance <= u64::from(cycle)
}

impl State {
    /// Of a table's numbers, of which the edition is the first.
    pub fn fresh(table: &[u16]) -> State {
        let closed = Bank {
            opened: 0,
            act: NEVER,
            rd: NEVER,
            wr: NEVER,
        };
        let never = Group {
            act: NEVER,
            rd: NEVER,
            wr: NEVER,
        };
        State {
            edition: table[EDITION].into(),
            cycle: 0,
            acts: 0,
            datas: 0,
            banks: [closed; 16],
            last: [NEVER; 4],
            groups: [never; 8],
            refresh: NEVER,
            lent: 0,
        }
    }

    /// Whether it holds of each of the table's groups, told with whether it is the bank's own.
    fn every_group(&self, t: &Times, bank: u8, holds: impl Fn(bool, &Group) -> bool) -> bool {
        let own = t.group(bank);
        let mut groups = self.groups[..t.groups as usize].iter().enumerate();
        groups.all(|(place, group)| holds(place == own, group))
    }

    /// "Rule 6 the groups' latest ACTs, no longer the first of the four."
    fn act_goes(&self, t: &Times, w: &Waiting) -> bool {
        let bank = &self.banks[usize::from(w.bank)];
        self.precharged(t, bank)
            && far(bank.act, t.rc, self.cycle)
            && self.every_group(t, w.bank, |near, group| {
                far(group.act, t.act_distance(near), self.cycle)
            })
            && far(self.last[3], t.faw, self.cycle)
            && far(self.refresh, t.rfc, self.cycle)
    }

    /// Closed, and at its precharge start + RP or after it.
    fn precharged(&self, t: &Times, bank: &Bank) -> bool {
        bank.opened == 0
            && far(bank.act, t.ras + t.rp, self.cycle)
            && far(bank.rd, t.rtp + t.rp, self.cycle)
            && far(bank.wr, t.wl + t.b + t.wr + t.rp, self.cycle)
    }

    fn refresh_goes(&self, t: &Times) -> bool {
        let mut banks = self.banks[..t.banks as usize].iter();
        banks.all(|bank| self.precharged(t, bank)) && far(self.refresh, t.rfc, self.cycle)
    }

    /// "In a run rule 9 reads the groups' reads and writes."
    fn data_goes(&self, t: &Times, w: &Waiting) -> bool {
        let bank = &self.banks[usize::from(w.bank)];
        let reads = w.kind == RD || w.kind == RDA;
        bank.opened != 0
            && far(bank.act, t.rcd, self.cycle)
            && self.every_group(t, w.bank, |near, group| {
                far(group.rd, t.distance(near, true, reads), self.cycle)
                    && far(group.wr, t.distance(near, false, reads), self.cycle)
            })
    }

    fn note(&mut self, t: &Times, w: &Waiting) {
        if w.kind == REF {
            self.refresh = self.cycle;
            self.acts += 1;
            return;
        }
        let bank = &mut self.banks[usize::from(w.bank)];
        let group = &mut self.groups[t.group(w.bank)];
        bank.opened = (w.kind == ACT || w.kind == RD || w.kind == WR).into();
        if w.kind == ACT {
            bank.act = self.cycle;
            bank.rd = NEVER;
            bank.wr = NEVER;
            self.last.rotate_right(1);
            self.last[0] = self.cycle;
            group.act = self.cycle;
            self.acts += 1;
        } else {
            let (of_bank, of_group) = if w.kind == RD || w.kind == RDA {
                (&mut bank.rd, &mut group.rd)
            } else {
                (&mut bank.wr, &mut group.wr)
            };
            *of_bank = self.cycle;
            *of_group = self.cycle;
            self.datas += 1;
        }
    }

    /// What goes at its cycle.
    fn next<'a>(&self, t: &Times, queues: &'a Queues) -> Option<&'a Waiting> {
        let seen = |w: &&Waiting| w.is_seen(self.cycle);
        let data = queues.datas.get(self.datas as usize).filter(seen);
        let data = data.filter(|w| w.act < self.acts as usize && self.data_goes(t, w));
        let act = queues.acts.get(self.acts as usize).filter(seen);
        let act_goes = |w: &&Waiting| match w.kind {
            REF => self.refresh_goes(t),
            _ => self.act_goes(t, w),
        };
        data.or_else(|| act.filter(act_goes))
    }

    /// Whether something goes at another cycle, were nothing to go before.
    fn goes_at(&self, cycle: u32, t: &Times, queues: &Queues) -> bool {
        let mut then = self.clone();
        then.cycle = cycle;
        then.next(t, queues).is_some()
    }

    /// One step of the cycle rule.
    fn step(&mut self, t: &Times, queues: &Queues) -> Option<Command> {
        let next = self.next(t, queues);
        let gone = next.map(|w| w.at(self.cycle));
        if let Some(w) = next {
            self.note(t, w);
        }
        self.cycle += 1;
        gone
    }

    fn served(&self, queues: &Queues) -> bool {
        self.acts as usize == queues.acts.len() && self.datas as usize == queues.datas.len()
    }

    /// Number 9, with request 9's "(more than the list has: number 9)".
    fn refused(&self, table: &GroupTable, list: &[Transaction], queues: &Queues) -> bool {
        let banks = &self.banks[..usize::from(table[BANKS])];
        let of_banks = banks.iter().flat_map(|bank| [bank.act, bank.rd, bank.wr]);
        let groups = &self.groups[..usize::from(table[GROUPS])];
        let of_groups = groups.iter().flat_map(|g| [g.act, g.rd, g.wr]);
        let of_all = self.last.into_iter().chain([self.refresh]);
        let mut stored = of_banks.chain(of_groups).chain(of_all);
        let (acts, datas) = (self.acts as usize, self.datas as usize);
        self.cycle >= LAST_CYCLE
            || self.edition != u32::from(table[EDITION])
            || stored.any(|cycle| cycle != NEVER && cycle >= self.cycle)
            || acts > queues.acts.len()
            || datas > queues.datas.len()
            || queues.datas[..datas].iter().any(|w| w.act >= acts)
            || self.lent as usize > list.len()
    }

    /// Number 12: "if the first new arrival is below the state's cycle, the piece is late".
    fn is_late(&self, list: &[Transaction]) -> bool {
        let first_new = list.get(self.lent as usize);
        first_new.map_or(false, |x| x.arrival < self.cycle)
    }
}

#[derive(Debug, Clone, PartialEq, Eq)]
pub struct Run {
    pub commands: Vec<Command>,
    /// The steps that the cycle rule took.
    pub cycles: u32,
    pub state: State,
}

/// Numbers 3, 4, 5, 9 and 12, and then the run. Room in bytes.
pub fn run(
    engine: Engine,
    state: &State,
    table: &GroupTable,
    list: &[Transaction],
    count: u32,
    room: usize,
) -> Result<Run, Refusal> {
    check_list(table, list, MOST_TRANSACTIONS)?;
    let queues = Queues::of(table, list);
    let acts_left = queues.acts.len().saturating_sub(state.acts as usize);
    let datas_left = queues.datas.len().saturating_sub(state.datas as usize);
    if room < 8 * (acts_left + datas_left).min(count as usize) {
        return refused_by(table, 5, 0);
    }
    if state.refused(table, list, &queues) {
        return refused_by(table, 9, 0);
    }
    if state.is_late(list) {
        return refused_by(table, 12, 0);
    }
    let times = Times::of(table);
    let mut state = state.clone();
    // "Each run is lent the whole list so far": one of no cycles too.
    state.lent = list.len() as u32;
    let mut commands = Vec::new();
    let mut cycles = 0;
    while cycles < count && !state.served(&queues) && state.cycle < LAST_CYCLE {
        // Where the run stops if nothing goes before; that cycle is not tried.
        let end = LAST_CYCLE.min(state.cycle.saturating_add(count - cycles));
        let next = engine.next(state.cycle, end, |c| state.goes_at(c, &times, &queues));
        cycles += next - state.cycle;
        state.cycle = next;
        if next == end {
            break;
        }
        commands.extend(state.step(&times, &queues));
        cycles += 1;
    }
    Ok(Run {
        commands,
        cycles,
        state,
    })
}
