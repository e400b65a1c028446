//! Request 11, the shortest pattern.
//!
//! The orders in which the commands can stand are gone through one by one. In an order each rule is a difference of two cycles, of which the
//! later may stand in a later copy: "the cycle of this one, so many lengths on, is at least that one's and so much more". So the earliest
//! cycles of an order are found as the longest ways from its first command are. The tests hold this against a plain search over all cycles.

#[cfg(test)]
mod plain;
#[cfg(test)]
mod worked;

use crate::records::{refused_by, Command, GroupTable, Refusal, BANKS};
use crate::rules::{Record, Times, ACT, RD, RDA, WR, WRA};

/// "A type, BI and BC .. and a greatest length."
#[derive(Debug, Clone, Copy, PartialEq, Eq)]
pub struct Asked {
    pub kind: u8,
    pub bi: u8,
    pub bc: u8,
    pub most: u32,
}

impl Asked {
    /// "BI × (1 + BC)."
    pub fn records(&self) -> usize {
        usize::from(self.bi) * (1 + usize::from(self.bc))
    }

    /// "BI and BC from 1 with BI × (1 + BC) at most 6, and a greatest length of 1 to 128"; not "a type not read or write, or BI above banks".
    fn is_allowed(&self, table: &GroupTable) -> bool {
        let counts = self.bi >= 1 && self.bc >= 1 && self.records() <= 6;
        let length = (1..=128).contains(&self.most);
        self.kind <= 1 && counts && length && u16::from(self.bi) <= table[BANKS]
    }

    /// What a bank gets, in order: it is "opened once and given its BC data commands, the last closing it".
    fn kinds(&self) -> Vec<u8> {
        let (data, closing) = if self.kind == 0 { (RD, RDA) } else { (WR, WRA) };
        let mut kinds = vec![data; 1 + usize::from(self.bc)];
        kinds[0] = ACT;
        kinds[usize::from(self.bc)] = closing;
        kinds
    }
}

/// A kind and a bank.
type Step = (u8, u8);

/// Every order of the commands "starting with the ACT of bank 0" in which each bank gets its own in their order.
fn orders(asked: &Asked) -> Vec<Vec<Step>> {
    let kinds = asked.kinds();
    let mut all = vec![vec![(ACT, 0)]];
    for _ in 1..asked.records() {
        all = all
            .iter()
            .flat_map(|order| (0..asked.bi).map(move |bank| (order, bank)))
            .filter_map(|(order, bank)| {
                let gone = order.iter().filter(|step| step.1 == bank).count();
                let kind = *kinds.get(gone)?;
                Some([&order[..], &[(kind, bank)]].concat())
            })
            .collect();
    }
    all
}

/// The cycle of `later`, so many copies on, is at least that of `earlier` and so many cycles more.
struct Gap {
    earlier: usize,
    later: usize,
    cycles: u64,
    copies: u64,
}

/// All that the rules ask of an order that is repeated without end. Rules 1, 3 and 10 hold in every order.
fn gaps(t: &Times, order: &[Step]) -> Vec<Gap> {
    let mut gaps = Vec::new();
    let mut ask = |earlier, later, cycles, copies| {
        gaps.push(Gap {
            earlier,
            later,
            cycles,
            copies,
        })
    };
    let n = order.len();
    let record = |place: usize| Record {
        cycle: 0,
        kind: order[place].0,
        bank: order[place].1,
    };
    let acts: Vec<usize> = (0..n).filter(|&place| record(place).acts()).collect();
    for later in 0..n {
        let r = record(later);
        // Rule 2: the commands rise, and so does the next copy's first.
        ask((later + n - 1) % n, later, 1, u64::from(later == 0));
        for earlier in 0..n {
            let e = record(earlier);
            let near = t.group(e.bank) == t.group(r.bank);
            // Rules 6 and 9, "over all earlier commands": those before it in its copy, and all of the copy before.
            let apart = match (e.acts(), r.acts()) {
                (true, true) => t.act_distance(near),
                (false, false) => t.distance(near, e.reads(), r.reads()),
                _ => 0,
            };
            for copies in u64::from(earlier >= later)..=1 {
                ask(earlier, later, apart, copies);
            }
            if e.bank == r.bank && r.acts() {
                // Rule 4: the bank's next ACT is the next copy's. "A bank's precharge starts at the greatest of .."
                let tail = match (e.acts(), e.reads()) {
                    (true, _) => t.ras,
                    (_, true) => t.rtp,
                    _ => t.wl + t.b + t.wr,
                };
                ask(earlier, later, tail + t.rp, 1);
            }
            if e.bank == r.bank && e.acts() && !r.acts() {
                // Rule 8: a data command's ACT is its own copy's.
                ask(earlier, later, t.rcd, 0);
            }
        }
        if r.acts() {
            // Rule 5.
            ask(later, later, t.rc, 1);
        }
    }
    // Rule 7: the fourth ACT before each, counted back over the copies.
    for (k, &later) in acts.iter().enumerate() {
        let copies = (0..).find(|copies| k + copies * acts.len() >= 4);
        let copies = copies.expect("there is an ACT");
        let fourth = k + copies * acts.len() - 4;
        ask(acts[fourth], later, t.faw, copies as u64);
    }
    gaps
}

/// The earliest cycles at which an order can be repeated after so many cycles: the first command at 0, "no command past cycle L − 1".
fn earliest(gaps: &[Gap], n: usize, length: u64) -> Option<Vec<u64>> {
    let mut cycles = vec![0; n];
    loop {
        let mut lifted = false;
        for gap in gaps {
            let at = (cycles[gap.earlier] + gap.cycles).saturating_sub(gap.copies * length);
            if cycles[gap.later] < at {
                cycles[gap.later] = at;
                lifted = true;
            }
        }
        if cycles[0] > 0 || cycles.iter().any(|&cycle| cycle >= length) {
            return None;
        }
        if !lifted {
            return Some(cycles);
        }
    }
}

/// A record as it is compared: "in order by cycle, then kind, then bank".
type Placed = (u64, u8, u8);

/// Every order, with what the rules ask of it.
fn asked_of(table: &GroupTable, asked: &Asked) -> Vec<(Vec<Step>, Vec<Gap>)> {
    let t = Times::of(table);
    let with_gaps = |order: Vec<Step>| {
        let gaps = gaps(&t, &order);
        (order, gaps)
    };
    orders(asked).into_iter().map(with_gaps).collect()
}

/// Of the patterns of a length "the one whose records .. come first". In one order no pattern comes before the earliest.
fn first_of(orders: &[(Vec<Step>, Vec<Gap>)], length: u32) -> Option<Vec<Placed>> {
    let patterns = orders.iter().filter_map(|(order, gaps)| {
        let cycles = earliest(gaps, order.len(), length.into())?;
        let placed = cycles.iter().zip(order);
        Some(
            placed
                .map(|(&cycle, step)| (cycle, step.0, step.1))
                .collect(),
        )
    });
    patterns.min()
}

/// Numbers 4, 5 and 13: "The position is 0 for all three; the records carry transaction number 0." Answers the least length and the
/// records.
pub fn shortest(
    table: &GroupTable,
    asked: &Asked,
    room: usize,
) -> Result<(u32, Vec<Command>), Refusal> {
    if !asked.is_allowed(table) {
        return refused_by(table, 4, 0);
    }
    if room < 8 * asked.records() {
        return refused_by(table, 5, 0);
    }
    let command = |&(cycle, kind, bank): &Placed| Command {
        cycle: cycle as u32,
        kind,
        bank,
        transaction: 0,
    };
    let orders = asked_of(table, asked);
    for length in 1..=asked.most {
        if let Some(pattern) = first_of(&orders, length) {
            return Ok((length, pattern.iter().map(command).collect()));
        }
    }
    refused_by(table, 13, 0)
}
