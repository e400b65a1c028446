//! The timing rules, each tried against all records before, and the two judges.

mod times;

pub use times::Times;

use crate::records::{commands_of, refused_by, Command, GroupTable, Refusal, BANKS};

pub const ACT: u8 = 0;
pub const RD: u8 = 1;
pub const RDA: u8 = 2;
pub const WR: u8 = 3;
pub const WRA: u8 = 4;
pub const REF: u8 = 5;

/// Each by its number.
pub const NAMES: [&str; 6] = ["ACT", "RD", "RDA", "WR", "WRA", "REF"];

/// "Over 69,632 records."
pub const MOST_RECORDS: usize = 69_632;

/// Five copies decide. The model tries more, so that it doesn't rest on this.
const COPIES: u64 = 12;

/// A command as the rules see it. The cycles of copies go past 32 bits.
#[derive(Debug, Clone, Copy, PartialEq, Eq)]
pub struct Record {
    pub cycle: u64,
    pub kind: u8,
    pub bank: u8,
}

impl Record {
    pub fn of(c: &Command) -> Record {
        Record {
            cycle: c.cycle.into(),
            kind: c.kind,
            bank: c.bank,
        }
    }

    /// The same so many cycles later.
    pub fn later(&self, by: u64) -> Record {
        Record {
            cycle: self.cycle + by,
            ..*self
        }
    }

    pub fn acts(&self) -> bool {
        self.kind == ACT
    }

    pub fn reads(&self) -> bool {
        self.kind == RD || self.kind == RDA
    }

    pub fn writes(&self) -> bool {
        self.kind == WR || self.kind == WRA
    }

    pub fn refreshes(&self) -> bool {
        self.kind == REF
    }

    fn is_data(&self) -> bool {
        self.reads() || self.writes()
    }

    /// A REF names bank 0 and is a command to no bank: it opens nothing and closes nothing.
    fn is_to(&self, bank: u8) -> bool {
        self.bank == bank && !self.refreshes()
    }
}

/// The last command to the bank tells: auto precharge closes it, every other leaves it open.
fn is_open(before: &[Record], bank: u8) -> bool {
    let last = before.iter().rfind(|r| r.is_to(bank));
    last.map_or(false, |r| r.kind != RDA && r.kind != WRA)
}

fn last_act(before: &[Record], bank: u8) -> Option<usize> {
    before.iter().rposition(|r| r.acts() && r.bank == bank)
}

/// "The greatest of: its ACT + RAS, each RD since that ACT + RTP, each WR since that ACT + WL + B + WR."
fn precharge_start(t: &Times, before: &[Record], bank: u8) -> Option<u64> {
    let act = last_act(before, bank)?;
    let since = before[act..].iter().filter(|r| r.is_to(bank));
    since
        .map(|r| {
            let delay = if r.acts() {
                t.ras
            } else if r.reads() {
                t.rtp
            } else {
                t.wl + t.b + t.wr
            };
            r.cycle + delay
        })
        .max()
}

/// "Before precharge start + RP of its bank."
fn is_before_precharged(t: &Times, before: &[Record], bank: u8, cycle: u64) -> bool {
    precharge_start(t, before, bank).map_or(false, |start| cycle < start + t.rp)
}

fn banks(table: &GroupTable) -> impl Iterator<Item = u8> {
    0..table[BANKS] as u8
}

/// The rules of one record, in the order in which they are tested. Rule 10 is of the whole schedule.
pub const RULES: [u8; 11] = [1, 2, 3, 4, 5, 6, 7, 8, 9, 11, 12];

/// Whether the record breaks one of these rules, the others left aside.
pub fn breaks(rule: u8, table: &GroupTable, before: &[Record], r: &Record) -> bool {
    let t = &Times::of(table);
    let own_act = || last_act(before, r.bank).map(|place| before[place].cycle);
    // Rules 6 and 9 look back "over all earlier commands, since a neighbour in another group hides an older one".
    let near = |e: &Record| t.group(e.bank) == t.group(r.bank);
    match rule {
        // "Rule 1 admits kind 5 with bank 0 only."
        1 if r.refreshes() => r.bank != 0,
        1 => r.kind > WRA || u16::from(r.bank) >= table[BANKS],
        2 => before.last().map_or(false, |last| r.cycle <= last.cycle),
        3 if r.acts() => is_open(before, r.bank),
        3 => r.is_data() && !is_open(before, r.bank),
        4 if r.acts() => is_before_precharged(t, before, r.bank, r.cycle),
        5 if r.acts() => own_act().map_or(false, |act| r.cycle < act + t.rc),
        6 if r.acts() => before
            .iter()
            .any(|e| e.acts() && r.cycle < e.cycle + t.act_distance(near(e))),
        7 if r.acts() => {
            let fourth = before.iter().rev().filter(|e| e.acts()).nth(3);
            fourth.map_or(false, |e| r.cycle < e.cycle + t.faw)
        }
        8 if r.is_data() => own_act().map_or(false, |act| r.cycle < act + t.rcd),
        9 if r.is_data() => before
            .iter()
            .any(|e| e.is_data() && r.cycle < e.cycle + t.distance(near(e), e.reads(), r.reads())),
        // "A REF with a bank open or before a bank's precharge start + RP."
        11 if r.refreshes() => banks(table)
            .any(|bank| is_open(before, bank) || is_before_precharged(t, before, bank, r.cycle)),
        // "An ACT or REF less than RFC after a REF."
        12 if r.acts() || r.refreshes() => before
            .iter()
            .any(|e| e.refreshes() && r.cycle < e.cycle + t.rfc),
        _ => false,
    }
}

/// The first of the rules that the record breaks.
pub fn first_broken(table: &GroupTable, before: &[Record], r: &Record) -> Option<u8> {
    RULES
        .into_iter()
        .find(|&rule| breaks(rule, table, before, r))
}

fn leaves_open(table: &GroupTable, records: &[Record]) -> bool {
    banks(table).any(|bank| is_open(records, bank))
}

fn read_schedule(table: &GroupTable, bytes: &[u8]) -> Result<Vec<Record>, Refusal> {
    if bytes.len() % 8 != 0 || bytes.len() / 8 > MOST_RECORDS {
        return refused_by(table, 7, 0);
    }
    Ok(commands_of(bytes).iter().map(Record::of).collect())
}

#[derive(Debug, Clone, Copy, PartialEq, Eq)]
pub enum Verdict {
    Accepted,
    Broken { rule: u8, record: usize },
}

pub fn judge(table: &GroupTable, bytes: &[u8]) -> Result<Verdict, Refusal> {
    let records = read_schedule(table, bytes)?;
    for (record, r) in records.iter().enumerate() {
        if let Some(rule) = first_broken(table, &records[..record], r) {
            return Ok(Verdict::Broken { rule, record });
        }
    }
    if leaves_open(table, &records) {
        let record = records.len();
        return Ok(Verdict::Broken { rule: 10, record });
    }
    Ok(Verdict::Accepted)
}

/// The copies count from 1.
#[derive(Debug, Clone, Copy, PartialEq, Eq)]
pub enum PatternVerdict {
    Accepted,
    Broken { rule: u8, copy: u64, record: usize },
}

pub fn judge_pattern(
    table: &GroupTable,
    bytes: &[u8],
    length: u32,
) -> Result<PatternVerdict, Refusal> {
    let pattern = read_schedule(table, bytes)?;
    if length == 0 {
        return refused_by(table, 8, 0);
    }
    let mut all = Vec::new();
    for copy in 1..=COPIES {
        for (record, r) in pattern.iter().enumerate() {
            let moved = r.later(u64::from(length) * (copy - 1));
            if let Some(rule) = first_broken(table, &all, &moved) {
                return Ok(PatternVerdict::Broken { rule, copy, record });
            }
            all.push(moved);
        }
        if leaves_open(table, &all) {
            let record = pattern.len();
            return Ok(PatternVerdict::Broken {
                rule: 10,
                copy,
                record,
            });
        }
    }
    Ok(PatternVerdict::Accepted)
}
