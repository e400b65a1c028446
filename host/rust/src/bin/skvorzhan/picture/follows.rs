//! What follows from the commands by the table's numbers, as document 01 and request 8 have it: how long each bank is open and precharging, the
//! bursts on the pins, the four-ACT windows, the refreshes, and where each transaction's count starts.
//!
//! Cycles are 32 bits and the numbers of a table 16, so nothing here comes near the end of 64 bits.

use skvorzhan::Command;

use super::{Finish, Scene};

pub const ACT: u8 = 0;
pub const RD: u8 = 1;
pub const RDA: u8 = 2;
pub const WR: u8 = 3;
pub const WRA: u8 = 4;
pub const REF: u8 = 5;

pub fn reads(kind: u8) -> bool {
    kind == RD || kind == RDA
}

pub fn writes(kind: u8) -> bool {
    kind == WR || kind == WRA
}

/// As the paper calls it, or its number where rule 1 refuses it.
pub fn name(kind: u8) -> String {
    let names = ["ACT", "RD", "RDA", "WR", "WRA", "REF"];
    match names.get(usize::from(kind)) {
        Some(name) => name.to_string(),
        None => format!("kind {kind}"),
    }
}

/// The table's numbers that the picture uses.
#[derive(Debug, Clone, Copy)]
pub struct Times {
    pub banks: i64,
    pub b: i64,
    pub rp: i64,
    pub ras: i64,
    pub faw: i64,
    pub rl: i64,
    pub wl: i64,
    pub rtp: i64,
    pub wr: i64,
    pub rfc: i64,
    pub groups: i64,
}

impl Times {
    pub fn of(table: &[u16; 20]) -> Times {
        let at = |i: usize| i64::from(table[i]);
        Times {
            banks: at(1),
            b: at(2),
            rp: at(5),
            ras: at(6),
            faw: at(9),
            rl: at(10),
            wl: at(11),
            rtp: at(12),
            wr: at(13),
            rfc: at(15),
            groups: at(16).max(1),
        }
    }
}

/// From a bank's ACT to the end of its precharge.
#[derive(Debug, Clone, PartialEq, Eq)]
pub struct Opened {
    pub bank: u8,
    /// The records of the ACT and of the last command to it.
    pub act: usize,
    pub last: usize,
    pub from: i64,
    /// "The greatest of: its ACT + RAS, each RD since that ACT + RTP, each WR since that ACT + WL + B + WR."
    pub start: i64,
    pub precharged: i64,
    /// By auto precharge; else it stands open to the end, or to the ACT that rule 3 refuses.
    pub closed: bool,
}

/// What a record holds for some cycles: the pins, a row of the four-ACT lane, or all banks.
#[derive(Debug, Clone, Copy, PartialEq, Eq)]
pub struct Held {
    pub record: usize,
    pub from: i64,
    pub until: i64,
}

pub struct Follows {
    pub times: Times,
    pub opened: Vec<Opened>,
    pub bursts: Vec<Held>,
    /// In the order of the ACTs: the n-th stands in row n modulo 4, so that the next of its row is the fifth ACT.
    pub windows: Vec<Held>,
    pub refreshes: Vec<Held>,
    /// Where the count of each finish starts.
    pub counts: Vec<i64>,
}

impl Follows {
    pub fn of(scene: &Scene) -> Follows {
        let times = Times::of(&scene.table);
        let records = || scene.commands.iter().enumerate();
        let held = |record, from, length| Held {
            record,
            from,
            until: from + length,
        };
        let cycle = |c: &Command| i64::from(c.cycle);
        let burst = |(i, c): (usize, &Command)| match c.kind {
            kind if reads(kind) => Some(held(i, cycle(c) + times.rl, times.b)),
            kind if writes(kind) => Some(held(i, cycle(c) + times.wl, times.b)),
            _ => None,
        };
        let of_kind = |kind, length| {
            let own = records().filter(move |(_, c)| c.kind == kind);
            own.map(|(i, c)| held(i, cycle(c), length)).collect()
        };
        Follows {
            times,
            opened: opened(&times, &scene.commands),
            bursts: records().filter_map(burst).collect(),
            windows: of_kind(ACT, times.faw),
            refreshes: of_kind(REF, times.rfc),
            counts: counts(&times, &scene.finishes),
        }
    }
}

fn opened(times: &Times, commands: &[Command]) -> Vec<Opened> {
    let mut now: Vec<Option<Opened>> = vec![None; 256];
    let mut all = Vec::new();
    for (record, c) in commands.iter().enumerate() {
        let (cycle, place) = (i64::from(c.cycle), &mut now[usize::from(c.bank)]);
        if c.kind == ACT {
            // Rule 3 refuses an ACT to an open bank; the picture lets what stood there end at it.
            if let Some(mut left) = place.take() {
                left.start = cycle;
                left.precharged = cycle;
                all.push(left);
            }
            *place = Some(Opened {
                bank: c.bank,
                act: record,
                last: record,
                from: cycle,
                start: cycle + times.ras,
                precharged: i64::MAX,
                closed: false,
            });
        } else if let (Some(open), true) = (place.as_mut(), reads(c.kind) || writes(c.kind)) {
            let delay = if reads(c.kind) {
                times.rtp
            } else {
                times.wl + times.b + times.wr
            };
            open.last = record;
            open.start = open.start.max(cycle + delay);
            if c.kind == RDA || c.kind == WRA {
                open.closed = true;
                open.precharged = open.start + times.rp;
                all.extend(place.take());
            }
        }
    }
    // Rule 10's: to the right edge, wherever that is.
    all.extend(now.into_iter().flatten().map(|open| Opened {
        start: i64::MAX,
        ..open
    }));
    all
}

/// "The bound counts from the later of the arrival and the predecessor's last command (its finish, where the predecessor is a refresh)." A
/// read's last command is RL + B before its finish, a write's at it.
fn counts(times: &Times, finishes: &[Finish]) -> Vec<i64> {
    let mut before: Option<&Finish> = None;
    let mut all = Vec::with_capacity(finishes.len());
    for f in finishes {
        let left = before
            .filter(|b| b.transaction.checked_add(1) == Some(f.transaction))
            .map_or(0, |b| {
                let finish = i64::from(b.finish);
                if b.kind == 0 {
                    finish - times.rl - times.b
                } else {
                    finish
                }
            });
        all.push(left.max(i64::from(f.arrival)));
        before = Some(f);
    }
    all
}
