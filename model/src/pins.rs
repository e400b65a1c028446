//! The data pins (request 8), a cycle at a time: a map of the cycles in which they are held, each with the record that holds them.

use std::collections::BTreeMap;

use crate::records::{commands_of, read_table};
use crate::rules::{Record, Times};

/// What no accepted schedule has, by the places of two records.
#[derive(Debug, Clone, Copy, PartialEq, Eq)]
pub enum Clash {
    /// "Two bursts share a cycle."
    Shared(usize, usize),
    /// A read's burst and a following write's with fewer than two free cycles between.
    Turn(usize, usize),
}

/// The cycles that a record holds: "a read at cycle t holds them from t + RL for B cycles, a write from t + WL for B cycles".
fn burst(t: &Times, r: &Record) -> std::ops::Range<u64> {
    let first = match (r.reads(), r.writes()) {
        (true, _) => r.cycle + t.rl,
        (_, true) => r.cycle + t.wl,
        _ => return 0..0,
    };
    first..first + t.b
}

/// The table's numbers, and the schedule's records in so many copies; nothing where the table can't be read.
fn copied(table: &[u8], schedule: &[u8], length: u32, copies: u64) -> Option<(Times, Vec<Record>)> {
    let table = read_table(table).ok()?;
    let mut all = Vec::new();
    for copy in 0..copies {
        let by = copy * u64::from(length);
        let records = commands_of(schedule);
        all.extend(records.iter().map(|c| Record::of(c).later(by)));
    }
    Some((Times::of(&table), all))
}

/// The first clash of a schedule in so many copies, if it has one.
pub fn clash(table: &[u8], schedule: &[u8], length: u32, copies: u64) -> Option<Clash> {
    let (t, records) = copied(table, schedule, length, copies)?;
    let mut held = BTreeMap::new();
    for (at, r) in records.iter().enumerate() {
        for cycle in burst(&t, r) {
            if let Some(other) = held.insert(cycle, at) {
                return Some(Clash::Shared(other, at));
            }
        }
    }
    for (at, write) in records.iter().enumerate().filter(|(_, r)| r.writes()) {
        let until = burst(&t, write).start;
        for (before, read) in records[..at].iter().enumerate().filter(|(_, r)| r.reads()) {
            let from = burst(&t, read).end;
            let mut free = (from..until).filter(|cycle| !held.contains_key(cycle));
            if free.nth(1).is_none() {
                return Some(Clash::Turn(before, at));
            }
        }
    }
    None
}

/// The cycles in which the pins are held, in order.
pub fn busy(table: &[u8], schedule: &[u8], length: u32, copies: u64) -> Vec<u64> {
    let told = copied(table, schedule, length, copies);
    let bursts = told.map(|(t, records)| records.iter().flat_map(|r| burst(&t, r)).collect());
    let mut all: Vec<u64> = bursts.unwrap_or_default();
    all.sort_unstable();
    all.dedup();
    all
}
