//! Schedules and patterns: built ones, any others, and both with a record changed.

use model::desk::{self, GroupTable, PatternVerdict};
use model::house::{bytes_of, due, LONGS, RFC};

use super::{lists, walk};
use crate::case::{at_once, Case};
use crate::expected::transactions;
use crate::numbers::Random;

/// What the cycle rule gives for some accepted list, by a table in which one number may be a little other.
fn built(r: &mut Random, table: &GroupTable, most: usize) -> Vec<[u8; 8]> {
    let mut by = *table;
    if r.one_in(2) {
        let mut i = 4 + r.below(if by[RFC] == 0 { 11 } else { 12 });
        if r.one_in(3) {
            i = r.of_these(&LONGS).0;
        }
        by[i] = (by[i] + 1)
            .saturating_sub(2 * r.below(2) as u16)
            .clamp(1, 1023);
        for (long, short) in LONGS {
            by[long] = by[long].max(by[short]);
        }
    }
    let (edition, by) = (by[0], bytes_of(&by));
    let list = (0..20)
        .map(|_| lists::plain(r, table))
        .find(|list| due(list) <= most)
        .unwrap_or_default();
    let mut room = vec![0; 8 * most];
    let mut c = desk::start(edition, &by).1;
    let told = desk::run(
        &mut c,
        edition,
        &by,
        &transactions(&at_once(&list)),
        u32::MAX,
        &mut room,
    );
    let records = told.map_or(0, |told| told.commands as usize);
    room.chunks_exact(8)
        .take(records)
        .map(|x| [x[0], x[1], x[2], x[3], x[4], x[5], x[6], x[7]])
        .collect()
}

fn cycle(record: &[u8; 8]) -> u32 {
    u32::from_le_bytes([record[0], record[1], record[2], record[3]])
}

fn set_cycle(record: &mut [u8; 8], cycle: u32) {
    record[..4].copy_from_slice(&cycle.to_le_bytes());
}

fn change(r: &mut Random, records: &mut Vec<[u8; 8]>) {
    if records.is_empty() {
        return;
    }
    let at = r.below(records.len());
    let now = cycle(&records[at]);
    match r.below(12) {
        0..=2 => set_cycle(&mut records[at], now.wrapping_sub(1)),
        3 => set_cycle(&mut records[at], now.wrapping_add(r.range(1, 3))),
        4 => records[at][4] = r.below(7) as u8,
        5 => records[at][4] = r.of_these(&[1, 2, 3, 4]),
        6 => records[at][5] = r.of_these(&[0, 1, 7, 8, 15, 16, 255]),
        7 => records[at][6] = r.u8(),
        8 => drop(records.remove(at)),
        9 => records.insert(at, records[at]),
        10 => records.swap(at, 0),
        // All from here on a cycle earlier.
        _ => {
            for record in &mut records[at..] {
                let now = cycle(record);
                set_cycle(record, now.wrapping_sub(1));
            }
        }
    }
}

/// All later by the same number of cycles, up to the last that 32 bits hold.
fn shift(r: &mut Random, records: &mut [[u8; 8]]) {
    let last = records.iter().map(cycle).max().unwrap_or(0);
    let most = u32::MAX - last;
    let by = most
        - if r.one_in(2) {
            0
        } else {
            r.range(0, most.min(500))
        };
    for record in records {
        let now = cycle(record);
        set_cycle(record, now + by);
    }
}

/// Built ones, any others, and both with a record changed.
pub fn records(r: &mut Random, table: &GroupTable, most: usize) -> Vec<[u8; 8]> {
    let mut records = match r.below(16) {
        0 => Vec::new(),
        1 => (0..r.below(6)).map(|_| r.any().to_le_bytes()).collect(),
        2..=6 => built(r, table, most),
        _ => {
            let size = 1 + r.below(most);
            walk::records(r, table, size)
        }
    };
    if r.one_in(3) {
        change(r, &mut records);
    }
    records
}

/// The same, now and then as late as can be.
fn early_or_late(r: &mut Random, table: &GroupTable, most: usize) -> Vec<[u8; 8]> {
    let mut records = records(r, table, most);
    if r.one_in(12) {
        shift(r, &mut records);
    }
    records
}

fn whole_or_cut(r: &mut Random, records: &[[u8; 8]]) -> Vec<u8> {
    let mut bytes = records.concat();
    if r.one_in(24) {
        bytes.truncate(bytes.len().saturating_sub(1 + r.below(7)));
    }
    bytes
}

/// The bytes of a schedule.
pub fn some(r: &mut Random, table: &GroupTable) -> Vec<u8> {
    let most = match r.below(400) {
        0 => 1500,
        1..=12 => 200,
        13..=100 => 60,
        _ => 16,
    };
    let records = early_or_late(r, table, most);
    whole_or_cut(r, &records)
}

/// The bytes of a pattern and a length: often the least that is accepted, or one below.
pub fn pattern(r: &mut Random, table: &GroupTable, case: &mut Case) {
    let most = if r.one_in(10) { 30 } else { 1 + r.below(9) };
    let records = early_or_late(r, table, most);
    let (first, last) = (
        records.first().map_or(0, cycle),
        records.last().map_or(0, cycle),
    );
    case.bytes = whole_or_cut(r, &records);
    let span = last.wrapping_sub(first);
    case.values[0] = match r.below(8) {
        0 => r.edge(),
        1 => span.wrapping_add(r.range(0, 60)),
        2 => span,
        _ if records.len() <= 10 => {
            let most = span.saturating_add(9000);
            match least_length(table, &case.bytes, most) {
                Some(least) => least - r.below(2).min(least as usize - 1) as u32,
                None => most,
            }
        }
        _ => span.wrapping_add(r.range(1, 400)),
    };
}

/// A greater length only moves the copies apart, so halving finds the least.
fn least_length(table: &GroupTable, bytes: &[u8], most: u32) -> Option<u32> {
    let (edition, table) = (table[0], bytes_of(table));
    let accepted = |length| {
        let told = desk::judge_pattern(edition, &table, bytes, length);
        matches!(told, Ok((_, PatternVerdict::Accepted)))
    };
    if !accepted(most) {
        return None;
    }
    let (mut below, mut least) = (0, most);
    while below + 1 < least {
        let middle = below + (least - below) / 2;
        if accepted(middle) {
            least = middle;
        } else {
            below = middle;
        }
    }
    Some(least)
}
