//! Schedules that are to serve a list: built ones, and those drawn apart and edited.

use model::desk::{self, GroupTable};
use model::house::{bytes_of, due, later, whole, REFRESHED, REFRESH_BYTES, TABLE_A};

use super::lists::widest;
use crate::case::*;
use crate::expected::transactions;
use crate::numbers::Random;

/// Longer ones are left out: the model looks at each pair of records.
const MOST: usize = 300;

/// What the cycle rule gives for the list; nothing where that is refused or too long.
fn built(table: &GroupTable, list: &[[u8; 8]]) -> Vec<[u8; 8]> {
    if list.len() > 256 || due(list) > MOST {
        return Vec::new();
    }
    let (edition, table) = (table[0], bytes_of(table));
    let mut room = vec![0; 8 * due(list)];
    let mut c = desk::start(edition, &table).1;
    let list = transactions(list);
    let told = desk::run(&mut c, edition, &table, &list, u32::MAX, &mut room);
    let records = told.map_or(0, |told| told.commands as usize);
    in_eight(&room[..8 * records], 8)
}

/// So far apart that no distance of the table is too short.
fn draw_apart(table: &GroupTable, records: &mut [[u8; 8]]) {
    let apart = 4 * widest(table) + 2;
    for (record, k) in records.iter_mut().zip(0..) {
        record[..4].copy_from_slice(&(apart * k as u32).to_le_bytes());
    }
}

fn number(record: &[u8; 8]) -> [u8; 2] {
    [record[6], record[7]]
}

fn set_number(record: &mut [u8; 8], number: [u8; 2]) {
    record[6..].copy_from_slice(&number);
}

/// A number of the list, or one past it, or any.
fn any_number(r: &mut Random, transactions: usize) -> [u8; 2] {
    let number = match r.below(10) {
        0 => r.u32() as u16,
        1 => transactions as u16,
        _ => r.below(transactions + 1) as u16,
    };
    number.to_le_bytes()
}

/// Renumbered, exchanged, repeated, dropped, moved or inserted; of another kind, or to another bank.
fn edit(r: &mut Random, records: &mut Vec<[u8; 8]>, transactions: usize) {
    let (at, to) = (r.below(records.len() + 1), r.below(records.len() + 1));
    if at.max(to) == records.len() || r.one_in(6) {
        let any = any_number(r, transactions);
        let (bank, writes) = (r.below(9) as u8, 2 * r.below(2) as u8);
        let visit = [
            [0, bank, any[0], any[1]],
            [2 + writes, bank, any[0], any[1]],
        ];
        let refresh = [[5, 0, any[0], any[1]]];
        let inserted = if r.one_in(3) { &refresh[..] } else { &visit };
        let record = |x: &[u8; 4]| [0, 0, 0, 0, x[0], x[1], x[2], x[3]];
        records.splice(at..at, inserted.iter().map(record));
        return;
    }
    match r.below(12) {
        0 | 1 => set_number(&mut records[at], any_number(r, transactions)),
        2 | 3 => records.swap(at, to),
        4 | 5 => {
            let (a, b) = (number(&records[at]), number(&records[to]));
            set_number(&mut records[at], b);
            set_number(&mut records[to], a);
        }
        6 | 7 => records.insert(to, records[at]),
        8 => drop(records.remove(at)),
        9 => records[at][4] = r.below(7) as u8,
        10 => records[at][5] = r.below(9) as u8,
        _ => {
            let moved = records.remove(at);
            records.insert(to, moved);
        }
    }
}

/// The schedule of the case's list, or of one that differs from it, mostly edited.
pub fn schedule(r: &mut Random, table: &GroupTable, case: &mut Case) {
    let mut list = case.list();
    match r.below(12) {
        0 => drop(list.pop()),
        1 => list.push(later([0, 0, 1, 1], list.last().map_or(0, arrival))),
        2 if !list.is_empty() => {
            let at = r.below(list.len());
            list[at][3] = 1 + r.below(3) as u8;
        }
        _ => (),
    }
    let mut records = built(table, &list);
    if !r.one_in(5) {
        for _ in 0..r.below(4) {
            edit(r, &mut records, list.len());
        }
        draw_apart(table, &mut records);
    }
    if r.one_in(30) && !records.is_empty() {
        // Out of order, and so against the judge.
        let at = r.below(records.len());
        records[at][..4].copy_from_slice(&r.edge().to_le_bytes());
    }
    case.schedule = records.concat();
    if r.one_in(24) {
        let less = 1 + r.below(7);
        case.schedule
            .truncate(case.schedule.len().saturating_sub(less));
    }
}

/// 256 transactions, served and with the last command of all missing, one too many, the longest schedules, and one record more.
pub fn last() -> Vec<Case> {
    let mut cases = Vec::new();
    let one = |k: u8| match k % 16 {
        9 => later(REFRESH_BYTES, 0),
        _ => later([k / 3 % 2, k % 8, 1, 1], 0),
    };
    let list: Vec<[u8; 8]> = (0..=255).map(one).collect();
    let mut records: Vec<[u8; 8]> = Vec::new();
    for (x, number) in list.iter().zip(0u16..) {
        let [low, high] = number.to_le_bytes();
        if x[..4] == REFRESH_BYTES {
            records.push([0, 0, 0, 0, 5, 0, low, high]);
        } else {
            records.push([0, 0, 0, 0, 0, x[1], low, high]);
            records.push([0, 0, 0, 0, 2 + 2 * x[0], x[1], low, high]);
        }
    }
    draw_apart(&whole(&REFRESHED), &mut records);
    for (call, _) in CALLS.into_iter().filter(|(call, _)| call.serves()) {
        let mut case = Case::new(call);
        case.table = bytes_of(&REFRESHED);
        case.expected = REFRESHED[0];
        for (transactions, commands) in [(256, 0), (256, 1), (255, 0), (255, 2), (0, 0), (256, 2)] {
            case.lend(&list[..transactions]);
            case.schedule = records[..records.len() - commands].concat();
            cases.push(case.clone());
        }
        case.lend(&[&list[..], &list[..1]].concat());
        cases.push(case.clone());
        case.table = bytes_of(&TABLE_A);
        case.expected = TABLE_A[0];
        for records in [69_632, 69_633] {
            case.lend(&list[..1]);
            case.schedule = vec![0; 8 * records];
            cases.push(case.clone());
        }
    }
    cases
}
