//! Captures: schedules as an analyser sends them, with ticks and wraps, and hostile ones.

use model::desk::{self, GroupTable};
use model::house::{built, bytes_of, room_for, TABLE_A};
use model::sent::{
    capture, of_schedule, record, tick, tick_record, with_ticks, Sent, MOST_GAP, TICK,
};

use super::schedules;
use crate::case::*;
use crate::expected::transactions;
use crate::numbers::Random;

/// The last cycle.
const LAST_CYCLE: u64 = u32::MAX as u64;

/// A schedule's commands, legal or not.
fn commands(r: &mut Random, table: &GroupTable) -> Vec<Sent> {
    let most = match r.below(200) {
        0 => 800,
        1..=10 => 150,
        11..=70 => 40,
        _ => 12,
    };
    of_schedule(&schedules::records(r, table, most).concat())
}

/// All from some command on later: by any number of cycles, or so that the gap before it is at the edge of what a stamp can tell.
fn spread(r: &mut Random, commands: &mut [Sent]) {
    for _ in 0..r.below(4) {
        let at = r.below(commands.len());
        let before = at.checked_sub(1).map_or(0, |k| commands[k].0);
        let gap = commands[at].0.saturating_sub(before);
        let edge = r.of_these(&[65_534, 65_535, 65_536, 131_070, 131_072]);
        let by = match r.below(3) {
            0 => r.range(0, 70_000).into(),
            1 => r.range(0, 400_000).into(),
            _ => u64::saturating_sub(edge, gap),
        };
        commands[at..].iter_mut().for_each(|c| c.0 += by);
    }
}

/// As late as can be, or a few cycles before or after that.
fn late(r: &mut Random, commands: &mut [Sent]) {
    let last = commands.iter().map(|c| c.0).max().unwrap_or(0);
    let end = LAST_CYCLE + u64::from(r.range(0, 3)) - u64::from(r.range(0, 3));
    let by = end.saturating_sub(last);
    commands.iter_mut().for_each(|c| c.0 += by);
}

/// At cycles that have none, mostly: before a record, after the last, in rows.
fn more_ticks(r: &mut Random, sent: &mut Vec<Sent>) {
    for _ in 0..r.below(6) {
        let place = r.below(sent.len() + 1);
        let before = place.checked_sub(1).map_or(0, |k| sent[k].0 + 1);
        let after = sent.get(place).map_or(before + MOST_GAP, |s| s.0);
        let free = after.saturating_sub(before);
        if free > 0 {
            let at = before + r.any() % free;
            sent.insert(place, tick(at));
        } else if r.one_in(20) {
            sent.insert(place, tick(before));
        }
    }
}

/// A record changed, repeated, taken out or put elsewhere.
fn change(r: &mut Random, records: &mut Vec<[u8; 4]>) {
    if records.is_empty() {
        return;
    }
    let at = r.below(records.len());
    let near = stamp(&records[at])
        .wrapping_add(r.range(0, 4) as u16)
        .wrapping_sub(2);
    match r.below(10) {
        0 => records.insert(at, records[at]),
        1 => records[at][..2].copy_from_slice(&near.to_le_bytes()),
        2 => records[at][2] = r.of_these(&[0, 5, 6, 254, 255]),
        3 => records[at][2..].copy_from_slice(&[255, r.of_these(&[0, 1, 255])]),
        4 => records[at][r.of_these(&[0, 1, 2, 3])] = r.u8(),
        5 => drop(records.remove(at)),
        6 => records.swap(at, 0),
        7 => records[at][2] ^= 255,
        // Another command at a tick's stamp, or a tick at a command's.
        8 => records.insert(
            at,
            [records[at][0], records[at][1], r.u8(), r.of_these(&[0, 1])],
        ),
        _ => records[at] = r.u32().to_le_bytes(),
    }
}

/// Stamps about the wrap, of few numbers, so that neighbours are often the same.
fn about_the_wrap(r: &mut Random) -> Vec<[u8; 4]> {
    let width = r.of_these(&[1, 2, 5, 200]);
    let one = |r: &mut Random| {
        let stamp = (r.range(0, 2 * width) as u16).wrapping_sub(width as u16);
        let (kind, bank) = match r.below(3) {
            0 => TICK,
            1 => (r.below(6) as u8, r.below(3) as u8),
            _ => (r.of_these(&[0, 2, 4, 255]), r.of_these(&[0, 1, 7])),
        };
        record(stamp, kind, bank)
    };
    (0..r.below(12)).map(|_| one(r)).collect()
}

/// The bytes of a capture.
pub fn some(r: &mut Random, table: &GroupTable) -> Vec<u8> {
    let mut records = match r.below(16) {
        0 => (0..r.below(9)).map(|_| r.u32().to_le_bytes()).collect(),
        1 | 2 => about_the_wrap(r),
        _ => {
            let mut commands = commands(r, table);
            if r.one_in(300) {
                late(r, &mut commands);
            } else if !commands.is_empty() {
                spread(r, &mut commands);
            }
            // Without ticks a late command is told round the wrap as if nearer.
            let is_late = commands.iter().any(|c| c.0 > 10_000_000);
            let without = r.one_in(8) || is_late && r.one_in(3);
            let short_by = match is_late {
                true => r.of_these(&[1, 2, 300, 3_000, 8_000]),
                false => r.of_these(&[1, 2, 20_000, 65_535]),
            };
            let mut sent = match without {
                true => commands,
                false => with_ticks(&commands, || r.below(short_by) as u64),
            };
            sent.truncate(70_000);
            more_ticks(r, &mut sent);
            records(&capture(&sent))
        }
    };
    if r.one_in(4) {
        change(r, &mut records);
    }
    let mut bytes = records.concat();
    if r.one_in(24) {
        bytes.truncate(bytes.len().saturating_sub(1 + r.below(3)));
    }
    bytes
}

fn whole(records: &[[u8; 4]]) -> Case {
    let mut case = Case::new(Call::JudgeCapture);
    case.table = bytes_of(&TABLE_A);
    case.bytes = records.concat();
    case.room = 8 * case.call.room_in_commands(&case.bytes);
    case
}

/// As many commands as there may be, accepted.
fn greatest() -> Case {
    let mut t = TABLE_A;
    t[1] = 16;
    let (edition, table) = (t[0], bytes_of(&t));
    let list: Vec<[u8; 4]> = (0..256).map(|k| [(k % 3 == 1) as u8, 0, 16, 16]).collect();
    let mut room = vec![0; room_for(&list)];
    let mut c = desk::start(edition, &table).1;
    let list = transactions(&at_once(&list));
    desk::run(&mut c, edition, &table, &list, u32::MAX, &mut room).expect("it's accepted");
    let mut case = whole(&records(&capture(&of_schedule(&room))));
    case.table = table;
    case
}

/// The greatest captures, the last cycle and those after it, a wrap at each place, and number 11 at each record.
pub fn last() -> Vec<Case> {
    let mut cases = Vec::new();
    for n in [69_632, 69_633] {
        for (step, kind, bank) in [(0, 0, 0), (1, 9, 9), (1, 255, 0), (65_535, 255, 0)] {
            let one = |k: u32| record((k as u16).wrapping_mul(step), kind, bank);
            cases.push(whole(&(0..n).map(one).collect::<Vec<_>>()));
        }
        // A REF now and then, up to cycle 4,247,000,000.
        let one = |k: u32| record((k * 61_000) as u16, if k % 40 == 0 { 5 } else { 255 }, 0);
        cases.push(whole(&(0..n).map(one).collect::<Vec<_>>()));
    }
    cases.push(greatest());
    for (kind, bank) in [(0, 0), (255, 1), TICK] {
        // Ticks as far apart as they may be; what comes after them stands at the last cycle.
        let mut records: Vec<[u8; 4]> = (0..=65_535).rev().map(tick_record).collect();
        records.push(record(65_535, kind, bank));
        cases.push(whole(&records));
        for stamp in [0, 65_535, 65_534] {
            let past = [&records[..], &[record(stamp, kind, bank)]].concat();
            cases.push(whole(&past));
        }
    }
    let (bytes, _) = built(&TABLE_A, &[[0, 5, 4, 2], [1, 3, 6, 3]]);
    let commands = of_schedule(&bytes);
    let length = commands.last().map_or(0, |c| c.0);
    let later = |by| {
        let moved = commands.iter().map(|c| (c.0 + by, c.1, c.2));
        with_ticks(&moved.collect::<Vec<_>>(), || 0)
    };
    for by in [
        LAST_CYCLE - length,
        LAST_CYCLE - length + 1,
        LAST_CYCLE - length - 65_536,
    ] {
        cases.push(whole(&records(&capture(&later(by)))));
    }
    for by in 65_536 - length - 1..=65_536 {
        cases.push(whole(&records(&capture(&later(by)))));
    }
    let records = records(&capture(&later(65_500)));
    for at in 1..records.len() {
        let mut same = records.clone();
        let before = records[at - 1];
        same[at][..2].copy_from_slice(&before[..2]);
        cases.push(whole(&same));
    }
    // Each again with too little room, which is told last.
    for at in 0..cases.len() {
        let mut case = cases[at].clone();
        if case.room > 0 {
            case.room -= 1;
            cases.push(case);
        }
    }
    cases
}
