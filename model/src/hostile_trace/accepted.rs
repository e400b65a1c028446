//! Captures that are read: of schedules, with ticks and wraps, of every kind, up to the last cycle.

use crate::desk;
use crate::hostile_listing::any_list;
use crate::house::*;
use crate::inputs::Cases;
use crate::records::{BANKS, EDITION};
use crate::sent::{capture, later, of_schedule, record, tick_record as tick, with_ticks, Sent};
use crate::verdicts::schedules;

pub fn put(cases: &mut Cases) {
    let mut numbers = Numbers(31);
    nothing(cases);
    wraps(cases);
    ticks(cases);
    kinds(cases);
    of_built(cases, &mut numbers);
    of_judged(cases);
    last_cycle(cases);
    greatest(cases);
}

fn nothing(cases: &mut Cases) {
    cases.group("an empty capture, and one tick, under every table");
    for table in [TABLE_A, TABLE_T, LEAST, GREATEST, REFRESHED]
        .iter()
        .chain(&ODD)
    {
        cases.list(table, &[]);
        cases.list(table, &[tick(table[EDITION])]);
    }
}

fn sent_by_a(list: &[[u8; 4]]) -> Vec<Sent> {
    of_schedule(&built(&TABLE_A, list).0)
}

/// Example 5 of document 01 ends at 38.
fn wraps(cases: &mut Cases) {
    cases.group("example 5, with the wrap at each place, from the first record and behind ticks");
    let example_5 = sent_by_a(&[[0, 0, 4, 2]]);
    for by in 65_496..=65_535 {
        cases.bytes(&TABLE_A, &capture(&later(&example_5, by)));
        let after = later(&example_5, by + 65_536 * (by % 3));
        cases.bytes(&TABLE_A, &capture(&with_ticks(&after, || by % 7)));
    }
    cases.group("gaps of 1, 2, 32,767, 32,768, 65,534 and 65,535 cycles from several stamps");
    for first in [0, 1, 65_535] {
        for gap in [1, 2, 32_767, 32_768, 65_534, 65_535] {
            let one = |k: u64| (first + gap * k, 0, k as u8);
            let sent: Vec<Sent> = (0..6).map(one).collect();
            cases.bytes(&TABLE_A, &capture(&sent));
        }
    }
}

fn ticks(cases: &mut Cases) {
    cases.group("ticks first, between, last and in rows");
    let (act, rda) = (record(100, 0, 0), record(110, 2, 0));
    let row: Vec<[u8; 4]> = (0..300).map(|k| tick(60_000_u16.wrapping_mul(k))).collect();
    for records in [
        &[tick(0), act, rda][..],
        &[tick(99), act, rda],
        &[tick(101), act, rda],
        &[act, tick(101), rda],
        &[act, tick(99), rda],
        &[act, tick(109), tick(108), tick(107), rda],
        &[act, rda, tick(111)],
        &[act, rda, tick(109), tick(108)],
        &[tick(0), tick(1), tick(0), act, tick(105), rda, tick(0)],
        &[&row[..], &[act, rda]].concat(),
        &[&[act, rda], &row[..]].concat(),
        &row,
    ] {
        cases.list(&TABLE_A, records);
    }
}

fn kinds(cases: &mut Cases) {
    cases.group("every kind and every bank, in one capture and alone; 255 with other banks than 0");
    let each = |record: fn(u8) -> [u8; 4]| -> Vec<[u8; 4]> { (0..=255).map(record).collect() };
    cases.list(&TABLE_A, &each(|n| record(n.into(), n, 0)));
    cases.list(&TABLE_A, &each(|n| record(n.into(), n, 1)));
    cases.list(&TABLE_A, &each(|n| record(n.into(), 0, n)));
    cases.list(&TABLE_A, &each(|n| record(n.into(), 255, n)));
    for kind in [0, 1, 2, 3, 4, 5, 6, 7, 9, 10, 99, 100, 127, 128, 254, 255] {
        for bank in [0, 1, 15, 16, 255] {
            cases.list(&TABLE_A, &[record(50, kind, bank)]);
        }
    }
}

fn of_built(cases: &mut Cases, numbers: &mut Numbers) {
    cases.group("schedules of every table, written with ticks, their last commands later");
    let house = [
        TABLE_A, TABLE_B, TABLE_C, TABLE_T, LEAST, GREATEST, REFRESHED,
    ];
    for table in house.iter().chain(&ODD) {
        for (size, by) in [(1, 0), (3, 65_000), (6, 200_000), (12, 1_000_000)] {
            let list = any_list(table, size, (5, 3), numbers);
            let mut commands = of_schedule(&built(table, &list).0);
            let half = commands.len() / 2;
            let moved = later(&commands[half..], by);
            commands.splice(half.., moved);
            let sent = with_ticks(&commands, || 250 * u64::from(numbers.byte()));
            cases.bytes(table, &capture(&sent));
        }
    }
}

/// Every second of those in which a capture can say the cycles.
fn of_judged(cases: &mut Cases) {
    cases.group("of the judge's own cases, each rule but 2");
    for (table, schedule) in schedules().into_iter().step_by(2) {
        let commands = of_schedule(&schedule);
        let ascending = commands.windows(2).all(|pair| pair[0].0 < pair[1].0);
        if ascending && commands.iter().all(|c| c.0 < 1_000_000) {
            let sent = with_ticks(&commands, || 0);
            cases.own(&[table, capture(&sent)].concat());
        }
    }
}

/// 65,536 ticks as far apart as they may be: the last stands 65,535 cycles before the last cycle.
pub fn far() -> Vec<[u8; 4]> {
    (0..=65_535).rev().map(tick).collect()
}

fn last_cycle(cases: &mut Cases) {
    cases.group("up to cycle 4,294,967,295");
    let far = far();
    for last in [
        record(65_535, 0, 0),
        tick(65_535),
        record(65_535, 255, 1),
        record(65_534, 5, 0),
    ] {
        cases.list(&TABLE_A, &[&far[..], &[last]].concat());
    }
    let commands = sent_by_a(&[[0, 5, 4, 2], [1, 3, 6, 3]]);
    let end = commands.last().map_or(0, |c| c.0);
    for by in [0, 1, 1_000_000_000] {
        let sent = with_ticks(&later(&commands, 4_294_967_295 - end - by), || by % 2);
        cases.bytes(&TABLE_A, &capture(&sent));
    }
}

/// 69,632 commands: of the greatest list, accepted; and others that break a rule at once.
fn greatest(cases: &mut Cases) {
    cases.group("69,632 records: all commands, all ticks, the greatest schedule");
    for (step, kind, bank) in [(1, 9, 9), (61_000, 255, 0), (61_000, 3, 250)] {
        let one = |k: u32| record((k * step) as u16, kind, bank);
        cases.list(&TABLE_A, &(0..69_632).map(one).collect::<Vec<_>>());
    }
    let table = with(&[(BANKS, 16)]);
    let list: Vec<[u8; 4]> = (0..256).map(|k| [(k % 3 == 1) as u8, 0, 16, 16]).collect();
    cases.bytes(&table, &capture(&of_schedule(&run(&table, &list))));
}

/// The schedule by the running controller, which takes less time for a long list.
fn run(table: &[u16], list: &[[u8; 4]]) -> Vec<u8> {
    let (edition, table, mut room) = (table[EDITION], bytes_of(table), vec![0; room_for(list)]);
    let (_, mut c) = desk::start(edition, &table);
    desk::run_bytes(&mut c, edition, &table, &list.concat(), u32::MAX, &mut room)
        .expect("the list is accepted");
    room
}
