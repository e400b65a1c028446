//! Inputs cut short, tables out of range, other editions, sizes one off, stamps repeated, cycles past the last, and bytes of no meaning.

use super::accepted::far;
use crate::house::*;
use crate::inputs::Cases;
use crate::records::{BANKS, CCD, EDITION};
use crate::sent::{record, tick_record as tick};

pub fn put(cases: &mut Cases) {
    let mut numbers = Numbers(32);
    short(cases);
    tables(cases);
    sizes(cases, &mut numbers);
    repeated(cases);
    past_the_last(cases);
    several(cases);
    flipped(cases);
    meaningless(cases, &mut numbers);
}

/// A read of bank 0 over the wrap, with ticks.
const READ: [[u8; 4]; 5] = [
    [250, 255, 255, 0],
    [255, 255, 0, 0],
    [3, 0, 255, 0],
    [9, 0, 2, 0],
    [10, 0, 255, 0],
];

fn short(cases: &mut Cases) {
    cases.group("a read cut to 0 to 53 bytes");
    let whole = [&[7, 0], &bytes_of(&TABLE_A)[..], &READ.concat()].concat();
    for size in 0..whole.len() {
        cases.put(&whole[..size]);
    }
}

fn tables(cases: &mut Cases) {
    cases.group(
        "tables out of range, and other editions than expected, with captures that are refused too",
    );
    let (same, odd) = ([tick(5), tick(5)].concat(), READ.concat()[1..].to_vec());
    for capture in [&[][..], &READ.concat(), &same, &odd] {
        for table in [
            with(&[(RFC, 1024)]),
            with(&[(CCD, 1)]),
            with(&[(BANKS, 17)]),
            with(&[(EDITION, 0)]),
            TABLE_A,
        ] {
            for expected in [0, 6, 7, 7 << 8] {
                cases.expecting(expected, &[&bytes_of(&table), capture].concat());
            }
        }
    }
    // What follows 32 bytes is the capture.
    for table in [TABLE_D, TWO_WRITES] {
        cases.bytes(&table, &[]);
        cases.bytes(&table, &READ.concat());
    }
    for (edition, expected) in OTHER_EDITIONS {
        let table = bytes_of(&with(&[(EDITION, edition)]));
        cases.expecting(expected, &[table, READ.concat()].concat());
    }
}

fn sizes(cases: &mut Cases, numbers: &mut Numbers) {
    cases.group("capture bytes that are no multiple of 4, and over 69,632 records");
    let stamps = |n: u32| -> Vec<u8> { (0..n).flat_map(|k| tick((61_000 * k) as u16)).collect() };
    let long = stamps(69_634);
    for size in [
        1, 2, 3, 5, 65_535, 65_537, 262_143, 278_527, 278_528, 278_529, 278_530, 278_531, 278_532,
        278_533, 278_536,
    ] {
        cases.bytes(&TABLE_A, &long[..size]);
    }
    for size in [278_532, 300_000, 557_056, 557_060, 999_968] {
        cases.bytes(&TABLE_A, &vec![0; size]);
    }
    for size in [300_001, 999_967] {
        cases.bytes(&TABLE_A, &numbers.bytes(size));
    }
}

fn repeated(cases: &mut Cases) {
    cases.group("a stamp equal to the one before it, at each record and of each kind");
    for at in 1..READ.len() {
        let mut records = READ;
        records[at][..2].copy_from_slice(&READ[at - 1][..2]);
        cases.list(&TABLE_A, &records);
    }
    for (a, b) in [
        (tick(0), tick(0)),
        (tick(9), record(9, 0, 0)),
        (record(9, 0, 0), tick(9)),
    ] {
        cases.list(&TABLE_A, &[a, b]);
        cases.list(&TABLE_A, &[READ[0], READ[1], a, b, a, b]);
    }
    for place in [9, 10, 99, 100, 999, 1000, 9999, 10_000, 69_631] {
        let mut records: Vec<[u8; 4]> = (0..=place).map(|k| tick(k as u16)).collect();
        // A command between ticks.
        records[5] = record(5, 5, 0);
        records[place] = records[place - 1];
        cases.list(&TABLE_A, &records);
    }
}

fn past_the_last(cases: &mut Cases) {
    cases.group("true cycles past 4,294,967,295, of commands and of ticks");
    let mut records = far();
    records.push(record(65_535, 0, 0));
    for past in [
        record(0, 2, 0),
        tick(0),
        tick(65_534),
        record(65_534, 255, 1),
    ] {
        cases.list(&TABLE_A, &[&records[..], &[past]].concat());
    }
    records.pop();
    records.push(tick(65_534));
    for past in [tick(0), tick(65_533), record(65_533, 0, 0)] {
        cases.list(&TABLE_A, &[&records[..], &[past, past]].concat());
    }
    // Its true cycle is past the last, and its stamp is that of the one before it.
    records.extend([tick(65_535), tick(65_535)]);
    cases.list(&TABLE_A, &records);
}

fn several(cases: &mut Cases) {
    cases.group("several faults at once: 7 before 11, the lowest record of 11");
    let same = [tick(1), tick(2), tick(2), tick(2)].concat();
    cases.bytes(&TABLE_A, &same);
    cases.bytes(&TABLE_A, &[&same[..], &[0]].concat());
    cases.bytes(&TABLE_A, &same.repeat(17_409));
    cases.bytes(&TABLE_A, &same.repeat(17_408));
}

fn flipped(cases: &mut Cases) {
    cases.group("a read with one byte flipped: its lowest bit, all its bits");
    let whole = [bytes_of(&TABLE_A), READ.concat()].concat();
    for place in 0..whole.len() {
        for bits in [1, 255] {
            let mut bytes = whole.clone();
            bytes[place] ^= bits;
            cases.own(&bytes);
        }
    }
}

fn meaningless(cases: &mut Cases, numbers: &mut Numbers) {
    cases.group("a good table and bytes of no meaning behind it");
    for table in [TABLE_A, LEAST, GREATEST, REFRESHED] {
        for _ in 0..5 {
            let size = 4 * numbers.below(20);
            cases.bytes(&table, &numbers.bytes(size));
        }
    }
    cases.group("a good table and records of few kinds and banks about the wrap");
    for _ in 0..40 {
        let mut one = || {
            let stamp = numbers.of(&[65_530, 65_533, 65_535, 0, 1, 4, 11]);
            record(
                stamp,
                numbers.of(&[0, 2, 4, 5, 255]),
                numbers.of(&[0, 0, 1]),
            )
        };
        let records: Vec<[u8; 4]> = (0..6).map(|_| one()).collect();
        cases.list(&LEAST, &records);
    }
    cases.group("bytes of no meaning");
    for _ in 0..20 {
        let size = numbers.below(120);
        cases.own(&numbers.bytes(size));
    }
    cases.put(&numbers.bytes(1_000_002));
}
