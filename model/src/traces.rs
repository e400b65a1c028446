//! The cases of the program `traces`, each an input of `trace` behind its length in two bytes, and the text of each behind a line `case`.
//!
//! A capture that reaches the last cycle has 65,537 records, which is more than is stored: the program makes three behind the head of the
//! first case. `hostile_trace` has more of them.

use crate::house::*;
use crate::inputs::{self, input, own};
use crate::records::{BANKS, CCD, EDITION};
use crate::sent::{capture, of_schedule, record, tick_record as tick, with_ticks, Sent, TICK};
use crate::trace::trace;

pub fn lines(input: &[u8]) -> String {
    let mut out = inputs::texts(input, trace);
    for last in [tick(65_535), record(65_535, 0, 3), tick(0)] {
        out.push_str("case\n");
        out.push_str(&trace(&at_the_last_cycle(&input[2..36], last)));
    }
    out
}

/// Ticks, each 65,535 cycles after the one before it; the record behind them is at cycle 4,294,967,295 if its stamp is 65,535.
fn at_the_last_cycle(head: &[u8], last: [u8; 4]) -> Vec<u8> {
    let ticks: Vec<[u8; 4]> = (0..=u16::MAX).rev().map(tick).collect();
    [head, &ticks.concat(), &last].concat()
}

pub fn cases() -> Vec<u8> {
    inputs::stored(&inputs())
}

fn inputs() -> Vec<Vec<u8>> {
    let mut inputs = read();
    inputs.extend(kinds());
    inputs.extend(verdicts());
    inputs.extend(short());
    inputs.extend(refused());
    inputs
}

fn of_a(sent: &[Sent]) -> Vec<u8> {
    [&[7, 0], &bytes_of(&TABLE_A)[..], &capture(sent)].concat()
}

/// Example 5 of document 01, so many cycles later.
fn example_5(by: u64) -> Vec<Sent> {
    let sent = of_schedule(&built(&TABLE_A, &[[0, 0, 4, 2]]).0);
    sent.iter().map(|s| (s.0 + by, s.1, s.2)).collect()
}

/// An empty capture, the wrap at each place, ticks first, last and in rows, gaps at their edges, and cycles of up to nine digits.
fn read() -> Vec<Vec<u8>> {
    let mut inputs = vec![
        own(&TABLE_A, &[]),
        own(&GREATEST, &[]),
        own(&TABLE_A, &[tick(0)]),
    ];
    for by in 65_496..=65_536 {
        inputs.push(of_a(&with_ticks(&example_5(by), || by)));
    }
    let (act, rda) = (record(100, 0, 0), record(110, 2, 0));
    for records in [
        &[tick(0), act, rda][..],
        &[tick(101), act, rda],
        &[act, tick(105), rda],
        &[act, tick(99), rda],
        &[act, rda, tick(111)],
        &[act, rda, tick(109), tick(108)],
        &[
            tick(0),
            tick(65_535),
            tick(65_534),
            act,
            tick(3),
            tick(2),
            rda,
            tick(0),
            tick(1),
        ],
        &[tick(9), tick(8), tick(7)],
    ] {
        inputs.push(own(&TABLE_A, records));
    }
    for first in [0, 1, 65_535] {
        for gap in [1, 32_768, 65_534, 65_535] {
            let sent: Vec<Sent> = (0..4).map(|k| (first + gap * k, 0, k as u8)).collect();
            inputs.push(of_a(&sent));
        }
    }
    for cycle in [9, 99, 999, 9_999, 99_999, 999_999, 9_999_999, 99_999_999] {
        let pair: [Sent; 2] = [(cycle, 0, 0), (cycle + 1, 0, 0)];
        inputs.push(of_a(&with_ticks(&pair, || 0)));
    }
    let (schedule, _) = built(&REFRESHED, &[[1, 7, 3, 2], REFRESH_BYTES, [0, 2, 4, 1]]);
    let sent = with_ticks(&of_schedule(&schedule), || 0);
    inputs.push([&[70, 0], &bytes_of(&REFRESHED)[..], &capture(&sent)].concat());
    // Commands of three digits in number.
    let (schedule, _) = built(&LEAST, &[[0, 0, 16, 16], [1, 3, 8, 2]]);
    inputs.push(
        [
            &[1, 0],
            &bytes_of(&LEAST)[..],
            &capture(&of_schedule(&schedule)),
        ]
        .concat(),
    );
    inputs
}

/// Those that have a name, those that have none, and kind 255 with banks that make it a command.
fn kinds() -> Vec<Vec<u8>> {
    let mut inputs: Vec<Vec<u8>> = [0, 1, 2, 3, 4, 5, 6, 7, 9, 10, 99, 100, 128, 254, 255]
        .map(|kind| own(&TABLE_A, &[record(50, kind, 0), record(49, kind, 1)]))
        .into();
    let each: Vec<[u8; 4]> = (0..=255).map(|n| record(n.into(), n, 255 - n)).collect();
    inputs.push(own(&TABLE_A, &each));
    for bank in [0, 1, 9, 10, 99, 100, 255] {
        inputs.push(own(&TABLE_A, &[record(7, 255, bank)]));
    }
    inputs
}

/// The first record that can break each rule, by a cycle, and the same with that cycle more; ticks between, and a command behind it. Rule 2
/// cannot be broken: no two true cycles are the same.
fn verdicts() -> Vec<Vec<u8>> {
    let read = [(65_530, 0, 0), (65_540, 2, 0)];
    let acts: Vec<Sent> = (0..4).map(|k| (65_520 + 6 * k, 0, k as u8)).collect();
    let rc_60 = with(&[(RC, 60)]);
    let mut inputs = Vec::new();
    for (table, before, last) in [
        (&TABLE_A, &[][..], (65_530, 6, 0)),
        (&TABLE_A, &read[..1], (65_545, 2, 8)),
        (&TABLE_A, &[], (65_530, 2, 0)),
        (&TABLE_A, &read[..1], (65_600, 0, 0)),
        (&TABLE_A, &read, (65_567, 0, 0)),
        (&rc_60, &read, (65_589, 0, 0)),
        (&TABLE_A, &read[..1], (65_535, 0, 1)),
        (&TABLE_A, &acts, (65_551, 0, 4)),
        (&TABLE_A, &read[..1], (65_539, 2, 0)),
        (&TABLE_A, &[read[0], (65_540, 3, 0)], (65_557, 2, 0)),
        (&TABLE_A, &read[..1], (65_600, 5, 0)),
        (&REFRESHED, &read, (65_567, 5, 0)),
        (&REFRESHED, &[(65_530, 5, 0)], (65_579, 5, 0)),
        (&REFRESHED, &[(65_530, 5, 0)], (65_579, 0, 3)),
    ] {
        for by in [0, 1] {
            let mut sent = before.to_vec();
            sent.push((last.0 + by, last.1, last.2));
            sent.push((last.0 + 9_000, 4, last.2));
            let mut bytes = [&table[EDITION].to_le_bytes(), &bytes_of(table)[..]].concat();
            let place = bytes.len();
            sent.insert(0, (65_500, TICK.0, TICK.1));
            sent.push((last.0 + 65_000, TICK.0, TICK.1));
            bytes.extend(capture(&sent));
            inputs.push(bytes.clone());
            // Rule 10, or another, where all ends before that command and there are no ticks.
            let end = bytes.len() - 8;
            inputs.push([&bytes[..place], &bytes[place + 4..end]].concat());
        }
    }
    inputs
}

/// "Fewer than two get number 1", whatever the bytes; so do two alone, and a table that is cut short.
fn short() -> Vec<Vec<u8>> {
    let whole = own(&TABLE_A, &[record(0, 0, 0), record(10, 2, 0)]);
    let mut inputs: Vec<Vec<u8>> = [0, 1, 2, 3, 17, 33, 34, 35, 36, 37, 38, 39, 41]
        .map(|size| whole[..size].to_vec())
        .into();
    inputs.extend([vec![0], vec![255], vec![0, 0], vec![255, 255]]);
    inputs
}

/// Numbers 1, 2, 10, 7 and 11. Number 5 cannot be met, since there is room for all commands; nor can 7 by 69,633 records here.
fn refused() -> Vec<Vec<u8>> {
    let read = [record(5, 0, 0), tick(7), record(15, 2, 0), tick(16)];
    let mut inputs = Vec::new();
    for table in [
        with(&[(RFC, 1024)]),
        with(&[(CCD, 1)]),
        with(&[(BANKS, 17)]),
    ] {
        inputs.push(own(&table, &read));
        inputs.push(own(&table, &[tick(1), tick(1)]));
    }
    for (edition, expected) in OTHER_EDITIONS {
        inputs.push(input(expected, &with(&[(EDITION, edition)]), &read));
    }
    inputs.push(input(8, &TABLE_A, &[tick(1), tick(1)]));
    inputs.push([input(8, &TABLE_A, &read), vec![0]].concat());
    for more in [1, 2, 3] {
        inputs.push([own(&TABLE_A, &read), vec![0; more]].concat());
        inputs.push([own(&TABLE_A, &[tick(1), tick(1)]), vec![0; more]].concat());
    }
    // Number 11 at each record, of ticks and of commands.
    for at in 1..read.len() {
        let mut records = read;
        records[at][..2].copy_from_slice(&read[at - 1][..2]);
        inputs.push(own(&TABLE_A, &records));
    }
    for pair in [
        [tick(0); 2],
        [record(9, 0, 0); 2],
        [record(0, 255, 1); 2],
        [tick(65_535); 2],
    ] {
        inputs.push(own(&TABLE_A, &pair));
        inputs.push(own(
            &TABLE_A,
            &[&[tick(1), tick(3)], &pair[..], &pair].concat(),
        ));
    }
    for place in [9, 10, 99, 100, 999] {
        let mut records: Vec<[u8; 4]> = (0..=place).map(|k| tick(k as u16)).collect();
        records[3] = record(3, 0, 0);
        records[place] = records[place - 1];
        inputs.push(own(&TABLE_A, &records));
    }
    inputs
}

#[cfg(test)]
mod tests {
    use super::*;
    use crate::rules::RULES;

    #[test]
    fn they_meet_every_refusal_every_kind_and_every_verdict() {
        assert!(cases().len() <= 65_536, "{}", cases().len());
        let printed: Vec<String> = inputs().iter().map(|input| trace(input)).collect();
        let longest = printed.iter().map(String::len).max();
        assert!(longest < Some(16_384), "{longest:?}");
        let lines = || printed.iter().flat_map(|text| text.lines());
        let met = |line: &dyn Fn(&str) -> bool| lines().any(|l| line(l));
        for number in 1..=12 {
            let start = format!("refused {number} at ");
            let can_be = [1, 2, 7, 10, 11].contains(&number);
            assert_eq!(met(&|l| l.starts_with(&start)), can_be, "{number}");
        }
        for position in [1, 2, 3, 9, 10, 99, 100, 999] {
            let line = format!("refused 11 at {position} edition 7");
            assert!(met(&|l| l == line), "{line}");
        }
        for kind in [
            "ACT", "RD", "RDA", "WR", "WRA", "REF", "6", "99", "100", "254", "255",
        ] {
            let word = format!(" {kind} ");
            assert!(met(&|l| l.contains(&word)), "{kind}");
        }
        for rule in RULES.into_iter().chain([10]) {
            let end = format!(" breaks rule {rule}");
            assert_eq!(met(&|l| l.ends_with(&end)), rule != 2, "{rule}");
        }
        assert!(met(&|l| l == "accepted") && met(&|l| l == "edition 7 commands 0"));
        assert!(met(&|l| l == "edition 1 commands 296"));
        for cycle in [9, 99, 999, 9_999, 99_999, 999_999, 9_999_999, 99_999_999] {
            for at in [cycle, cycle + 1] {
                let line = format!("{at} ACT 0 0");
                assert!(met(&|l| l == line), "{line}");
            }
        }
    }
}
