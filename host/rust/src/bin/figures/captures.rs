//! The judge of accepted captures of 69,632 records, beside an ordinary one.

use model::house::{bytes_of, TABLE_A};
use model::sent::{capture, of_schedule, with_ticks, Sent};
use skvorzhan::{judge_capture, schedule, Transaction, Verdict};

use crate::{beside, due, ordinary, Side, EDITION};

const RECORDS: usize = 69_632;

/// What the cycle rule gives for so many transactions of all banks, reads and writes in turn.
fn built(table: &[u8], size: usize, bi: u8, bc: u8) -> Vec<Sent> {
    let one = |i: usize| Transaction {
        kind: (i % 3 == 1) as u8,
        start: 0,
        bi,
        bc,
        arrival: 0,
    };
    let list: Vec<Transaction> = (0..size).map(one).collect();
    let (mut room, mut finishes) = (vec![0; 8 * due(&list)], vec![0; size]);
    schedule(EDITION, table, &list, &mut room, &mut finishes).expect("the list is accepted");
    of_schedule(&room)
}

/// 125 commands, again after each 200,000 cycles, with three ticks before each time but the first, and three more after the last.
fn repeated(table: &[u8]) -> Vec<Sent> {
    let once = built(table, 5, 5, 4);
    let copy = |k: u64| once.iter().map(move |c| (c.0 + 200_000 * k, c.1, c.2));
    let commands: Vec<Sent> = (0..544).flat_map(copy).collect();
    // The ticks up to where another time would begin, and not the command there.
    let next = (200_000 * 544, 0, 0);
    let mut sent = with_ticks(&[&commands[..], &[next]].concat(), || 0);
    sent.pop();
    sent
}

pub fn measure(emulated: bool) {
    let mut t = TABLE_A;
    t[1] = 16;
    let table = &bytes_of(&t)[..];
    for (of, sent) in [
        ("commands alone", built(table, 256, 16, 16)),
        (
            "125 commands each 200,000 cycles, with ticks",
            repeated(table),
        ),
    ] {
        assert_eq!(sent.len(), RECORDS);
        let ticks = sent.iter().filter(|s| (s.1, s.2) == (255, 0)).count();
        let bytes = &capture(&sent)[..];
        let commands = RECORDS - ticks;
        let (mut room, mut own_room) = (vec![0; 8 * commands], vec![0; 8 * commands]);
        let sides = vec![
            Side {
                name: "proved".to_string(),
                call: Box::new(|| {
                    let told = judge_capture(EDITION, table, bytes, &mut room);
                    let told = told.map(|told| (told.commands as usize, told.verdict));
                    assert_eq!(told, Ok((commands, Verdict::Accepted)));
                }),
            },
            Side {
                name: "ordinary".to_string(),
                call: Box::new(|| {
                    let told = ordinary::judge_capture(EDITION, table, bytes, &mut own_room);
                    assert_eq!(told, Some((commands, None)));
                }),
            },
        ];
        let title = format!(
            "judge of a capture of {RECORDS} records, {ticks} of them ticks, accepted: {of}"
        );
        beside(&title, if emulated { 1 } else { 10 }, 1, sides);
        assert!(room == own_room, "they differ");
    }
}
