//! The build of 256 mixed transactions that arrive at 0, from the lent list and from its bytes, of 4 each and of 8, beside ordinary schedulers of two
//! kinds: of table A, and of table D, which has groups. An archive from before a change is measured by the first alone.

use model::house::{bytes_of, Numbers, TABLE_A, TABLE_D};
use skvorzhan::{read_command, schedule_later_bytes, Transaction};

use crate::archives::{self, Archive, List};
use crate::{beside, due, for_model, ordinary, Side, EDITION};

pub fn mixed(size: usize) -> Vec<Transaction> {
    let mut numbers = Numbers(11);
    // None goes over the last bank: an archive from before those were accepted has the same to do.
    (0..size)
        .map(|_| {
            let bi = 1 + numbers.below(4);
            Transaction {
                kind: numbers.byte() % 2,
                start: numbers.below(9 - bi) as u8,
                bi: bi as u8,
                bc: 1 + numbers.byte() % 4,
                arrival: 0,
            }
        })
        .collect()
}

/// What each side writes into.
#[derive(Clone, PartialEq)]
struct Lent {
    room: Vec<u8>,
    finishes: Vec<u32>,
}

type Build<'a> = Box<dyn Fn(&mut Lent) -> bool + 'a>;

pub fn measure() {
    measure_by("table A", &bytes_of(&TABLE_A), archives::all());
    measure_by("table D", &bytes_of(&TABLE_D), archives::present());
}

fn measure_by(name: &str, table: &[u8], archives: Vec<Archive>) {
    let list = &mixed(256)[..];
    let lent = &List::of(list);
    let plain = &for_model(list)[..];
    let bytes = &lent.four.concat()[..];
    let laters: Vec<u8> = plain.iter().flat_map(|x| x.eight()).collect();
    let laters = &laters[..];
    let mut ways: Vec<(String, Build)> = Vec::new();
    for archive in archives {
        let name = archive.name;
        ways.push((
            format!("{name}, lent list"),
            Box::new(move |l| archive.schedule(EDITION, table, lent, &mut l.room, &mut l.finishes)),
        ));
        ways.push((
            format!("{name}, bytes"),
            Box::new(move |l| {
                archive.schedule_bytes(EDITION, table, bytes, &mut l.room, &mut l.finishes)
            }),
        ));
    }
    ways.push((
        "proved, bytes of 8".to_string(),
        Box::new(move |l| {
            schedule_later_bytes(EDITION, table, laters, &mut l.room, &mut l.finishes).is_ok()
        }),
    ));
    for (by_cycles, way) in [(true, "each cycle"), (false, "idle cycles passed over")] {
        ways.push((
            format!("ordinary, lent list, {way}"),
            Box::new(move |l| {
                let (room, finishes) = (&mut l.room, &mut l.finishes);
                ordinary::schedule(EDITION, table, plain, room, finishes, by_cycles).is_some()
            }),
        ));
        ways.push((
            format!("ordinary, bytes, {way}"),
            Box::new(move |l| {
                let (room, finishes) = (&mut l.room, &mut l.finishes);
                let bytes = (bytes, 4);
                ordinary::schedule_bytes(EDITION, table, bytes, room, finishes, by_cycles).is_some()
            }),
        ));
    }
    let commands = due(list);
    let empty = Lent {
        room: vec![0; 8 * commands],
        finishes: vec![0; list.len()],
    };
    let mut lent = vec![empty; ways.len()];
    let sides = (ways.iter().zip(&mut lent)).map(|((name, build), lent)| Side {
        name: name.clone(),
        call: Box::new(move || assert!(build(lent), "it's accepted")),
    });
    beside(
        &format!("build of 256 mixed transactions of {name}, {commands} commands"),
        60,
        1,
        sides.collect(),
    );
    assert!(lent.iter().all(|l| *l == lent[0]), "they differ");
    let last = read_command(&lent[0].room[8 * commands - 8..]).map_or(0, |c| c.cycle);
    println!("  the last command goes at cycle {last}; the buffers are the same in each repeat and not cleared between");
}
