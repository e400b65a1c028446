//! The two engines beside ordinary schedulers, one that passes over idle cycles and one that tries each: 256 mixed transactions of table A, the
//! same with 16 refreshes, 10,000 cycles apart, and in four groups, each from the lent list and from its bytes. And a run from a state from which
//! nothing goes to the last cycle.

use model::desk;
use model::house::{bytes_of, with, RFC, TABLE_A, TABLE_D};
use skvorzhan::*;

use crate::builds::mixed;
use crate::{beside, due, for_model, ordinary, Side, EDITION};

const LAST_CYCLE: u32 = 100_000_000;

/// A table's record, and what is built by it.
pub struct Asked {
    pub name: &'static str,
    pub table: Vec<u8>,
    pub list: Vec<Transaction>,
}

pub fn asked() -> Vec<Asked> {
    let a = bytes_of(&TABLE_A);
    let refresh = Transaction {
        kind: 2,
        start: 0,
        bi: 0,
        bc: 0,
        arrival: 0,
    };
    let mut refreshed = mixed(256);
    let every_16th = refreshed.iter_mut().skip(15).step_by(16);
    every_16th.for_each(|x| *x = refresh);
    let mut apart = mixed(256);
    for (x, arrival) in apart.iter_mut().zip((0..).step_by(10_000)) {
        x.arrival = arrival;
    }
    let all = [
        ("of table A", a.clone(), mixed(256)),
        (
            "of which 16 are refreshes, of table A with RFC 50",
            bytes_of(&with(&[(RFC, 50)])),
            refreshed,
        ),
        ("that arrive 10,000 cycles apart, of table A", a, apart),
        ("of table D, of four groups", bytes_of(&TABLE_D), mixed(256)),
    ];
    let one = |(name, table, list)| Asked { name, table, list };
    all.map(one).into()
}

/// What each side writes into.
#[derive(Clone, PartialEq)]
struct Lent {
    room: Vec<u8>,
    finishes: Vec<u32>,
}

/// Of a list whose entries are `T`: transactions, or bytes.
type Build<T> = fn(u16, &[u8], &[T], &mut [u8], &mut [u32]) -> Result<Scheduled, Refusal>;

/// Both engines on the list, and the ordinary one, which is told whether it tries each cycle.
fn compare<T>(
    title: &str,
    repeats: usize,
    asked: &Asked,
    engines: [Build<T>; 2],
    list: &[T],
    ordinary: impl Fn(&mut Lent, bool) -> bool,
) {
    let (table, commands) = (&asked.table[..], due(&asked.list));
    let by = |build: Build<T>, l: &mut Lent| {
        build(EDITION, table, list, &mut l.room, &mut l.finishes).is_ok()
    };
    let [second, plain] = engines;
    type Way<'a> = Box<dyn Fn(&mut Lent) -> bool + 'a>;
    let ways: [(&str, Way); 4] = [
        ("proved, second engine", Box::new(|l| by(second, l))),
        ("proved, plain engine", Box::new(|l| by(plain, l))),
        (
            "ordinary, idle cycles passed over",
            Box::new(|l| ordinary(l, false)),
        ),
        ("ordinary, each cycle", Box::new(|l| ordinary(l, true))),
    ];
    let empty = Lent {
        room: vec![0; 8 * commands],
        finishes: vec![0; asked.list.len()],
    };
    let mut lent = vec![empty; ways.len()];
    let sides = (ways.iter().zip(&mut lent)).map(|((name, build), lent)| Side {
        name: name.to_string(),
        call: Box::new(move || assert!(build(lent), "it's accepted")),
    });
    let name = asked.name;
    let title = format!("build of 256 mixed transactions {name}, {commands} commands, {title}");
    beside(&title, repeats, 1, sides.collect());
    assert!(lent.iter().all(|l| *l == lent[0]), "they differ");
    let last = read_command(&lent[0].room[8 * commands - 8..]).map_or(0, |c| c.cycle);
    println!("  the last command goes at cycle {last}");
}

pub fn measure(emulated: bool) {
    let repeats = if emulated { 1 } else { 60 };
    for asked in &asked() {
        let (table, list) = (&asked.table[..], &asked.list[..]);
        let plain = &for_model(list)[..];
        let engines = [schedule_straight, schedule];
        compare(
            "lent list",
            repeats,
            asked,
            engines,
            list,
            |l, by_cycles| {
                let (room, finishes) = (&mut l.room, &mut l.finishes);
                ordinary::schedule(EDITION, table, plain, room, finishes, by_cycles).is_some()
            },
        );
        // Those that arrive later have 8 bytes.
        let (of_record, engines): (usize, [Build<u8>; 2]) = match list[255].arrival {
            0 => (4, [schedule_straight_bytes, schedule_bytes]),
            _ => (8, [schedule_straight_later_bytes, schedule_later_bytes]),
        };
        let record = |x: &desk::Transaction| x.eight()[..of_record].to_vec();
        let bytes: Vec<u8> = plain.iter().flat_map(record).collect();
        let title = format!("bytes of {of_record}");
        compare(&title, repeats, asked, engines, &bytes, |l, by_cycles| {
            let (room, finishes) = (&mut l.room, &mut l.finishes);
            let bytes = (&bytes[..], of_record);
            ordinary::schedule_bytes(EDITION, table, bytes, room, finishes, by_cycles).is_some()
        });
    }
    stuck(if emulated { 1 } else { 10 });
}

/// An open bank keeps its ACT from going for good.
fn stuck(repeats: usize) {
    let table = &bytes_of(&TABLE_A)[..];
    let mut stuck = start(EDITION, table).expect("the table is accepted");
    stuck.banks[0].opened = 1;
    let list = &[Transaction {
        kind: 0,
        start: 0,
        bi: 1,
        bc: 1,
        arrival: 0,
    }];
    type Run =
        fn(&mut Controller, u16, &[u8], &[Transaction], u32, &mut [u8]) -> Result<Ran, Refusal>;
    let ways: [(&str, Run); 2] = [
        ("proved, second engine", run_straight),
        ("proved, plain engine", run),
    ];
    let sides = ways.map(|(name, run)| Side {
        name: name.to_string(),
        call: Box::new(move || {
            let (mut c, mut room) = (stuck, [0; 16]);
            let told = run(&mut c, EDITION, table, list, NEVER, &mut room);
            let told = told.map(|r| (r.commands, r.cycles));
            assert_eq!((told, c.cycle), (Ok((0, LAST_CYCLE)), LAST_CYCLE));
        }),
    });
    let title = "run from a state from which nothing goes, from cycle 0 to 100,000,000, of table A";
    beside(title, repeats, 1, sides.into());
}
