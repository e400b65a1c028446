//! A wait of 20,000,000 cycles for an arrival, built and run, beside as many idle cycles of a controller that is stuck, by both engines, and beside
//! an ordinary scheduler that tries each cycle.

use model::house::{bytes_of, TABLE_A};
use skvorzhan::{run, run_straight, schedule, schedule_straight, start};
use skvorzhan::{Controller, Ran, Refusal, Scheduled, Transaction, NEVER};

use crate::{beside, for_model, ordinary, Side, EDITION};

const CYCLES: u32 = 20_000_000;

fn read(arrival: u32) -> [Transaction; 1] {
    [Transaction {
        kind: 0,
        start: 0,
        bi: 1,
        bc: 1,
        arrival,
    }]
}

type Build = fn(u16, &[u8], &[Transaction], &mut [u8], &mut [u32]) -> Result<Scheduled, Refusal>;
type Run = fn(&mut Controller, u16, &[u8], &[Transaction], u32, &mut [u8]) -> Result<Ran, Refusal>;

pub fn measure(emulated: bool) {
    let table = &bytes_of(&TABLE_A)[..];
    let fresh = start(EDITION, table).expect("the table is accepted");
    // An open bank keeps its ACT from going for good.
    let mut stuck = fresh;
    stuck.banks[0].opened = 1;
    let (later, at_once) = (&read(CYCLES), &read(0));
    let plain = &for_model(later)[..];
    let mut sides = Vec::new();
    let engines: [(&str, Build, Run); 2] = [
        ("proved", schedule, run),
        ("proved, second engine", schedule_straight, run_straight),
    ];
    for (engine, schedule, run) in engines {
        sides.push(Side {
            name: format!("{engine}, build of one read that arrives there"),
            call: Box::new(move || {
                let (mut room, mut finishes) = ([0; 16], [0]);
                let told = schedule(EDITION, table, later, &mut room, &mut finishes);
                assert_eq!((told.map(|s| s.commands), finishes), (Ok(2), [CYCLES + 24]));
            }),
        });
        for (name, controller, list) in [
            ("run of a controller that waits for it", fresh, later),
            ("run of a controller that is stuck", stuck, at_once),
        ] {
            sides.push(Side {
                name: format!("{engine}, {name}"),
                call: Box::new(move || {
                    let (mut c, mut room) = (controller, [0; 16]);
                    let told = run(&mut c, EDITION, table, list, CYCLES, &mut room);
                    assert_eq!(told.map(|r| (r.commands, r.cycles)), Ok((0, CYCLES)));
                }),
            });
        }
    }
    sides.push(Side {
        name: "ordinary, build, each cycle".to_string(),
        call: Box::new(move || {
            let (mut room, mut finishes) = ([0; 16], [NEVER]);
            let commands =
                ordinary::schedule(EDITION, table, plain, &mut room, &mut finishes, true);
            assert_eq!((commands, finishes), (Some(2), [CYCLES + 24]));
        }),
    });
    let title = format!("{CYCLES} cycles at which nothing goes, of table A");
    beside(&title, if emulated { 1 } else { 10 }, 1, sides);
}
