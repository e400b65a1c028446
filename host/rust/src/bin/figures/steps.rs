//! One step of a lent controller, by both engines: the mean over all that serve a list, from a fresh controller on.

use model::house::{bytes_of, TABLE_A};
use skvorzhan::{start, Controller};

use crate::archives::List;
use crate::builds::mixed;
use crate::{archives, beside, due, for_model, ordinary, Side, EDITION};

/// So many steps are measured at once, or more.
const STEPS: usize = 20_000;

/// A controller and what it has written.
#[derive(Clone, PartialEq)]
struct Served {
    controller: Controller,
    room: Vec<u8>,
}

/// Steps until the list is served; answers how many it took.
fn serve(fresh: &Controller, served: &mut Served, step: &Step) -> usize {
    served.controller = *fresh;
    let (mut at, mut steps) = (0, 0);
    while at < served.room.len() {
        at += 8 * step(&mut served.controller, &mut served.room[at..]);
        steps += 1;
    }
    steps
}

type Step<'a> = dyn Fn(&mut Controller, &mut [u8]) -> usize + 'a;

pub fn measure(emulated: bool) {
    let table = &bytes_of(&TABLE_A)[..];
    let fresh = &start(EDITION, table).expect("the table is accepted");
    for size in [1, 16, 256] {
        let list = &mixed(size)[..];
        let lent = &List::of(list);
        let plain = &for_model(list)[..];
        let mut ways: Vec<(String, Box<Step>)> = Vec::new();
        for archive in archives::all().into_iter().chain([archives::SECOND]) {
            ways.push((
                archive.name.to_string(),
                Box::new(move |c, room| archive.step(c, EDITION, table, lent, room)),
            ));
        }
        ways.push((
            "ordinary".to_string(),
            Box::new(move |c, room| {
                ordinary::step(c, EDITION, table, plain, room).expect("nothing is refused")
            }),
        ));
        let empty = Served {
            controller: *fresh,
            room: vec![0; 8 * due(list)],
        };
        let mut served = vec![empty; ways.len()];
        let steps = serve(fresh, &mut served[0], &*ways[0].1);
        let rounds = (STEPS + steps - 1) / steps;
        let sides = (ways.iter().zip(&mut served)).map(|((name, step), served)| Side {
            name: name.clone(),
            call: Box::new(move || {
                for _ in 0..rounds {
                    assert_eq!(serve(fresh, served, &**step), steps);
                }
            }),
        });
        beside(
            &format!("one step of {steps} that serve {size} mixed transactions of table A"),
            if emulated { 1 } else { 30 },
            rounds * steps,
            sides.collect(),
        );
        // What an older archive tells after the four ACTs is not what the present one does.
        let of_all = |s: &Served| {
            let c = &s.controller;
            let counts = [c.edition, c.cycle, c.acts, c.datas];
            (counts, c.banks, c.last, s.room.clone())
        };
        let first = of_all(&served[0]);
        assert!(served.iter().all(|s| of_all(s) == first), "they differ");
        assert!(served.last() == served.first(), "they differ");
    }
}
