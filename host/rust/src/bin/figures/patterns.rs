//! The shortest pattern beside an ordinary search of the same kind: all sixteen questions of table A, and of what was found the costliest.

use model::house::{bytes_of, TABLE_A};
use skvorzhan::shortest_pattern;

use crate::climb::{all_asked, height, Point};
use crate::ordinary::{self, Asked};
use crate::{beside, Side};

/// The highest point that `figures climb 11 600` found (`docs/FIGURES.md`).
const COSTLIEST: Point = Point {
    table: [
        7, 8, 7, 17, 1, 1, 30, 13, 1, 115, 17, 2, 1, 106, 937, 32, 5, 129, 14, 1023,
    ],
    asked: Asked {
        kind: 0,
        bi: 3,
        bc: 1,
        most: 128,
    },
};

/// All of them, one after the other.
fn ask(title: &str, table: &[u8], all: &[Asked], repeats: usize) {
    let edition = u16::from_le_bytes([table[0], table[1]]);
    let proved = |x: &Asked| {
        let mut room = [0; 48];
        let told = shortest_pattern(edition, table, x.kind, x.bi, x.bc, x.most, &mut room);
        (told.ok().map(|told| told.length), room)
    };
    let right: Vec<_> = all.iter().map(proved).collect();
    let right = &right[..];
    let mut sides = vec![Side {
        name: "proved".to_string(),
        call: Box::new(|| assert!(all.iter().map(proved).eq(right.iter().copied()))),
    }];
    for (name, each) in [
        ("ordinary, each cycle tried", true),
        ("ordinary, first cycle worked out", false),
    ] {
        let own = move |x: &Asked| {
            let mut room = [0; 48];
            let length = ordinary::shortest(edition, table, x, &mut room, each);
            (length, room)
        };
        sides.push(Side {
            name: name.to_string(),
            call: Box::new(move || assert!(all.iter().map(own).eq(right.iter().copied()))),
        });
    }
    beside(title, repeats, 1, sides);
}

pub fn measure(emulated: bool) {
    let repeats = if emulated { 1 } else { 10 };
    ask(
        "the shortest patterns of table A, all sixteen questions together",
        &bytes_of(&TABLE_A),
        &all_asked(),
        repeats,
    );
    let Point { table, asked } = COSTLIEST;
    let tried = height(&COSTLIEST);
    let title = format!("the costliest shortest pattern that was found: {tried} cycles tried, {asked:?} of {table:?}");
    ask(&title, &bytes_of(&table), &[asked], repeats);
}
