//! What may be asked of the search for the shortest pattern, and what may not.

use model::desk::shortest_pattern;
use model::house::{bytes_of, group_tables, LEAST, TABLE_A, TABLE_B, TABLE_C, TABLE_D, TABLE_T};

use super::{room, tables};
use crate::case::*;
use crate::numbers::Random;

/// BI and BC of at most six commands.
const COUNTS: [(u32, u32); 8] = [
    (1, 1),
    (1, 2),
    (1, 3),
    (1, 4),
    (1, 5),
    (2, 1),
    (2, 2),
    (3, 1),
];

pub fn some(r: &mut Random, case: &mut Case) {
    tables::some(r, case);
    let (bi, bc) = match r.below(8) {
        0 => (r.u8().into(), r.u8().into()),
        1 => (r.range(0, 7), r.range(0, 7)),
        _ => r.of_these(&COUNTS),
    };
    let kind = match r.below(12) {
        0 => r.u8().into(),
        1 => 2,
        _ => r.range(0, 1),
    };
    let most = match r.below(8) {
        0 => r.of_these(&[0, 1, 127, 129, 256, 65_536, u32::MAX]),
        1 => r.edge(),
        2 | 3 => r.range(1, 40),
        4 => r.range(1, 128),
        _ => 128,
    };
    case.values = [kind, bi, bc, most, 0];
    let commands = (bi * (1 + bc)) as usize;
    case.room = room(r, 8 * commands.min(6));
}

/// Each question of the house tables, and of some in groups: up to 128, and where there is a pattern up to its length, and one less.
pub fn all() -> Vec<Case> {
    let sixteen = [TABLE_A, TABLE_B, TABLE_C, TABLE_T, LEAST].map(|t| bytes_of(&t));
    let twenty = group_tables().into_iter().chain([TABLE_D]);
    let twenty = twenty.map(|t| bytes_of(&t));
    let mut cases = Vec::new();
    for table in sixteen.into_iter().chain(twenty) {
        for kind in 0..2 {
            for (bi, bc) in COUNTS {
                let mut case = Case::new(Call::ShortestPattern);
                case.table = table.clone();
                case.expected = case.edition();
                case.room = 48;
                let told = shortest_pattern(
                    case.expected,
                    &table,
                    kind as u8,
                    bi as u8,
                    bc as u8,
                    128,
                    &mut [0; 48],
                );
                let mut lengths = vec![128];
                if let Ok(told) = told {
                    lengths.extend([told.length, told.length - 1]);
                }
                for most in lengths {
                    case.values = [kind, bi, bc, most, 0];
                    cases.push(case.clone());
                }
            }
        }
    }
    cases
}
