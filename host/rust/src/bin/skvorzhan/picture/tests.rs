//! What the picture must keep whatever it is given. How it looks is looked at.

mod axis;
mod following;
mod scenes;
mod text;
mod well_formed;

use skvorzhan::Command;

use super::{Broken, Finish, Scene};

/// Table A of document 01, as a table of 40 bytes.
pub const TABLE_A: [u16; 20] = [
    7, 8, 4, 4, 10, 10, 28, 38, 6, 32, 10, 8, 6, 12, 6, 0, 1, 4, 6, 6,
];

/// Cycle, kind, bank and transaction number of each.
pub fn commands(all: &[(u32, u8, u8, u16)]) -> Vec<Command> {
    let one = |&(cycle, kind, bank, number): &(u32, u8, u8, u16)| Command {
        cycle,
        kind,
        bank,
        number,
    };
    all.iter().map(one).collect()
}

pub fn scene(table: [u16; 20], commands: Vec<Command>) -> Scene {
    Scene {
        title: "A scene".into(),
        edition: table[0].into(),
        table,
        commands,
        broken: None,
        finishes: Vec::new(),
    }
}

/// Document 01's: "ACT0 0, ACT1 6, RD0 10, ACT2 12, RDA0 14, RD1 18, ACT3 19, RDA1 22, RD2 26, RDA2 30, RD3 34, RDA3 38".
pub fn example_5() -> Scene {
    let all = [
        (0, 0, 0),
        (6, 0, 1),
        (10, 1, 0),
        (12, 0, 2),
        (14, 2, 0),
        (18, 1, 1),
        (19, 0, 3),
        (22, 2, 1),
        (26, 1, 2),
        (30, 2, 2),
        (34, 1, 3),
        (38, 2, 3),
    ];
    let all = all.map(|(cycle, kind, bank)| (cycle, kind, bank, 0));
    Scene {
        finishes: vec![Finish {
            transaction: 0,
            kind: 0,
            arrival: 0,
            finish: 52,
            promised: 89,
        }],
        ..scene(TABLE_A, commands(&all))
    }
}

/// Five ACTs of which the fifth comes 5 cycles too early.
pub fn fifth_act_early() -> Scene {
    let all = [
        (0, 0, 0, 0),
        (6, 0, 1, 0),
        (12, 0, 2, 0),
        (18, 0, 3, 0),
        (27, 0, 4, 0),
        (40, 2, 4, 0),
    ];
    Scene {
        broken: Some(Broken {
            record: 4,
            rule: 7,
            sentence: "An ACT less than FAW after the fourth ACT before it.".into(),
            near: Some(0),
            legal: Some(32),
        }),
        ..scene(TABLE_A, commands(&all))
    }
}

/// A linear congruential generator, so that the scenes are the same on every machine.
pub struct Numbers(pub u64);

impl Numbers {
    pub fn below(&mut self, n: u64) -> u64 {
        self.0 = self
            .0
            .wrapping_mul(6364136223846793005)
            .wrapping_add(1442695040888963407);
        (self.0 >> 24) % n
    }

    /// Of any size, small ones as often as great ones.
    pub fn cycle(&mut self) -> u32 {
        let bits = self.below(33);
        self.below(1 << bits) as u32
    }
}
