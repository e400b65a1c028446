//! The calls that build a schedule, by either engine. One of the second's must answer and leave the same as the plain one of its name "for every
//! input, refusals included".

use super::admit::{admit, write_commands, Handed};
use crate::records::{Refusal, Transaction, EDITION};
use crate::scheduler::{self, Engine};

/// What `schedule` answers: how many commands were written.
#[derive(Debug, Clone, Copy, PartialEq, Eq)]
pub struct Scheduled {
    pub edition: u16,
    pub commands: u32,
}

fn scheduled(
    engine: Engine,
    expected: u16,
    table: &[u8],
    list: Handed,
    room: &mut [u8],
    finishes: &mut [u32],
) -> Result<Scheduled, Refusal> {
    let table = admit(expected, table)?;
    let list = list.list(&table)?;
    let built = scheduler::build(engine, &table, &list, room.len(), finishes.len())?;
    write_commands(&built.commands, room);
    finishes[..list.len()].copy_from_slice(&built.finishes);
    Ok(Scheduled {
        edition: table[EDITION],
        commands: built.commands.len() as u32,
    })
}

/// A call for each engine and each form of the list.
macro_rules! schedule {
    ($($(#[$said:meta])* $name:ident: $engine:ident, $form:ident($list:ty);)*) => {$(
        $(#[$said])*
        pub fn $name(
            expected: u16,
            table: &[u8],
            list: $list,
            room: &mut [u8],
            finishes: &mut [u32],
        ) -> Result<Scheduled, Refusal> {
            let list = Handed::$form(list);
            scheduled(Engine::$engine, expected, table, list, room, finishes)
        }
    )*};
}

schedule! {
    /// Numbers 1, 2, 10, and 3 to 6. "Success writes each result from its buffer's start and leaves all beyond as it stood."
    schedule: Plain, List(&[Transaction]);
    /// The same from the transactions' bytes.
    schedule_bytes: Plain, Four(&[u8]);
    /// The same from records of 8 bytes.
    schedule_later_bytes: Plain, Eight(&[u8]);
    schedule_straight: Straight, List(&[Transaction]);
    schedule_straight_bytes: Straight, Four(&[u8]);
    schedule_straight_later_bytes: Straight, Eight(&[u8]);
}
