//! What the calls have in common: a table that is expected, a list in any of its forms, and the commands that are written.

use std::borrow::Cow;

use crate::records::{read_table, refused_by, write_command, EDITION, LATER, PLAIN};
use crate::records::{Command, GroupTable, Refusal, Transaction};
use crate::scheduler::decode;

/// Numbers 1, 2 and 10, for every call that takes a table: "If they differ it's refused as number 10, position the table's edition,
/// straight after number 2; expected 0 always differs", since no table of edition 0 gets past number 2.
pub fn admit(expected: u16, table: &[u8]) -> Result<GroupTable, Refusal> {
    let table = read_table(table)?;
    let edition = table[EDITION];
    if expected != edition {
        return refused_by(&table, 10, edition.into());
    }
    Ok(table)
}

/// A list as a call is handed it: decoded, or as records of 4 bytes or of 8.
#[derive(Clone, Copy)]
pub enum Handed<'a> {
    List(&'a [Transaction]),
    Four(&'a [u8]),
    Eight(&'a [u8]),
}

impl<'a> Handed<'a> {
    /// Number 3 of bytes.
    pub fn list(self, table: &GroupTable) -> Result<Cow<'a, [Transaction]>, Refusal> {
        match self {
            Handed::List(list) => Ok(list.into()),
            Handed::Four(bytes) => Ok(decode(table, bytes, PLAIN)?.into()),
            Handed::Eight(bytes) => Ok(decode(table, bytes, LATER)?.into()),
        }
    }
}

pub fn write_commands(commands: &[Command], room: &mut [u8]) {
    for (c, place) in commands.iter().zip(room.chunks_exact_mut(8)) {
        write_command(c.cycle, c.kind, c.bank, c.transaction, place).expect("a place has 8 bytes");
    }
}
