//! The command.

use super::refusal::{refused, Refusal};

#[derive(Debug, Clone, Copy, PartialEq, Eq)]
pub struct Command {
    pub cycle: u32,
    /// 0 ACT, 1 RD, 2 RDA, 3 WR, 4 WRA, 5 REF; "any 8 bytes are a readable command", so any other number too.
    pub kind: u8,
    pub bank: u8,
    pub transaction: u16,
}

impl Command {
    /// Of a record's 8 bytes.
    pub fn of(record: &[u8]) -> Command {
        Command {
            cycle: u32::from_le_bytes([record[0], record[1], record[2], record[3]]),
            kind: record[4],
            bank: record[5],
            transaction: u16::from_le_bytes([record[6], record[7]]),
        }
    }
}

pub fn read_command(bytes: &[u8]) -> Result<Command, Refusal> {
    if bytes.len() != 8 {
        return refused(7);
    }
    Ok(Command::of(bytes))
}

/// Those of all whole records.
pub fn commands_of(bytes: &[u8]) -> Vec<Command> {
    bytes.chunks_exact(8).map(Command::of).collect()
}

/// The one writer whose room may be greater than the record: what is beyond stays as it stood. Answers edition 0.
pub fn write_command(
    cycle: u32,
    kind: u8,
    bank: u8,
    transaction: u16,
    room: &mut [u8],
) -> Result<u16, Refusal> {
    if room.len() < 8 {
        return refused(5);
    }
    room[..4].copy_from_slice(&cycle.to_le_bytes());
    room[4] = kind;
    room[5] = bank;
    room[6..8].copy_from_slice(&transaction.to_le_bytes());
    Ok(0)
}
