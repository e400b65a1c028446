//! Request 6, the analyser trace: the capture record's reader and writer, and a capture's commands.
//!
//! The true cycles are counted by the rounds of the analyser's counter: a stamp below the one before it stands in the next round of
//! 65,536 cycles.

use crate::records::{refused, refused_by, Command, GroupTable, Refusal};
use crate::rules::MOST_RECORDS;

/// "Callers send a capture in 4-byte records: a 16-bit stamp, kind, bank."
#[derive(Debug, Clone, Copy, PartialEq, Eq)]
pub struct CaptureRecord {
    pub stamp: u16,
    pub kind: u8,
    pub bank: u8,
}

impl CaptureRecord {
    /// "Kind 255 with bank 0 is a tick without a command."
    pub fn is_tick(&self) -> bool {
        (self.kind, self.bank) == (255, 0)
    }
}

/// Any 4 bytes are a capture record, as any 8 are a command.
pub fn read_capture_record(bytes: &[u8]) -> Result<CaptureRecord, Refusal> {
    match *bytes {
        [low, high, kind, bank] => Ok(CaptureRecord {
            stamp: u16::from_le_bytes([low, high]),
            kind,
            bank,
        }),
        _ => refused(7),
    }
}

/// As for a command, the room may be greater than the record. Answers edition 0.
pub fn write_capture_record(
    stamp: u16,
    kind: u8,
    bank: u8,
    room: &mut [u8],
) -> Result<u16, Refusal> {
    if room.len() < 4 {
        return refused(5);
    }
    room[..2].copy_from_slice(&stamp.to_le_bytes());
    room[2..4].copy_from_slice(&[kind, bank]);
    Ok(0)
}

/// "The stamp runs round from 65,535 to 0."
const ROUND: u64 = 65_536;

/// "A true cycle above 4,294,967,295" is refused.
const LAST_CYCLE: u64 = 4_294_967_295;

/// The true cycle of each record, or the lowest that number 11 refuses: "a stamp equal to the one before it, or a true cycle above
/// 4,294,967,295".
pub fn true_cycles(records: &[CaptureRecord]) -> Result<Vec<u64>, usize> {
    let mut rounds = 0;
    let mut cycles = Vec::new();
    for (at, r) in records.iter().enumerate() {
        if at > 0 {
            let before = records[at - 1].stamp;
            if r.stamp == before {
                return Err(at);
            }
            if r.stamp < before {
                rounds += 1;
            }
        }
        let cycle = ROUND * rounds + u64::from(r.stamp);
        if cycle > LAST_CYCLE {
            return Err(at);
        }
        cycles.push(cycle);
    }
    Ok(cycles)
}

/// Numbers 7, 11 and 5: "Number 7 (bytes not a multiple of 4, or over 69,632 records) goes before 11, and 5 (room for the commands)
/// after it." The commands have "ticks dropped, transaction number 0".
pub fn commands(table: &GroupTable, bytes: &[u8], room: usize) -> Result<Vec<Command>, Refusal> {
    if bytes.len() % 4 != 0 || bytes.len() / 4 > MOST_RECORDS {
        return refused_by(table, 7, 0);
    }
    let records: Result<Vec<_>, _> = bytes.chunks_exact(4).map(read_capture_record).collect();
    let records = records?;
    let cycles = match true_cycles(&records) {
        Ok(cycles) => cycles,
        Err(at) => return refused_by(table, 11, at as u32),
    };
    let of_commands = records.iter().zip(cycles).filter(|(r, _)| !r.is_tick());
    let commands: Vec<Command> = of_commands
        .map(|(r, cycle)| Command {
            cycle: cycle as u32,
            kind: r.kind,
            bank: r.bank,
            transaction: 0,
        })
        .collect();
    if room < 8 * commands.len() {
        return refused_by(table, 5, 0);
    }
    Ok(commands)
}
