//! What the calls are lent: the table with the expected edition, a list, commands, a capture; each read from its file, be it text or records.

use crate::bad::Bad;
use crate::capture_text::{self, Capture, Columns};
use crate::command_text::{self, Commands};
use crate::files::{Form, Place};
use crate::list_text::{self, List};
use crate::table_text;
use skvorzhan::{CaptureRecord, Command, Refusal, Verdict};

/// The most commands that a list can ask for, and the most records that a schedule or a capture may have.
pub const MOST_RECORDS: usize = 69_632;

#[derive(Debug, Clone)]
pub struct Table {
    pub expected: u16,
    pub bytes: Vec<u8>,
}

impl Table {
    pub fn judge(&self, commands: &[Command]) -> Result<(u32, Verdict), Refusal> {
        self.judge_bytes(&command_bytes(commands))
    }

    pub fn judge_bytes(&self, schedule: &[u8]) -> Result<(u32, Verdict), Refusal> {
        skvorzhan::judge(self.expected, &self.bytes, schedule)
    }

    /// Edition, banks, B and so on, twenty numbers.
    pub fn numbers(&self) -> Result<[u16; 20], Refusal> {
        skvorzhan::read_table(&self.bytes)
    }
}

pub fn table_bytes(place: &Place) -> Result<Vec<u8>, Bad> {
    match place.form {
        Form::Bytes => place.read(),
        Form::Text => table_text::read(place.name(), &place.read_text()?),
    }
}

/// `later` says of records that they have 8 bytes; a text says it itself.
pub fn list(place: &Place, later: bool) -> Result<List, Bad> {
    match place.form {
        Form::Text => list_text::read(place.name(), &place.read_text()?),
        Form::Bytes => Ok(List {
            bytes: place.read()?,
            later,
            lines: Vec::new(),
        }),
    }
}

/// The bytes as well, since they may end within a record, which the calls refuse.
pub fn commands(place: &Place) -> Result<(Commands, Vec<u8>), Bad> {
    match place.form {
        Form::Text => {
            let read = command_text::read(place.name(), &place.read_text()?)?;
            let bytes = command_bytes(&read.commands);
            Ok((read, bytes))
        }
        Form::Bytes => {
            let bytes = place.read()?;
            let commands = commands_of(&bytes);
            let read = Commands {
                commands,
                ..Commands::default()
            };
            Ok((read, bytes))
        }
    }
}

pub fn capture(place: &Place, columns: &Columns) -> Result<(Capture, Vec<u8>), Bad> {
    match place.form {
        Form::Text => {
            let read = capture_text::read(place.name(), &place.read_text()?, columns)?;
            let bytes = capture_bytes(&read.records);
            Ok((read, bytes))
        }
        Form::Bytes => {
            let bytes = place.read()?;
            let records = capture_of(&bytes);
            let lines = Vec::new();
            Ok((Capture { records, lines }, bytes))
        }
    }
}

/// By the proved writer, which takes any command.
pub fn command_bytes(commands: &[Command]) -> Vec<u8> {
    let mut bytes = vec![0; 8 * commands.len()];
    for (c, room) in commands.iter().zip(bytes.chunks_mut(8)) {
        skvorzhan::write_command(*c, room).expect("there is room for the record");
    }
    bytes
}

/// By the proved reader: every whole record.
pub fn commands_of(bytes: &[u8]) -> Vec<Command> {
    let whole = bytes.chunks_exact(8);
    whole.flat_map(skvorzhan::read_command).collect()
}

pub fn capture_bytes(records: &[CaptureRecord]) -> Vec<u8> {
    let mut bytes = vec![0; 4 * records.len()];
    for (r, room) in records.iter().zip(bytes.chunks_mut(4)) {
        skvorzhan::write_capture_record(*r, room).expect("there is room for the record");
    }
    bytes
}

pub fn capture_of(bytes: &[u8]) -> Vec<CaptureRecord> {
    let whole = bytes.chunks_exact(4);
    whole.flat_map(skvorzhan::read_capture_record).collect()
}
