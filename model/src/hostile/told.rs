//! A case, and its line.

use crate::desk::*;
use crate::stored::{self, Bytes};

pub const READ_TABLE: u8 = 1;
pub const WRITE_TABLE: u8 = 2;
pub const READ_TRANSACTION: u8 = 3;
pub const WRITE_TRANSACTION: u8 = 4;
pub const READ_COMMAND: u8 = 5;
pub const WRITE_COMMAND: u8 = 6;
pub const WRITE_GROUP_TABLE: u8 = 7;
pub const READ_LATER: u8 = 8;
pub const WRITE_LATER: u8 = 9;

/// The longest buffer that a case can have.
pub const ROOM: usize = 64;

pub fn lines(input: &[u8]) -> String {
    let text = |case: &(u8, &[u8])| line(case).unwrap_or_else(|| "case".to_string()) + "\n";
    stored::lines(input, first_case, text)
}

/// The call of the first case and its bytes, unless the input is cut short within it.
fn first_case<'a>(rest: &mut Bytes<'a>) -> Option<(u8, &'a [u8])> {
    let (call, n) = (rest.u8()?, rest.u8()?);
    Some((call, rest.take(n.into())?))
}

fn line(&(call, bytes): &(u8, &[u8])) -> Option<String> {
    match call {
        READ_TABLE => Some(reader(
            "read_table",
            read_table(bytes).map(|t| t.map(u32::from)),
        )),
        READ_TRANSACTION => {
            let numbers = |x: Transaction| x.four().map(u32::from);
            Some(reader(
                "read_transaction",
                read_transaction(bytes).map(numbers),
            ))
        }
        READ_LATER => {
            let numbers = |x: Transaction| {
                let [kind, start, bi, bc] = x.four().map(u32::from);
                [kind, start, bi, bc, x.arrival]
            };
            Some(reader("read_later", read_later(bytes).map(numbers)))
        }
        READ_COMMAND => {
            let numbers =
                |c: Command| [c.cycle, c.kind.into(), c.bank.into(), c.transaction.into()];
            Some(reader("read_command", read_command(bytes).map(numbers)))
        }
        WRITE_TABLE => {
            let (v, mut room) = values_and_room(bytes, 32)?;
            let t: Table = std::array::from_fn(|i| u16::from_le_bytes([v[2 * i], v[2 * i + 1]]));
            let answer = write_table(t, &mut room);
            Some(writer("write_table", answer, &room))
        }
        WRITE_GROUP_TABLE => {
            let (v, mut room) = values_and_room(bytes, 40)?;
            let t = std::array::from_fn(|i| u16::from_le_bytes([v[2 * i], v[2 * i + 1]]));
            let answer = write_group_table(t, &mut room);
            Some(writer("write_group_table", answer, &room))
        }
        WRITE_TRANSACTION => {
            let (v, mut room) = values_and_room(bytes, 4)?;
            let answer = write_transaction(Transaction::of(v), &mut room);
            Some(writer("write_transaction", answer, &room))
        }
        WRITE_LATER => {
            let (v, mut room) = values_and_room(bytes, 8)?;
            let answer = write_later(Transaction::of(v), &mut room);
            Some(writer("write_later", answer, &room))
        }
        WRITE_COMMAND => {
            let (v, mut room) = values_and_room(bytes, 8)?;
            let cycle = u32::from_le_bytes([v[0], v[1], v[2], v[3]]);
            let transaction = u16::from_le_bytes([v[6], v[7]]);
            let answer = write_command(cycle, v[4], v[5], transaction, &mut room);
            Some(writer("write_command", answer, &room))
        }
        _ => None,
    }
}

fn values_and_room(bytes: &[u8], size: usize) -> Option<(&[u8], Vec<u8>)> {
    let (values, room) = (bytes.get(..size)?, &bytes[size..]);
    (room.len() <= ROOM).then(|| (values, room.to_vec()))
}

fn reader<const N: usize>(name: &str, answer: Result<[u32; N], Refusal>) -> String {
    match answer {
        Ok(numbers) => numbers
            .iter()
            .fold(name.to_string(), |line, n| format!("{line} {n}")),
        Err(r) => format!("{name} {r}"),
    }
}

fn writer(name: &str, answer: Result<u16, Refusal>, room: &[u8]) -> String {
    let told = match answer {
        Ok(edition) => format!("edition {edition}"),
        Err(r) => r.to_string(),
    };
    let hex: String = room.iter().map(|b| format!("{b:02x}")).collect();
    let hex = if hex.is_empty() { "-" } else { &hex };
    format!("{name} {told} {hex}")
}
