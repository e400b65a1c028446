//! "The listing program reads standard input, table first and transactions after, with 64 KiB of command room." It takes the expected
//! edition "as two bytes before the table".

use std::fmt::Write;

use crate::desk::{schedule_bytes, schedule_later_bytes, Command, Refusal};
use crate::records::{commands_of, refused, PLAIN};
use crate::rules::NAMES;
use crate::scheduler::MOST_TRANSACTIONS;

/// "64 KiB of command room", in bytes.
pub const ROOM: usize = 65_536;

pub fn listing(input: &[u8]) -> String {
    lines(input).unwrap_or_else(|r| format!("{r}\n"))
}

/// The expected edition, the table and the rest. "Fewer than two get number 1." After them the first 32 bytes are the table, or all where
/// there are fewer.
pub fn headed(input: &[u8]) -> Result<(u16, &[u8], &[u8]), Refusal> {
    if input.len() < 2 {
        return refused(1);
    }
    let expected = u16::from_le_bytes([input[0], input[1]]);
    let rest = &input[2..];
    let (table, rest) = rest.split_at(rest.len().min(32));
    Ok((expected, table, rest))
}

fn lines(input: &[u8]) -> Result<String, Refusal> {
    let (expected, table, list) = headed(input)?;
    schedule_lines(PLAIN, expected, table, list, ROOM, MOST_TRANSACTIONS)
}

/// The lines of a schedule of transactions of so many bytes, built into so much room, with so many places for finishing cycles.
pub fn schedule_lines(
    of_record: usize,
    expected: u16,
    table: &[u8],
    list: &[u8],
    room: usize,
    slots: usize,
) -> Result<String, Refusal> {
    let mut commands = vec![0; room];
    let mut finishes = vec![0; slots];
    let build = match of_record {
        PLAIN => schedule_bytes,
        _ => schedule_later_bytes,
    };
    let told = build(expected, table, list, &mut commands, &mut finishes)?;
    let (edition, count) = (told.edition, told.commands);
    let mut out = format!("edition {edition} commands {count}\n");
    out.push_str(&command_lines(&commands, count));
    for (number, cycle) in finishes[..list.len() / of_record].iter().enumerate() {
        writeln!(out, "finish {number} {cycle}").expect("a string takes it");
    }
    Ok(out)
}

/// One line for each of the first so many commands of the room: `CYCLE KIND BANK TRANSACTION`. A kind without a name is its number.
pub fn command_lines(room: &[u8], count: u32) -> String {
    let line = |c: &Command| {
        let kind = match NAMES.get(usize::from(c.kind)) {
            Some(name) => name.to_string(),
            None => c.kind.to_string(),
        };
        format!("{} {kind} {} {}\n", c.cycle, c.bank, c.transaction)
    };
    commands_of(&room[..8 * count as usize])
        .iter()
        .map(line)
        .collect()
}

#[cfg(test)]
mod tests {
    use super::*;
    use crate::house::*;
    use crate::records::CCD;

    /// "Fewer than two get number 1", and so does a table that is cut short; then 2, 10, and the others.
    #[test]
    fn the_order_of_the_refusals() {
        let a = bytes_of(&TABLE_A);
        let ccd_1 = bytes_of(&with(&[(CCD, 1)]));
        let faulty = [&a[..], &[9]].concat();
        for (expected, rest, told) in [
            (&[][..], &[][..], "refused 1 at 0 edition 0\n"),
            (&[7], &[], "refused 1 at 0 edition 0\n"),
            (&[7, 0], &[], "refused 1 at 0 edition 0\n"),
            (&[8, 0], &a[..31], "refused 1 at 0 edition 0\n"),
            (&[8, 0], &ccd_1, "refused 2 at 0 edition 0\n"),
            (&[0, 0], &ccd_1, "refused 2 at 0 edition 0\n"),
            (&[8, 0], &faulty, "refused 10 at 7 edition 7\n"),
            (&[0, 0], &a, "refused 10 at 7 edition 7\n"),
            (&[0, 7], &a, "refused 10 at 7 edition 7\n"),
            (&[7, 0], &faulty, "refused 3 at 0 edition 7\n"),
            (&[7, 0], &a, "edition 7 commands 0\n"),
        ] {
            assert_eq!(listing(&[expected, rest].concat()), told);
        }
    }
}
