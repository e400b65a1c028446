//! The calls that judge what is handed in, and those that look for a pattern and tell the bound.

use super::admit::{admit, write_commands, Handed};
use crate::records::{Refusal, Transaction, EDITION};
use crate::rules::{PatternVerdict, Verdict};
use crate::serves::Served;
use crate::shortest::Asked;
use crate::{capture, rules, scheduler, serves, shortest};

/// Numbers 1, 2, 10 and 7. Answers the edition and the verdict.
pub fn judge(expected: u16, table: &[u8], bytes: &[u8]) -> Result<(u16, Verdict), Refusal> {
    let table = admit(expected, table)?;
    Ok((table[EDITION], rules::judge(&table, bytes)?))
}

/// Numbers 1, 2, 10, 7 and 8. Answers the edition and the verdict, which names the copy.
pub fn judge_pattern(
    expected: u16,
    table: &[u8],
    bytes: &[u8],
    length: u32,
) -> Result<(u16, PatternVerdict), Refusal> {
    let table = admit(expected, table)?;
    let verdict = rules::judge_pattern(&table, bytes, length)?;
    Ok((table[EDITION], verdict))
}

/// What `judge_capture` answers: how many commands were written, and the verdict on them.
#[derive(Debug, Clone, Copy, PartialEq, Eq)]
pub struct Captured {
    pub edition: u16,
    pub commands: u32,
    pub verdict: Verdict,
}

/// Numbers 1, 2, 10, 7, 11 and 5. "The capture is written as command records .. and judged; a verdict against it is an answer and not a
/// refused call, and leaves them written."
pub fn judge_capture(
    expected: u16,
    table: &[u8],
    bytes: &[u8],
    room: &mut [u8],
) -> Result<Captured, Refusal> {
    let table = admit(expected, table)?;
    let commands = capture::commands(&table, bytes, room.len())?;
    write_commands(&commands, room);
    Ok(Captured {
        edition: table[EDITION],
        commands: commands.len() as u32,
        verdict: rules::judge(&table, &room[..8 * commands.len()])?,
    })
}

fn answered(
    expected: u16,
    table: &[u8],
    list: Handed,
    bytes: &[u8],
) -> Result<(u16, Served), Refusal> {
    let table = admit(expected, table)?;
    let list = list.list(&table)?;
    scheduler::check_list(&table, &list, scheduler::MOST_TRANSACTIONS)?;
    Ok((table[EDITION], serves::serves(&table, &list, bytes)?))
}

/// A call for each form of the list.
macro_rules! serve {
    ($($(#[$said:meta])* $name:ident: $form:ident($list:ty);)*) => {$(
        $(#[$said])*
        pub fn $name(
            expected: u16,
            table: &[u8],
            list: $list,
            bytes: &[u8],
        ) -> Result<(u16, Served), Refusal> {
            answered(expected, table, Handed::$form(list), bytes)
        }
    )*};
}

serve! {
    /// Numbers 1, 2, 10, 3, 4 and 7. Answers the edition, and whether the schedule serves the list.
    serves: List(&[Transaction]);
    /// The same from the transactions' bytes.
    serves_bytes: Four(&[u8]);
    /// The same from records of 8 bytes.
    serves_later_bytes: Eight(&[u8]);
}

/// What `shortest_pattern` answers: the least length, and how many records were written.
#[derive(Debug, Clone, Copy, PartialEq, Eq)]
pub struct Shortest {
    pub edition: u16,
    pub length: u32,
    pub commands: u32,
}

/// Numbers 1, 2, 10, 4, 5 and 13: "give the least L for which some pattern .. is accepted by the pattern judge", up to the greatest length.
pub fn shortest_pattern(
    expected: u16,
    table: &[u8],
    kind: u8,
    bi: u8,
    bc: u8,
    most: u32,
    room: &mut [u8],
) -> Result<Shortest, Refusal> {
    let table = admit(expected, table)?;
    let asked = Asked { kind, bi, bc, most };
    let (length, commands) = shortest::shortest(&table, &asked, room.len())?;
    write_commands(&commands, room);
    Ok(Shortest {
        edition: table[EDITION],
        length,
        commands: commands.len() as u32,
    })
}

/// Numbers 1, 2, 10 and 4: "the bound gives 4, position 0, for BI or BC outside 1 to 16 or BI above banks". Answers the edition and
/// the bound.
pub fn bound(expected: u16, table: &[u8], bi: u8, bc: u8) -> Result<(u16, u64), Refusal> {
    let table = admit(expected, table)?;
    Ok((table[EDITION], scheduler::bound(&table, bi, bc)?))
}
