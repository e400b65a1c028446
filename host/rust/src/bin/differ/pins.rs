//! What an accepted schedule, pattern or capture, or a built schedule, or the shortest pattern, does on the data pins (request 8).

use model::pins::{clash, Clash};

use crate::case::{Call, Case};
use crate::expected::Outcome;

/// Longer ones are left out: each pair of a read and a later write is looked at.
const MOST: usize = 8 * 200;

/// Whether the call's commands were looked at, and what two of them do that none may.
pub fn looked_at(case: &Case, told: &Outcome) -> (bool, Option<Clash>) {
    let answer = &told.answer;
    let (commands, length, copies) = match case.call {
        Call::Judge if answer[3] == 0 => (&case.bytes[..], 0, 1),
        Call::JudgePattern if answer[3] == 0 => (&case.bytes[..], case.values[0], 3),
        Call::JudgeCapture if answer[4] == 0 => (&told.room[..8 * answer[3] as usize], 0, 1),
        call if call.serves() && answer[4] == 0 => (&case.schedule[..], 0, 1),
        Call::ShortestPattern => (&told.room[..8 * answer[4] as usize], answer[3], 3),
        call if call.builds() => (&told.room[..8 * answer[3] as usize], 0, 1),
        _ => return (false, None),
    };
    if commands.is_empty() || commands.len() > MOST {
        return (false, None);
    }
    (true, clash(&case.table, commands, length, copies))
}
