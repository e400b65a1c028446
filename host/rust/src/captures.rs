//! The analyser's captures.

use crate::raw::*;
use crate::{told, Refusal, Verdict};

#[derive(Debug, Clone, Copy, PartialEq, Eq)]
pub struct Captured {
    pub edition: u32,
    pub commands: u32,
    /// On the commands as a schedule: the copy is 0.
    pub verdict: Verdict,
}

/// Refused with 1, 2, 10, 7, 11 and 5. Writes the capture's commands, and answers the verdict on them, which leaves them written.
pub fn judge_capture(
    expected: u16,
    table: &[u8],
    capture: &[u8],
    commands: &mut [u8],
) -> Result<Captured, Refusal> {
    let a = call!(skv_judge_capture(expected, &table, &capture, &mut commands));
    let captured = Captured {
        edition: a.edition,
        commands: a.count,
        verdict: Verdict::of(a.rule, 0, a.record),
    };
    told(a.refused, a.position, a.edition, captured)
}
