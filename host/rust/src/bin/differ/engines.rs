//! The two engines against each other: what the second one's call must leave is what the plain one's leaves, of the same input in copies of the
//! same buffers.

use crate::archive::Archive;
use crate::case::{arrival, Case};
use crate::compare::By;
use crate::expected::{expected, refused, Outcome};
use crate::trap;

/// The plain engine is to walk no further than this; of some cases so far.
const SHORT: u32 = 100_000;
const LONG: u32 = 3_000_000;

/// By the plain engine, or, where that would walk for long, by the model's own second one.
pub fn right(archive: &mut Archive, case: &Case) -> Result<(Outcome, By), String> {
    trap::in_call(case, trap::UNKNOWN);
    let first = archive.call(case, false)?;
    let most = if case.filling % 64 == 0 { LONG } else { SHORT };
    if walk(case, &first) > most {
        return Ok((expected(case, &archive.noise), By::Model));
    }
    let plain = case.by(false);
    trap::in_call(&plain, trap::UNKNOWN);
    Ok((archive.call(&plain, false)?, By::PlainEngine))
}

/// The cycles that the plain engine tries: those that a run tells, and for a build those up to the last arrival, since its work is short.
fn walk(case: &Case, told: &Outcome) -> u32 {
    match &told.answer[..] {
        answer if refused(answer) > 0 => 0,
        answer if case.call.runs() => answer[4],
        _ => case.list().last().map_or(0, arrival),
    }
}
