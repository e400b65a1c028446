//! A pattern's broken record: the copies up to it laid out as one schedule, so that the judge of schedules can be asked about it.

use crate::desk::{Table, MOST_RECORDS};
use crate::near::why;
use skvorzhan::{Command, Verdict};

/// Where the verdict on a pattern stands. Copies count from 1.
#[derive(Debug, Clone, Copy)]
pub struct Broken {
    pub rule: u32,
    pub copy: u32,
    pub record: usize,
}

/// The same of `near` as copy and record, and of `kept` and `legal` in cycles from the first copy's cycle 0.
#[derive(Debug, Clone)]
pub struct WhyInCopy {
    pub near: Option<(u32, usize)>,
    pub kept: Option<u64>,
    pub legal: Option<u64>,
    pub open: Vec<u8>,
}

/// None where the copies are too many records, or too many cycles, for a schedule.
pub fn why_in_copy(
    table: &Table,
    pattern: &[Command],
    length: u32,
    broken: Broken,
) -> Option<WhyInCopy> {
    // Where the first copies don't matter, fewer are as good, and may fit: the judge says whether they are.
    let laid_out = (1..=broken.copy).find_map(|first| {
        let all = copies(pattern, length, first, broken)?;
        let told = table.judge(&all).ok()?.1;
        let place = (broken.copy - first) as usize * pattern.len() + broken.record;
        let same = matches!(told, Verdict::Broken { rule, record, .. } if rule == broken.rule && record as usize == place);
        same.then_some((first, all, place))
    });
    let (first, all, place) = laid_out?;
    let why = why(table, &all, broken.rule, place);
    let copy_of = |place: usize| {
        let copy = first + (place / pattern.len()) as u32;
        (copy, place % pattern.len())
    };
    let left_out = u64::from(length) * u64::from(first - 1);
    let in_copies = |cycle: u32| left_out + u64::from(cycle);
    Some(WhyInCopy {
        near: why.near.map(copy_of),
        kept: why.kept.map(in_copies),
        legal: why.legal.map(in_copies),
        open: why.open,
    })
}

/// The copies from `first` to the broken one, of that one what stands up to the broken record; none where it is no schedule's size.
fn copies(pattern: &[Command], length: u32, first: u32, broken: Broken) -> Option<Vec<Command>> {
    let whole = (broken.copy - first) as usize;
    let rest = pattern.len().min(broken.record + 1);
    let count = whole.checked_mul(pattern.len())?.checked_add(rest)?;
    if count > MOST_RECORDS {
        return None;
    }
    let mut all = Vec::with_capacity(count);
    for n in 0..=whole {
        let shift = u32::try_from(n).ok()?.checked_mul(length)?;
        let of_copy = if n < whole { pattern.len() } else { rest };
        for c in &pattern[..of_copy] {
            let cycle = c.cycle.checked_add(shift)?;
            all.push(Command { cycle, ..*c });
        }
    }
    Some(all)
}
