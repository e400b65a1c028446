//! A case, and its line.

use crate::desk::{judge, judge_pattern, PatternVerdict, Refusal, Verdict};
use crate::stored::{self, Bytes};

pub const JUDGE: u8 = 1;
pub const JUDGE_PATTERN: u8 = 2;

pub struct Case<'a> {
    pub call: u8,
    pub expected: u16,
    pub table: &'a [u8],
    length: u32,
    pub bytes: &'a [u8],
}

pub fn lines(input: &[u8]) -> String {
    stored::lines(input, first_case, |case| line(case) + "\n")
}

/// The first case, unless the input is cut short within it.
pub fn first_case<'a>(rest: &mut Bytes<'a>) -> Option<Case<'a>> {
    let (call, expected, length) = (rest.u8()?, rest.u16()?, rest.u32()?);
    let (t, n) = (rest.u8()?, rest.u16()?);
    Some(Case {
        call,
        expected,
        table: rest.take(t.into())?,
        length,
        bytes: rest.take(n.into())?,
    })
}

pub fn line(case: &Case) -> String {
    match case.call {
        JUDGE => told("judge", schedule_line(case)),
        JUDGE_PATTERN => told("pattern", pattern_line(case)),
        _ => "case".to_string(),
    }
}

fn schedule_line(case: &Case) -> Result<String, Refusal> {
    let (edition, verdict) = judge(case.expected, case.table, case.bytes)?;
    let verdict = match verdict {
        Verdict::Accepted => "accepted".to_string(),
        Verdict::Broken { rule, record } => format!("rule {rule} record {record}"),
    };
    Ok(format!("edition {edition} {verdict}"))
}

fn pattern_line(case: &Case) -> Result<String, Refusal> {
    let (edition, verdict) = judge_pattern(case.expected, case.table, case.bytes, case.length)?;
    let verdict = match verdict {
        PatternVerdict::Accepted => "accepted".to_string(),
        PatternVerdict::Broken { rule, copy, record } => {
            format!("rule {rule} copy {copy} record {record}")
        }
    };
    Ok(format!("edition {edition} {verdict}"))
}

fn told(name: &str, answer: Result<String, Refusal>) -> String {
    match answer {
        Ok(line) => format!("{name} {line}"),
        Err(r) => format!("{name} {r}"),
    }
}
