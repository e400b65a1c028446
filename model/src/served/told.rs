//! A case, and its line.

use crate::desk::{serves_bytes, serves_later_bytes, Refusal, Served};
use crate::stored::{self, Bytes};

pub const PLAIN: u8 = 1;
pub const LATER: u8 = 2;

pub struct Case<'a> {
    call: u8,
    expected: u16,
    table: &'a [u8],
    list: &'a [u8],
    schedule: &'a [u8],
}

pub fn lines(input: &[u8]) -> String {
    stored::lines(input, first_case, |case| line(case) + "\n")
}

/// The first case, unless the input is cut short within it.
pub fn first_case<'a>(rest: &mut Bytes<'a>) -> Option<Case<'a>> {
    let (call, expected) = (rest.u8()?, rest.u16()?);
    let (t, l, n) = (rest.u8()?, rest.u16()?, rest.u16()?);
    Some(Case {
        call,
        expected,
        table: rest.take(t.into())?,
        list: rest.take(l.into())?,
        schedule: rest.take(n.into())?,
    })
}

pub fn line(case: &Case) -> String {
    let (expected, table, list) = (case.expected, case.table, case.list);
    match case.call {
        PLAIN => told(serves_bytes(expected, table, list, case.schedule)),
        LATER => told(serves_later_bytes(expected, table, list, case.schedule)),
        _ => "case".to_string(),
    }
}

fn told(answer: Result<(u16, Served), Refusal>) -> String {
    let (edition, served) = match answer {
        Ok(told) => told,
        Err(refusal) => return refusal.to_string(),
    };
    match served {
        Served::Serves => format!("edition {edition} serves"),
        Served::Broken { rule, record } => format!("edition {edition} rule {rule} record {record}"),
        Served::AtFault { transaction } => format!("edition {edition} transaction {transaction}"),
    }
}
