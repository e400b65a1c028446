//! A case, and its lines.

use super::controller::{numbers, read};
use crate::desk::*;
use crate::listing::{command_lines, schedule_lines};
use crate::records::{LATER, PLAIN};
use crate::stored::{self, Bytes};

pub const BUILD: u8 = 1;
pub const RUN: u8 = 2;
pub const BOUND: u8 = 3;
pub const BUILD_LATER: u8 = 4;
pub const RUN_LATER: u8 = 5;

pub fn lines(input: &[u8]) -> String {
    stored::lines(input, first_case, |case| match told(case) {
        (name, Ok(lines)) => format!("{name} {lines}"),
        (name, Err(r)) => format!("{name} {r}\n"),
    })
}

/// What each call is given, and before it all of them: the expected edition and the table.
pub struct Case<'a> {
    pub expected: u16,
    pub table: &'a [u8],
    pub asked: Asked<'a>,
}

pub enum Asked<'a> {
    Build(Build<'a>),
    Run(Run<'a>),
    Bound(u8, u8),
}

pub struct Build<'a> {
    pub of_record: usize,
    pub room: usize,
    pub slots: usize,
    pub list: &'a [u8],
}

pub struct Run<'a> {
    pub of_record: usize,
    pub count: u32,
    pub room: usize,
    pub state: Controller,
    pub list: &'a [u8],
}

/// None for no call and for a case cut short.
pub fn first_case<'a>(rest: &mut Bytes<'a>) -> Option<Case<'a>> {
    let (call, expected) = (rest.u8()?, rest.u16()?);
    let t = rest.u8()?.into();
    let of_record = match call {
        BUILD_LATER | RUN_LATER => LATER,
        _ => PLAIN,
    };
    let (table, asked) = match call {
        BUILD | BUILD_LATER => {
            let (room, slots) = (rest.u16()?.into(), rest.u16()?.into());
            let n = rest.u16()?.into();
            let (table, list) = (rest.take(t)?, rest.take(n)?);
            let build = Build {
                of_record,
                room,
                slots,
                list,
            };
            (table, Asked::Build(build))
        }
        RUN | RUN_LATER => {
            let (count, room) = (rest.u32()?, rest.u16()?.into());
            let n = rest.u16()?.into();
            let state = read(rest)?;
            let (table, list) = (rest.take(t)?, rest.take(n)?);
            let run = Run {
                of_record,
                count,
                room,
                state,
                list,
            };
            (table, Asked::Run(run))
        }
        BOUND => {
            let (bi, bc) = (rest.u8()?, rest.u8()?);
            (rest.take(t)?, Asked::Bound(bi, bc))
        }
        _ => return None,
    };
    Some(Case {
        expected,
        table,
        asked,
    })
}

/// The call's name, and the rest of its first line with all that follow, or its refusal.
pub fn told(case: &Case) -> (&'static str, Result<String, Refusal>) {
    let (expected, table) = (case.expected, case.table);
    match &case.asked {
        Asked::Build(b) => {
            let lines = schedule_lines(b.of_record, expected, table, b.list, b.room, b.slots);
            (plain_or(b.of_record, "build", "build_later"), lines)
        }
        Asked::Run(r) => {
            let lines = run_lines(r, expected, table);
            (plain_or(r.of_record, "run", "run_later"), lines)
        }
        Asked::Bound(bi, bc) => {
            let line = |(edition, cycles)| format!("edition {edition} {cycles}\n");
            ("bound", bound(expected, table, *bi, *bc).map(line))
        }
    }
}

/// For transactions of so many bytes.
pub fn plain_or<T>(of_record: usize, plain: T, later: T) -> T {
    match of_record {
        PLAIN => plain,
        _ => later,
    }
}

/// A call that runs.
pub type Call = fn(&mut Controller, u16, &[u8], &[u8], u32, &mut [u8]) -> Result<Ran, Refusal>;

/// The controller's numbers stand in the last line, in the order of its bytes.
fn run_lines(r: &Run, expected: u16, table: &[u8]) -> Result<String, Refusal> {
    let run = plain_or(r.of_record, run_bytes as Call, run_later_bytes);
    let (mut c, mut room) = (r.state.clone(), vec![0; r.room]);
    let told = run(&mut c, expected, table, r.list, r.count, &mut room)?;
    let (edition, count, cycles) = (told.edition, told.commands, told.cycles);
    let mut out = format!("edition {edition} commands {count} cycles {cycles}\n");
    out.push_str(&command_lines(&room, count));
    let words: Vec<String> = numbers(&mut c).iter().map(|(n, _)| n.to_string()).collect();
    Ok(out + &words.join(" ") + "\n")
}
