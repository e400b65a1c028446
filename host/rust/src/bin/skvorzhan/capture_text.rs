//! An analyser's capture as CSV: a first row of column names, then a row for each record. The time is a 16-bit stamp, which goes into the capture as it
//! is, or a cycle, of which stamp and ticks are made. `TICK`, `NOP` and `DES` are records without a command.

use crate::bad::{shown, Bad};
use crate::csv::{rows, Row};
use crate::text::{kind, kind_text, number};
use skvorzhan::CaptureRecord;

const TICK: CaptureRecord = CaptureRecord {
    stamp: 0,
    kind: 255,
    bank: 0,
};
const REF: u8 = 5;

/// What analysers call a cycle without a command; whatever stands in its column of the bank is none.
const IDLE: [&str; 2] = ["NOP", "DES"];

/// The greatest step from a record to the next: a gap must not reach 65,536.
const STEP: u64 = 65_535;

#[derive(Debug, Clone, Copy, PartialEq, Eq)]
pub enum Time {
    Stamps,
    Cycles,
}

/// Which columns hold what.
#[derive(Debug, Clone)]
pub struct Columns {
    /// Without a name: `cycle` or `stamp`, and the time is what that says.
    pub time: Option<(String, Time)>,
    pub command: String,
    pub bank: String,
    pub separator: char,
}

impl Default for Columns {
    fn default() -> Columns {
        Columns {
            time: None,
            command: "command".to_string(),
            bank: "bank".to_string(),
            separator: ',',
        }
    }
}

#[derive(Debug, Clone, Default, PartialEq, Eq)]
pub struct Capture {
    pub records: Vec<CaptureRecord>,
    /// Of each record, where it was text; of a tick that was put in, the line that it stands before.
    pub lines: Vec<usize>,
}

struct Places {
    time: usize,
    form: Time,
    command: usize,
    bank: usize,
}

pub fn read(file: &str, text: &str, columns: &Columns) -> Result<Capture, Bad> {
    let mut all = rows(file, text, columns.separator);
    let header = match all.next() {
        Some(row) => row?,
        None => {
            return Err(Bad::file(
                file,
                "expected a row of column names; there is nothing",
            ))
        }
    };
    let places = places(&header, columns).map_err(|what| Bad::line(file, header.line, what))?;
    let mut capture = Capture::default();
    let mut before = None;
    for row in all {
        let row = row?;
        let bad = |what| Bad::line(file, row.line, what);
        let (kind, bank) = command(&row, &places).map_err(bad)?;
        match places.form {
            Time::Stamps => {
                let stamp = time(&row, &places, "a stamp", u16::MAX.into()).map_err(bad)?;
                let stamp = stamp as u16;
                capture.records.push(CaptureRecord { stamp, kind, bank });
                capture.lines.push(row.line);
            }
            // The ticks that are needed are put in, so those that are there are not.
            Time::Cycles if (kind, bank) == (TICK.kind, TICK.bank) => {
                time(&row, &places, "a cycle", u32::MAX).map_err(bad)?;
            }
            Time::Cycles => {
                let cycle = time(&row, &places, "a cycle", u32::MAX).map_err(bad)?;
                go_on(&mut capture, before, cycle, row.line).map_err(bad)?;
                let stamp = cycle as u16;
                capture.records.push(CaptureRecord { stamp, kind, bank });
                capture.lines.push(row.line);
                before = Some(cycle);
            }
        }
    }
    Ok(capture)
}

/// Puts ticks in until the step to the cycle is short enough. The same cycle again is the calls' to refuse; a lower one no stamp can say.
fn go_on(
    capture: &mut Capture,
    before: Option<u32>,
    cycle: u32,
    line: usize,
) -> Result<(), String> {
    if let Some(last) = before.filter(|last| cycle < *last) {
        return Err(format!(
            "expected a cycle not below that of the row before it, {last}; it is {cycle}"
        ));
    }
    // The first record's own stamp is its cycle, so the first step is one from cycle 0.
    let mut at = u64::from(before.unwrap_or(0));
    while u64::from(cycle) - at > STEP {
        at += STEP;
        let stamp = at as u16;
        capture.records.push(CaptureRecord { stamp, ..TICK });
        capture.lines.push(line);
    }
    Ok(())
}

fn places(header: &Row, columns: &Columns) -> Result<Places, String> {
    let find = |name: &str| {
        let same = |field: &String| field.eq_ignore_ascii_case(name);
        header.fields.iter().position(same)
    };
    let needed = |name: &str, option: &str| {
        let all = shown(&header.fields.join(" "));
        find(name).ok_or_else(|| {
            format!("expected a column named `{name}` ({option} gives another name); the first row is {all}")
        })
    };
    let (time, form) = match &columns.time {
        Some((name, form)) => (needed(name, "--time")?, *form),
        None => match (find("cycle"), find("stamp")) {
            (Some(place), None) => (place, Time::Cycles),
            (None, Some(place)) => (place, Time::Stamps),
            _ => return Err("expected one column named `cycle` or one named `stamp`, or --time COLUMN with --cycles or --stamps".to_string()),
        },
    };
    Ok(Places {
        time,
        form,
        command: needed(&columns.command, "--command")?,
        bank: needed(&columns.bank, "--bank")?,
    })
}

fn field<'a>(row: &'a Row, place: usize, name: &str) -> Result<&'a str, String> {
    let field = row.fields.get(place).map(String::as_str);
    field.ok_or_else(|| {
        let count = row.fields.len();
        format!(
            "expected {name} in column {}; the row has {count}",
            place + 1
        )
    })
}

fn time(row: &Row, places: &Places, name: &str, most: u32) -> Result<u32, String> {
    number(field(row, places.time, name)?, name, most)
}

/// The kind and the bank; the bank of a REF and of a tick may be left out.
fn command(row: &Row, places: &Places) -> Result<(u8, u8), String> {
    let name = field(row, places.command, "a command")?;
    if IDLE.iter().any(|idle| name.eq_ignore_ascii_case(idle)) {
        return Ok((TICK.kind, TICK.bank));
    }
    let tick = name.eq_ignore_ascii_case("TICK");
    let kind = if tick { TICK.kind } else { kind(name)? };
    let bank = match field(row, places.bank, "a bank") {
        Ok("") | Err(_) if tick || kind == REF => 0,
        bank => number(bank?, "a bank", u8::MAX.into())? as u8,
    };
    if tick && bank != TICK.bank {
        return Err(format!("expected bank 0 or none for a TICK, not `{bank}`"));
    }
    Ok((kind, bank))
}

/// As CSV with stamps.
pub fn write(records: &[CaptureRecord]) -> String {
    let rows = records.iter().map(|r| {
        let tick = (r.kind, r.bank) == (TICK.kind, TICK.bank);
        let name = if tick {
            "TICK".to_string()
        } else {
            kind_text(r.kind)
        };
        format!("{},{name},{}\n", r.stamp, r.bank)
    });
    format!("stamp,command,bank\n{}", rows.collect::<String>())
}
