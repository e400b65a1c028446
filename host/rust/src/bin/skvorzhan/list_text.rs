//! A list of transactions as text, a line each: `read START BI BC`, `write START BI BC` or `refresh`, and behind it `at ARRIVAL` where it arrives
//! later. If any line has an arrival, all are records of 8 bytes, and those without one arrive at cycle 0; else all are records of 4.
//!
//! Whether a transaction is in range the proved calls say, so a type may be any number that a byte holds, and a refresh may be followed by three
//! numbers, as the others are.

use crate::bad::{shown, Bad};
use crate::text::{lines, number, Line};
use skvorzhan::Transaction;

const TYPES: [&str; 3] = ["read", "write", "refresh"];
const REFRESH: u8 = 2;

/// A list's bytes, and which records they are.
#[derive(Debug, Clone, PartialEq, Eq)]
pub struct List {
    pub bytes: Vec<u8>,
    /// Records of 8 bytes, with an arrival.
    pub later: bool,
    /// Of each record, where it was text.
    pub lines: Vec<usize>,
}

pub fn read(file: &str, text: &str) -> Result<List, Bad> {
    let mut all = Vec::new();
    let mut numbers = Vec::new();
    for line in lines(file, text) {
        all.push(transaction(&line)?);
        numbers.push(line.number);
    }
    let later = all.iter().any(|(_, arrival)| arrival.is_some());
    let mut bytes = Vec::new();
    for (four, arrival) in all {
        bytes.extend(four);
        if later {
            bytes.extend(arrival.unwrap_or(0).to_le_bytes());
        }
    }
    Ok(List {
        bytes,
        later,
        lines: numbers,
    })
}

fn transaction(line: &Line) -> Result<([u8; 4], Option<u32>), Bad> {
    let kind = kind(line.words[0]).map_err(|what| line.bad(what))?;
    let mut four = [kind, 0, 0, 0];
    let alone = kind == REFRESH && matches!(line.words.get(1), None | Some(&"at"));
    let mut place = 1;
    if !alone {
        for name in ["a start bank", "BI", "BC"] {
            four[place] = line.number(place, name, u8::MAX.into())? as u8;
            place += 1;
        }
    }
    let arrival = match line.words.get(place) {
        None => return Ok((four, None)),
        Some(&"at") => line.number(place + 1, "an arrival", u32::MAX)?,
        Some(word) => {
            return Err(line.bad(format!(
                "expected `at ARRIVAL` or the line's end, not {}",
                shown(word)
            )))
        }
    };
    line.ends_after(place + 2, "at ARRIVAL")?;
    Ok((four, Some(arrival)))
}

fn kind(word: &str) -> Result<u8, String> {
    let named = TYPES
        .iter()
        .position(|name| name.eq_ignore_ascii_case(word));
    match named {
        Some(kind) => Ok(kind as u8),
        None => number(word, "", u8::MAX.into())
            .map(|kind| kind as u8)
            .map_err(|_| {
                let found = shown(word);
                format!("expected a type, read, write, refresh or a number 0 to 255, not {found}")
            }),
    }
}

/// The text of whole records; none where a record is cut.
pub fn write(bytes: &[u8], later: bool) -> Option<String> {
    let size = if later { 8 } else { 4 };
    if bytes.len() % size != 0 {
        return None;
    }
    let records = bytes.chunks(size);
    let lines = records.map(|record| format!("{}\n", line(record)));
    Some(lines.collect())
}

fn line(record: &[u8]) -> String {
    let four = &record[..4];
    let mut line = words(four);
    if let [a, b, c, d] = record[4..] {
        let arrival = u32::from_le_bytes([a, b, c, d]);
        line.push_str(&format!(" at {arrival}"));
    }
    line
}

fn words(four: &[u8]) -> String {
    if four == [REFRESH, 0, 0, 0] {
        return TYPES[usize::from(REFRESH)].to_string();
    }
    let kind = TYPES.get(usize::from(four[0]));
    let kind = kind.map_or_else(|| four[0].to_string(), |name| name.to_string());
    format!("{kind} {} {} {}", four[1], four[2], four[3])
}

/// A transaction that a call has read, in the words of its text.
pub fn transaction_text(x: &Transaction) -> String {
    let line = words(&[x.kind, x.start, x.bi, x.bc]);
    match x.arrival {
        0 => line,
        arrival => format!("{line} at {arrival}"),
    }
}
