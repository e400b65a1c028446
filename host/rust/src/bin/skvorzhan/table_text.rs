//! A table as text: `record = 32` or `record = 40` first, then each of that record's numbers once, in any order, as `NAME = NUMBER`.
//!
//! Any number that 16 bits hold is taken: whether it is in range the proved calls say. For the same reason the bytes are put together here and
//! not by the proved writer, which would refuse such a table.

use crate::bad::{shown, Bad};
use crate::text::{lines, number, Line};

/// In the order of the record.
pub const NAMES: [&str; 20] = [
    "edition", "banks", "B", "CCD", "RCD", "RP", "RAS", "RC", "RRD", "FAW", "RL", "WL", "RTP",
    "WR", "WTR", "RFC", "groups", "long CCD", "long RRD", "long WTR",
];

/// The bytes of the record that the text describes.
pub fn read(file: &str, text: &str) -> Result<Vec<u8>, Bad> {
    let mut all = lines(file, text);
    let count = match all.next() {
        Some(line) => form(&line)?,
        None => {
            return Err(Bad::file(
                file,
                "expected `record = 32` or `record = 40` and then the table's numbers; there is nothing",
            ))
        }
    };
    let names = &NAMES[..count];
    let mut numbers: Vec<Option<u16>> = vec![None; count];
    for line in all {
        let (name, value) = assignment(&line)?;
        let place = place(&line, &name, names)?;
        let value = number(value, &name, u16::MAX.into()).map_err(|what| line.bad(what))?;
        if numbers[place].replace(value as u16).is_some() {
            return Err(line.bad(format!("{} stands here a second time", names[place])));
        }
    }
    let missing = numbers.iter().position(Option::is_none);
    if let Some(place) = missing {
        let name = names[place];
        let what = format!("expected `{name} = NUMBER`: a record of {} bytes has {count} numbers, and {name} is missing", 2 * count);
        return Err(Bad::file(file, what));
    }
    let numbers = numbers.into_iter().flatten();
    Ok(numbers.flat_map(u16::to_le_bytes).collect())
}

/// How many numbers the record has.
fn form(line: &Line) -> Result<usize, Bad> {
    match assignment(line) {
        Ok((name, "32")) if name.eq_ignore_ascii_case("record") => Ok(16),
        Ok((name, "40")) if name.eq_ignore_ascii_case("record") => Ok(20),
        _ => Err(line.bad(format!(
            "expected `record = 32` or `record = 40` before any other number, not {}",
            shown(line.text)
        ))),
    }
}

/// The name, each blank in it one space, and the value.
fn assignment<'a>(line: &Line<'a>) -> Result<(String, &'a str), Bad> {
    let (name, value) = line.text.split_once('=').ok_or_else(|| {
        line.bad(format!(
            "expected `NAME = NUMBER`, not {}",
            shown(line.text)
        ))
    })?;
    let name = name.split_whitespace().collect::<Vec<_>>().join(" ");
    Ok((name, value.trim()))
}

fn place(line: &Line, name: &str, names: &[&str]) -> Result<usize, Bad> {
    let same = |known: &&str| known.eq_ignore_ascii_case(name);
    names.iter().position(same).ok_or_else(|| {
        let bytes = 2 * names.len();
        let found = shown(name);
        let all = names.join(", ");
        line.bad(format!(
            "expected a name of the record of {bytes} bytes ({all}), not {found}"
        ))
    })
}

/// The text of 32 or 40 bytes; none of any other number of bytes.
pub fn write(bytes: &[u8]) -> Option<String> {
    if !matches!(bytes.len(), 32 | 40) {
        return None;
    }
    let numbers = bytes.chunks(2).map(|b| u16::from_le_bytes([b[0], b[1]]));
    let lines = NAMES.iter().zip(numbers);
    let lines: String = lines.map(|(name, x)| format!("{name} = {x}\n")).collect();
    Some(format!("record = {}\n{lines}", bytes.len()))
}
