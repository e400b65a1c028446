//! A case put through the archive and held against what is right; and a difference, made small and told.

use crate::archive::Archive;
use crate::case::Case;
use crate::engines;
use crate::expected::{expected, refused, Outcome};
use crate::{shrink, trap};

/// What told what is right.
#[derive(Debug, Clone, Copy, PartialEq, Eq)]
pub enum By {
    Model,
    PlainEngine,
}

/// What is right, or the difference from it. A call of the second engine is held against the plain one's.
pub fn difference(archive: &mut Archive, case: &Case) -> Result<(Outcome, By), String> {
    let (right, by) = match case.straight {
        true => engines::right(archive, case)?,
        false => (expected(case, &archive.noise), By::Model),
    };
    match against(archive, case, &right, by) {
        None => Ok((right, by)),
        Some(wrong) => Err(wrong),
    }
}

/// The difference from what is right, if there is one.
pub fn against(archive: &mut Archive, case: &Case, right: &Outcome, by: By) -> Option<String> {
    let number = refused(&right.answer);
    trap::in_call(case, number);
    let mut wrong = |read_only| match archive.call(case, read_only) {
        Ok(got) if got == *right => None,
        Ok(got) => Some(told(&got, right, by)),
        Err(touched) => Some(touched),
    };
    // What can be compared is compared first: a write to read-only pages ends the program.
    wrong(false).or_else(|| if number == 0 { None } else { wrong(true) })
}

/// What differs, in words.
fn told(got: &Outcome, right: &Outcome, by: By) -> String {
    let by = match by {
        By::Model => "by the model",
        By::PlainEngine => "by the plain engine",
    };
    let mut lines = Vec::new();
    if got.answer != right.answer {
        let (is, be) = (&got.answer, &right.answer);
        lines.push(format!("answer {is:?}, {by} {be:?}"));
    }
    for (name, got, right) in [
        ("room", &got.room, &right.room),
        ("slots", &got.slots, &right.slots),
    ] {
        if let Some(at) = (0..got.len()).find(|&at| got[at] != right[at]) {
            let (is, be) = (got[at], right[at]);
            lines.push(format!("{name}, byte {at}: {is:#04x}, {by} {be:#04x}"));
        }
    }
    if let (Some(got), Some(right)) = (&got.state, &right.state) {
        for at in (0..got.len()).filter(|&at| got[at] != right[at]) {
            let (is, be) = (got[at], right[at]);
            lines.push(format!("controller, number {at}: {is}, {by} {be}"));
        }
    }
    lines.join("\n")
}

/// Makes it small and prints it.
pub fn report(archive: &mut Archive, case: &Case, wrong: &str) {
    println!("a difference in {}:\n{wrong}", case.name());
    println!("as it was found:\n{case}");
    let small = shrink::shrunk(case, |case| difference(archive, case).is_err());
    let wrong = difference(archive, &small).err();
    println!("made small:\n{small}");
    let (edition, numbers) = (small.expected, small.numbers());
    println!(
        "expected {edition}, table {numbers:?}, records {:?}",
        small.shown()
    );
    println!("{}", wrong.unwrap_or_default());
    println!("again: differ again '{small}'");
}
