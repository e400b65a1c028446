//! What `-o` writes.

use crate::answer::Answer;
use crate::arguments::Given;
use crate::bad::Bad;
use crate::command_text;
use crate::desk;
use crate::files::{Form, Place};
use skvorzhan::Command;

/// Commands as text or as records, as the file's name says; the text may begin with a listing's first line.
pub fn commands(
    given: &Given,
    answer: &mut Answer,
    commands: &[Command],
    first: Option<String>,
) -> Result<(), Bad> {
    let place = match given.place("-o") {
        Some(place) => place,
        None => return Ok(()),
    };
    // What begins with a listing's first line can be read as a schedule, and stays so.
    let words = match first {
        Some(_) => "# the commands are in",
        None => "the commands are in",
    };
    let bytes = match place.form {
        Form::Bytes => desk::command_bytes(commands),
        Form::Text => {
            let first = first.map_or(String::new(), |line| format!("{line}\n"));
            format!("{first}{}", command_text::write(commands)).into_bytes()
        }
    };
    to_file(answer, &place, &bytes, words)
}

/// The answer goes to standard output, so nothing else does.
pub fn to_file(answer: &mut Answer, place: &Place, bytes: &[u8], what: &str) -> Result<(), Bad> {
    if place.is_standard() {
        return Err(Bad::usage(
            "expected a file for -o: standard output has the answer",
        ));
    }
    place.write(bytes)?;
    let name = place.name();
    answer.add("written", name, format!("{what} {name}"));
    Ok(())
}
