//! Text into records, and records into text. The one is the inverse of the other: every whole record has its text, in range or not.

use crate::answer::Status;
use crate::arguments::Given;
use crate::bad::{shown, Bad};
use crate::capture_text;
use crate::command_text;
use crate::desk;
use crate::files::{print, Form, Place};
use crate::list_text;
use crate::say;
use crate::table_text;
use crate::Told;
use skvorzhan::Refusal;

/// The result goes to `-o` or to standard output; an answer is told only where the records are refused.
pub fn convert(given: &Given) -> Result<Told, Bad> {
    let (what, file) = match &given.files[..] {
        [what, file] => (what.as_str(), Place::named(file)),
        _ => {
            return Err(Bad::usage(
                "expected table, list, schedule, pattern or capture, and a FILE",
            ))
        }
    };
    let columns = given.columns()?;
    let later = given.flag("--later");
    let read = match (what, file.form) {
        ("table", _) => desk::table_bytes(&file)?,
        ("list", _) => desk::list(&file, later)?.bytes,
        ("schedule" | "pattern", _) => desk::commands(&file)?.1,
        ("capture", _) => desk::capture(&file, &columns)?.1,
        _ => {
            let found = shown(what);
            return Err(Bad::usage(format!(
                "expected table, list, schedule, pattern or capture, not {found}"
            )));
        }
    };
    let converted = match file.form {
        Form::Text => Ok(read),
        Form::Bytes => text_of(what, &read, later).map(String::into_bytes),
    };
    match converted {
        Err(refusal) => Ok(Told::Answer(say::refused(refusal))),
        Ok(bytes) => {
            match given.place("-o") {
                Some(place) => place.write(&bytes)?,
                None => print(&bytes)?,
            }
            Ok(Told::Nothing(Status::Yes))
        }
    }
}

/// Where a record is cut, the proved reader refuses it, by the number that is for that.
fn text_of(what: &str, bytes: &[u8], later: bool) -> Result<String, Refusal> {
    let text = match what {
        "table" => table_text::write(bytes),
        "list" => list_text::write(bytes, later),
        "capture" => {
            let records = desk::capture_of(bytes);
            (4 * records.len() == bytes.len()).then(|| capture_text::write(&records))
        }
        _ => {
            let commands = desk::commands_of(bytes);
            (8 * commands.len() == bytes.len()).then(|| command_text::write(&commands))
        }
    };
    text.ok_or_else(|| refusal(what, bytes, later))
}

fn refusal(what: &str, bytes: &[u8], later: bool) -> Refusal {
    // The last record, which is the one that is cut.
    let cut = |size: usize| &bytes[bytes.len() - bytes.len() % size..];
    let told = match what {
        "table" => skvorzhan::read_table(bytes).err(),
        "list" if later => skvorzhan::read_later(cut(8)).err(),
        "list" => skvorzhan::read_transaction(cut(4)).err(),
        "capture" => skvorzhan::read_capture_record(cut(4)).err(),
        _ => skvorzhan::read_command(cut(8)).err(),
    };
    told.expect("the reader takes whole records alone")
}
