//! Files as people have them: text, or records. Which of the two the name says: one that ends in `.bin` is records and any other text, and
//! `bytes:NAME` and `text:NAME` say it outright. `-` is standard input or output.

use crate::bad::Bad;
use std::fs::{self, File};
use std::io::{self, Read, Write};

/// No list, schedule or capture that a call takes is as long, with many comments too; a longer file is not read to its end.
const MOST: u64 = 64 << 20;

#[derive(Debug, Clone, Copy, PartialEq, Eq)]
pub enum Form {
    Text,
    Bytes,
}

#[derive(Debug, Clone, PartialEq, Eq)]
pub struct Place {
    /// `-` where it is standard input or output.
    path: String,
    pub form: Form,
}

impl Place {
    pub fn named(argument: &str) -> Place {
        let said = [("bytes:", Form::Bytes), ("text:", Form::Text)];
        let said = said
            .iter()
            .find_map(|(word, form)| Some((argument.strip_prefix(word)?, *form)));
        let by_name = || match argument.ends_with(".bin") {
            true => (argument, Form::Bytes),
            false => (argument, Form::Text),
        };
        let (path, form) = said.unwrap_or_else(by_name);
        let path = path.to_string();
        Place { path, form }
    }

    pub fn is_standard(&self) -> bool {
        self.path == "-"
    }

    /// As messages name it.
    pub fn name(&self) -> &str {
        match self.is_standard() {
            true => "standard input",
            false => &self.path,
        }
    }

    pub fn read(&self) -> Result<Vec<u8>, Bad> {
        let mut bytes = Vec::new();
        let read = match self.is_standard() {
            true => io::stdin().lock().take(MOST + 1).read_to_end(&mut bytes),
            false => {
                File::open(&self.path).and_then(|file| file.take(MOST + 1).read_to_end(&mut bytes))
            }
        };
        match read {
            Err(e) => Err(Bad::file(self.name(), format!("cannot be read: {e}"))),
            Ok(size) if size as u64 > MOST => {
                let what = format!("is longer than {MOST} bytes, and no call takes as much");
                Err(Bad::file(self.name(), what))
            }
            Ok(_) => Ok(bytes),
        }
    }

    /// Without the mark that some programs put before UTF-8.
    pub fn read_text(&self) -> Result<String, Bad> {
        let text = String::from_utf8(self.read()?).map_err(|e| {
            let good = &e.as_bytes()[..e.utf8_error().valid_up_to()];
            let line = 1 + good.iter().filter(|b| **b == b'\n').count();
            let what = "expected text in UTF-8; a file of records has a name that ends in .bin, or `bytes:` before it";
            Bad::line(self.name(), line, what)
        })?;
        let unmarked = text.strip_prefix('\u{feff}').map(str::to_string);
        Ok(unmarked.unwrap_or(text))
    }

    pub fn write(&self, bytes: &[u8]) -> Result<(), Bad> {
        if self.is_standard() {
            return print(bytes);
        }
        let done = fs::write(&self.path, bytes);
        done.map_err(|e| Bad::file(self.name(), format!("cannot be written: {e}")))
    }
}

pub fn print(bytes: &[u8]) -> Result<(), Bad> {
    let mut out = io::stdout().lock();
    let done = out.write_all(bytes).and_then(|()| out.flush());
    done.map_err(|e| Bad::file("standard output", format!("cannot be written: {e}")))
}

pub fn complain(text: &str) {
    // Where that cannot be written either, the status says it.
    let _ = io::stderr().lock().write_all(text.as_bytes());
}
