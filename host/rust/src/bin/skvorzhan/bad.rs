//! What stops the tool before any call is made: arguments that it doesn't know, files that it cannot read, text that holds something else than
//! was expected. Its status is 3.

use std::fmt;

#[derive(Debug, Clone, PartialEq, Eq)]
pub struct Bad {
    pub file: Option<String>,
    /// From 1.
    pub line: Option<usize>,
    pub what: String,
}

impl Bad {
    pub fn usage(what: impl Into<String>) -> Bad {
        Bad {
            file: None,
            line: None,
            what: what.into(),
        }
    }

    pub fn file(file: &str, what: impl Into<String>) -> Bad {
        Bad {
            file: Some(file.to_string()),
            ..Bad::usage(what)
        }
    }

    pub fn line(file: &str, line: usize, what: impl Into<String>) -> Bad {
        Bad {
            line: Some(line),
            ..Bad::file(file, what)
        }
    }
}

impl fmt::Display for Bad {
    fn fmt(&self, f: &mut fmt::Formatter) -> fmt::Result {
        if let Some(file) = &self.file {
            write!(f, "{file}:")?;
        }
        if let Some(line) = self.line {
            write!(f, "{line}:")?;
        }
        let space = if self.file.is_some() { " " } else { "" };
        write!(f, "{space}{}", self.what)
    }
}

/// What stood there, short enough for a line and without anything that a terminal would obey.
pub fn shown(found: &str) -> String {
    const MOST: usize = 40;
    let short: String = found.chars().take(MOST).collect();
    let more = if short.len() < found.len() { "..." } else { "" };
    format!("`{}{more}`", short.escape_debug())
}
