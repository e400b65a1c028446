//! Lines of words: what the texts of tables, lists and schedules have in common. `#` begins a comment; blank lines say nothing.

use crate::bad::{shown, Bad};

pub const KINDS: [&str; 6] = ["ACT", "RD", "RDA", "WR", "WRA", "REF"];

#[derive(Debug, Clone)]
pub struct Line<'a> {
    pub file: &'a str,
    /// From 1.
    pub number: usize,
    /// Without its comment, and without the blanks about it.
    pub text: &'a str,
    pub words: Vec<&'a str>,
}

/// The lines that say something.
pub fn lines<'a>(file: &'a str, text: &'a str) -> impl Iterator<Item = Line<'a>> {
    let numbered = text.lines().zip(1..);
    let lines = numbered.map(move |(line, number)| {
        let text = line.split('#').next().unwrap_or("").trim();
        let words = text.split_whitespace().collect();
        Line {
            file,
            number,
            text,
            words,
        }
    });
    lines.filter(|line| !line.words.is_empty())
}

impl<'a> Line<'a> {
    pub fn bad(&self, what: impl Into<String>) -> Bad {
        Bad::line(self.file, self.number, what)
    }

    /// The word at that place as a number up to `most`.
    pub fn number(&self, place: usize, name: &str, most: u32) -> Result<u32, Bad> {
        match self.words.get(place) {
            Some(word) => number(word, name, most).map_err(|what| self.bad(what)),
            None => Err(self.bad(format!(
                "expected {name}, 0 to {most}, after {}",
                shown(self.text)
            ))),
        }
    }

    /// That so many words are all there are.
    pub fn ends_after(&self, places: usize, form: &str) -> Result<(), Bad> {
        match self.words.get(places) {
            None => Ok(()),
            Some(word) => Err(self.bad(format!(
                "expected the line's end after `{form}`, not {}",
                shown(word)
            ))),
        }
    }
}

/// Decimal digits, and nothing else.
pub fn number(word: &str, name: &str, most: u32) -> Result<u32, String> {
    let digits = !word.is_empty() && word.bytes().all(|b| b.is_ascii_digit());
    let value = word.parse::<u32>().ok().filter(|x| digits && *x <= most);
    value.ok_or_else(|| format!("expected {name}, 0 to {most}, not {}", shown(word)))
}

/// A kind's name in capitals or not, or its number.
pub fn kind(word: &str) -> Result<u8, String> {
    let named = KINDS
        .iter()
        .position(|name| name.eq_ignore_ascii_case(word));
    let numbered = || {
        number(word, "", u8::MAX.into())
            .ok()
            .map(|kind| kind as usize)
    };
    let expected = || {
        let found = shown(word);
        format!("expected a kind, ACT, RD, RDA, WR, WRA, REF or a number 0 to 255, not {found}")
    };
    named
        .or_else(numbered)
        .map(|kind| kind as u8)
        .ok_or_else(expected)
}

/// As the listing prints it: a kind that has no name is its number.
pub fn kind_text(kind: u8) -> String {
    let name = KINDS.get(usize::from(kind));
    name.map_or_else(|| kind.to_string(), |name| name.to_string())
}
