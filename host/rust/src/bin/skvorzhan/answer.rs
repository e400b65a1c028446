//! An answer: facts in order. Each has a key and a value for programs and its words for people, made at one place, so that what is printed as
//! text and what is printed as JSON cannot drift apart.

use crate::bad::Bad;
use crate::json::Value;

#[derive(Debug, Clone, Copy, PartialEq, Eq)]
pub enum Status {
    Yes = 0,
    Against = 1,
    Refused = 2,
    BadUse = 3,
}

#[derive(Debug, Clone)]
struct Fact {
    key: &'static str,
    value: Value,
    /// Whole lines without the last one's end; none where the fact is for programs alone.
    words: Option<String>,
}

#[derive(Debug, Clone)]
pub struct Answer {
    pub status: Status,
    facts: Vec<Fact>,
}

impl Answer {
    /// One that no table has part in.
    pub fn plain(status: Status) -> Answer {
        let facts = Vec::new();
        Answer { status, facts }
    }

    /// One worked out from a table, whose edition is always told first.
    pub fn of_edition(status: Status, edition: u32) -> Answer {
        let words = match edition {
            0 => "edition 0: no table was accepted".to_string(),
            e => format!("edition {e}"),
        };
        Answer::of_edition_as(status, edition, words)
    }

    /// The same with other words, which begin with the edition too.
    pub fn of_edition_as(status: Status, edition: u32, words: String) -> Answer {
        let mut answer = Answer::plain(status);
        answer.add("edition", edition, words);
        answer
    }

    pub fn add(&mut self, key: &'static str, value: impl Into<Value>, words: impl Into<String>) {
        self.put(key, value.into(), Some(words.into()));
    }

    /// For programs alone: what the words of another fact say already.
    pub fn add_silent(&mut self, key: &'static str, value: impl Into<Value>) {
        self.put(key, value.into(), None);
    }

    fn put(&mut self, key: &'static str, value: Value, words: Option<String>) {
        self.facts.push(Fact { key, value, words });
    }

    pub fn bad(bad: &Bad) -> Answer {
        let mut answer = Answer::plain(Status::BadUse);
        answer.add("answer", "bad use", format!("skvorzhan: {bad}"));
        answer.add_silent("file", bad.file.clone());
        answer.add_silent("line", bad.line);
        answer.add_silent("what", bad.what.clone());
        answer
    }

    pub fn text(&self) -> String {
        let words = self.facts.iter().filter_map(|fact| fact.words.as_ref());
        words.map(|words| format!("{words}\n")).collect()
    }

    pub fn json(&self) -> String {
        let facts = self.facts.iter();
        let mut all: Vec<_> = facts.map(|fact| (fact.key, fact.value.clone())).collect();
        all.push(("status", Value::from(self.status as u32)));
        format!("{}\n", Value::Object(all))
    }
}
