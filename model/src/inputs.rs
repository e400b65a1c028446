//! Inputs of the listing program and of `trace`: in files, each with what must be printed for it beside it, and one behind the other for the
//! programs that put stored inputs through them.

use std::fs;
use std::io;
use std::path::Path;

use crate::house::bytes_of;
use crate::records::EDITION;
use crate::stored::{read, size_of};

/// The cases so far, and the place of each group's first.
#[derive(Default)]
pub struct Cases {
    pub inputs: Vec<Vec<u8>>,
    groups: Vec<(&'static str, usize)>,
}

impl Cases {
    pub fn group(&mut self, title: &'static str) {
        self.groups.push((title, self.inputs.len()));
    }

    pub fn put(&mut self, input: &[u8]) {
        self.inputs.push(input.to_vec());
    }

    /// A table's bytes and more, or what stands for them, behind the edition that they begin with; behind 7 where there is none.
    pub fn own(&mut self, input: &[u8]) {
        let edition = match *input {
            [low, high, ..] => u16::from_le_bytes([low, high]),
            _ => 7,
        };
        self.expecting(edition, input);
    }

    pub fn expecting(&mut self, expected: u16, input: &[u8]) {
        self.put(&[&expected.to_le_bytes(), input].concat());
    }

    /// A list of transactions, or the records of a capture.
    pub fn list(&mut self, table: &[u16], list: &[[u8; 4]]) {
        self.bytes(table, &list.concat());
    }

    pub fn bytes(&mut self, table: &[u16], bytes: &[u8]) {
        self.own(&[&bytes_of(table), bytes].concat());
    }

    /// Writes `NNN.in` and `NNN.out` for each case, from 000, and tells which numbers each group has.
    pub fn write(&self, folder: &Path, program: fn(&[u8]) -> String) -> io::Result<()> {
        fs::create_dir_all(folder)?;
        for (number, input) in self.inputs.iter().enumerate() {
            fs::write(folder.join(format!("{number:03}.in")), input)?;
            fs::write(folder.join(format!("{number:03}.out")), program(input))?;
        }
        let count = self.inputs.len();
        let starts = self.groups.iter().skip(1).map(|&(_, first)| first);
        for (&(title, first), next) in self.groups.iter().zip(starts.chain([count])) {
            println!("{first:03} to {:03}: {title}", next - 1);
        }
        println!("{count} cases");
        Ok(())
    }
}

/// An input as the programs read it: the expected edition, the table, and transactions, the records of a capture or what is asked.
pub fn input(expected: u16, table: &[u16], rest: &[[u8; 4]]) -> Vec<u8> {
    [
        &expected.to_le_bytes(),
        &bytes_of(table)[..],
        &rest.concat(),
    ]
    .concat()
}

/// With the table's own edition expected.
pub fn own(table: &[u16], rest: &[[u8; 4]]) -> Vec<u8> {
    input(table[EDITION], table, rest)
}

/// Each input behind its length in two bytes; at the end one that is cut short.
pub fn stored(inputs: &[Vec<u8>]) -> Vec<u8> {
    let mut out = Vec::new();
    for input in inputs {
        out.extend(size_of(input));
        out.extend(input);
    }
    out.extend([4, 0, 7]);
    out
}

/// The text of each, behind a line `case`.
pub fn texts(stored: &[u8], program: fn(&[u8]) -> String) -> String {
    let (inputs, _) = read(stored, |rest| {
        let size = rest.u16()?;
        rest.take(size.into())
    });
    let text = |&input: &&[u8]| format!("case\n{}", program(input));
    inputs.iter().map(text).collect()
}
