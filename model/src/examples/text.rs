//! The text beside an example file, field by field in words.

use std::fmt::Write;

use crate::house::{bytes_of, REFRESHED, TABLE_A};
use crate::records::Table;

/// Of a listing with more lines than this, only so many from each end stand in the text.
const MOST_LINES: usize = 40;
const FROM_EACH_END: usize = 12;

/// Stands under a listing that has finishing cycles.
pub const FINISHES: &str = "A write finishes at its last data command, a read RL + B cycles later, when its last word has come back.\n";

/// Each number of the table and what document 01 has it for.
const FIELDS: [(&str, &str); 16] = [
    ("edition", "the table's own number, 1 to 65535"),
    ("banks", "1 to 16"),
    ("B", "the cycles one burst takes; in a read's finish"),
    ("CCD", "RD to RD and WR to WR"),
    ("RCD", "ACT to a data command of its bank"),
    ("RP", "precharge start to the bank's next ACT, and to a REF"),
    ("RAS", "ACT to its bank's precharge start"),
    ("RC", "ACT to the next ACT of its bank"),
    ("RRD", "ACT to any later ACT"),
    ("FAW", "ACT to the fourth ACT after it"),
    (
        "RL",
        "in RD to WR: the greater of CCD and RL + CCD + 2 - WL; in a read's finish",
    ),
    ("WL", "in RD to WR, WR to RD, and WR to precharge start"),
    ("RTP", "RD to its bank's precharge start"),
    ("WR", "in WR to its bank's precharge start: WL + B + WR"),
    ("WTR", "in WR to RD: the greater of CCD and WL + B + WTR"),
    (
        "RFC",
        "REF to any later ACT or REF, and to its finish; 0: the table has no refresh",
    ),
];

/// What every example begins with.
pub struct Head {
    pub name: &'static str,
    /// What it is there for.
    pub title: &'static str,
    pub expected: u16,
    /// The table's name, and what sets it apart.
    pub table_title: &'static str,
    pub table: Table,
}

impl Head {
    /// Of house table A, as it is expected.
    pub fn of_a(name: &'static str, title: &'static str) -> Head {
        Head {
            name,
            title,
            expected: 7,
            table_title: "house table A",
            table: TABLE_A,
        }
    }

    /// Of the table that has a refresh.
    pub fn of_refreshed(name: &'static str, title: &'static str) -> Head {
        Head {
            expected: 70,
            table_title: "house table A with edition 70 and RFC 50",
            table: REFRESHED,
            ..Head::of_a(name, title)
        }
    }

    /// The file itself, with what stands behind the table.
    pub fn bytes(&self, rest: &[u8]) -> Vec<u8> {
        let expected = self.expected.to_le_bytes();
        [&expected[..], &bytes_of(&self.table), rest].concat()
    }

    /// The text beside a file of so many bytes, with what it says after the table.
    pub fn text(&self, size: usize, rest: &[String]) -> String {
        let (name, title, expected) = (self.name, self.title, self.expected);
        let head = [
            format!("{name}.bin, {size} bytes: {title}.\n"),
            format!("Bytes 0 and 1, the expected edition, low byte first: {expected}.\n"),
            table_text(self.table_title, &self.table),
        ];
        [&head, rest].concat().join("\n")
    }
}

fn table_text(title: &str, table: &Table) -> String {
    let mut out =
        format!("Bytes 2 to 33, the table ({title}): 16-bit numbers, low byte first.\n\n");
    for ((field, words), number) in FIELDS.iter().zip(table) {
        writeln!(out, "    {field:<8}{number:<6}{words}").expect("a string takes it");
    }
    out
}

pub fn printed_text(printed: &str) -> String {
    let lines: Vec<String> = printed.lines().map(|l| format!("    {l}\n")).collect();
    if lines.len() <= MOST_LINES {
        return lines.concat();
    }
    let (start, rest) = lines.split_at(FROM_EACH_END);
    let (between, end) = rest.split_at(rest.len() - FROM_EACH_END);
    let left_out = format!("    (and {} lines between)\n", between.len());
    start.concat() + &left_out + &end.concat()
}

/// A program is run on an example, and its input and output are stored with it.
#[cfg(test)]
pub fn assert_stored(program: &str, input: &[u8], output: &str) {
    let crates = std::path::Path::new(env!("CARGO_MANIFEST_DIR")).join("../crates");
    let stored = |file| std::fs::read(crates.join(program).join(file)).expect("it's stored");
    assert!(stored("stdin") == input, "{program}: stdin");
    assert!(stored("stdout") == output.as_bytes(), "{program}: stdout");
}
