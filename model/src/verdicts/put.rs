//! Cases, one behind the other.

use super::told::{JUDGE, JUDGE_PATTERN};
use crate::house::{bytes_of, command};
use crate::records::EDITION;
use crate::rules::{ACT, RDA};
use crate::stored::size_of;

/// Cycle, kind and bank.
pub type One = (u32, u8, u8);

pub const EXAMPLE_1: [One; 2] = [(0, ACT, 0), (10, RDA, 0)];

#[derive(Default)]
pub struct Cases(pub Vec<u8>);

impl Cases {
    /// The expected edition is the table's own.
    pub fn put(&mut self, call: u8, table: &[u16], length: u32, bytes: &[u8]) {
        self.0.push(call);
        self.0.extend(table[EDITION].to_le_bytes());
        self.0.extend(length.to_le_bytes());
        self.0.push(2 * table.len() as u8);
        self.0.extend(size_of(bytes));
        self.0.extend(bytes_of(table));
        self.0.extend_from_slice(bytes);
    }

    /// A schedule of no record, by a table of these bytes.
    pub fn by(&mut self, table: &[u8]) {
        self.0
            .extend([JUDGE, 7, 0, 0, 0, 0, 0, table.len() as u8, 0, 0]);
        self.0.extend_from_slice(table);
    }

    /// What is put is one case, and this its expected edition.
    pub fn expecting(&mut self, expected: u16, put: impl FnOnce(&mut Cases)) {
        let place = self.0.len() + 1;
        put(self);
        self.0[place..place + 2].copy_from_slice(&expected.to_le_bytes());
    }

    pub fn schedule(&mut self, table: &[u16], records: &[One]) {
        self.put(JUDGE, table, 0, &bytes_of_some(records));
    }

    pub fn pattern(&mut self, table: &[u16], records: &[One], length: u32) {
        self.put(JUDGE_PATTERN, table, length, &bytes_of_some(records));
    }
}

/// The transaction number, which the judge doesn't look at, differs from record to record.
pub fn bytes_of_some(records: &[One]) -> Vec<u8> {
    let bytes = |(&(cycle, kind, bank), number)| command(cycle, kind, bank, number);
    records
        .iter()
        .zip((0..=65535).rev())
        .flat_map(bytes)
        .collect()
}
