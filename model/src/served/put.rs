//! Cases, one behind the other.

use super::told::{LATER, PLAIN};
use crate::house::bytes_of;
use crate::records::EDITION;
use crate::stored::size_of;

#[derive(Default)]
pub struct Cases(pub Vec<u8>);

impl Cases {
    pub fn put(&mut self, call: u8, expected: u16, table: &[u8], list: &[u8], schedule: &[u8]) {
        self.0.push(call);
        self.0.extend(expected.to_le_bytes());
        self.0.push(table.len() as u8);
        self.0.extend(size_of(list));
        self.0.extend(size_of(schedule));
        for bytes in [table, list, schedule] {
            self.0.extend_from_slice(bytes);
        }
    }

    /// Of transactions of 4 bytes, by a table whose edition is expected.
    pub fn list(&mut self, table: &[u16], list: &[[u8; 4]], schedule: &[u8]) {
        let bytes = list.concat();
        self.put(PLAIN, table[EDITION], &bytes_of(table), &bytes, schedule);
    }

    /// Of transactions of 8.
    pub fn laters(&mut self, table: &[u16], list: &[[u8; 8]], schedule: &[u8]) {
        let bytes = list.concat();
        self.put(LATER, table[EDITION], &bytes_of(table), &bytes, schedule);
    }
}
