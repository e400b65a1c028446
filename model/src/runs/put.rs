//! Cases, one behind the other.

use super::controller;
use super::told::{BOUND, BUILD, BUILD_LATER, RUN, RUN_LATER};
use crate::desk::Controller;
use crate::house::{bytes_of, room_for};
use crate::records::EDITION;
use crate::stored::size_of;

#[derive(Default)]
pub struct Cases(pub Vec<u8>);

impl Cases {
    /// The expected edition is the table's own.
    fn head(&mut self, call: u8, table: &[u16]) {
        self.0.push(call);
        self.0.extend(table[EDITION].to_le_bytes());
        self.0.push(2 * table.len() as u8);
    }

    /// What is put is one case, and this its expected edition.
    pub fn expecting(&mut self, expected: u16, put: impl FnOnce(&mut Cases)) {
        let place = self.0.len() + 1;
        put(self);
        self.0[place..place + 2].copy_from_slice(&expected.to_le_bytes());
    }

    /// What is put is one case with a table of 32 bytes and nothing behind it, and these are the table's bytes instead.
    pub fn by(&mut self, table: &[u8], put: impl FnOnce(&mut Cases)) {
        let place = self.0.len() + 3;
        put(self);
        self.0[place] = table.len() as u8;
        self.0.truncate(self.0.len() - 32);
        self.0.extend_from_slice(table);
    }

    /// What is put is one case, a build or a run, and its transactions have 8 bytes each.
    pub fn later(&mut self, put: impl FnOnce(&mut Cases)) {
        let place = self.0.len();
        put(self);
        self.0[place] = match self.0[place] {
            BUILD => BUILD_LATER,
            _ => RUN_LATER,
        };
    }

    pub fn build(&mut self, table: &[u16], room: usize, slots: usize, list: &[u8]) {
        self.head(BUILD, table);
        self.0.extend((room as u16).to_le_bytes());
        self.0.extend((slots as u16).to_le_bytes());
        self.0.extend(size_of(list));
        self.0.extend(bytes_of(table));
        self.0.extend_from_slice(list);
    }

    /// With the room and the slots that are just enough.
    pub fn build_all(&mut self, table: &[u16], list: &[[u8; 4]]) {
        self.build(table, room_for(list), list.len(), &list.concat());
    }

    /// The same of transactions of 8 bytes.
    pub fn build_later(&mut self, table: &[u16], list: &[[u8; 8]]) {
        let (room, slots) = (room_for(list), list.len());
        self.later(|cases| cases.build(table, room, slots, &list.concat()));
    }

    pub fn run(&mut self, table: &[u16], count: u32, room: usize, state: &Controller, list: &[u8]) {
        self.head(RUN, table);
        self.0.extend(count.to_le_bytes());
        self.0.extend((room as u16).to_le_bytes());
        self.0.extend(size_of(list));
        self.0.extend(controller::bytes_of(state));
        self.0.extend(bytes_of(table));
        self.0.extend_from_slice(list);
    }

    pub fn bound(&mut self, table: &[u16], bi: u8, bc: u8) {
        self.head(BOUND, table);
        self.0.extend([bi, bc]);
        self.0.extend(bytes_of(table));
    }
}
