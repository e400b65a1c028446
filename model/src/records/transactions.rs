//! The transaction, of 4 bytes or of 8: "the 4-byte record is arrival 0".

use super::refusal::{refused, Refusal};
use super::tables::{GroupTable, BANKS, RFC};

#[derive(Debug, Clone, Copy, PartialEq, Eq)]
pub struct Transaction {
    /// The paper's type: 0 read, 1 write, 2 refresh.
    pub kind: u8,
    pub start: u8,
    pub bi: u8,
    pub bc: u8,
    /// "Neither queue sees a transaction before its arrival."
    pub arrival: u32,
}

/// The sizes of its two records.
pub const PLAIN: usize = 4;
pub const LATER: usize = 8;

impl Transaction {
    /// Of a record of either size: "a transaction record of 8 bytes adds a 32-bit arrival".
    pub fn of(record: &[u8]) -> Transaction {
        let arrival = record[PLAIN..].iter().rev();
        Transaction {
            kind: record[0],
            start: record[1],
            bi: record[2],
            bc: record[3],
            arrival: arrival.fold(0, |n, &byte| n << 8 | u32::from(byte)),
        }
    }

    pub fn arriving(self, arrival: u32) -> Transaction {
        Transaction { arrival, ..self }
    }

    /// Its bytes without the arrival, and with it.
    pub fn four(&self) -> [u8; PLAIN] {
        [self.kind, self.start, self.bi, self.bc]
    }

    pub fn eight(&self) -> [u8; LATER] {
        let [kind, start, bi, bc] = self.four();
        let [a, b, c, d] = self.arrival.to_le_bytes();
        [kind, start, bi, bc, a, b, c, d]
    }
}

/// The type of a refresh.
pub const REFRESH: u8 = 2;

/// An arrival is "at most 20,000,000".
pub const LATEST: u32 = 20_000_000;

/// "Where no table is given, banks counts as 16", and a refresh is "accepted where no table is given".
const WITHOUT_TABLE: (u16, bool) = (16, true);

/// "BI and BC are 1 to 16", and as request 2 has it, "start must be below banks and BI at most banks". A refresh has "the other three
/// bytes 0".
fn in_range(x: &Transaction, (banks, refreshes): (u16, bool)) -> bool {
    if x.kind == REFRESH {
        return refreshes && [x.start, x.bi, x.bc] == [0; 3];
    }
    let counts = (1..=16).contains(&x.bi) && (1..=16).contains(&x.bc);
    x.kind <= 1 && counts && u16::from(x.start) < banks && u16::from(x.bi) <= banks
}

/// A refresh is "refused by number 4 when RFC is 0", which means "that the table has no refresh".
pub fn accepts(table: &GroupTable, x: &Transaction) -> bool {
    in_range(x, (table[BANKS], table[RFC] != 0)) && x.arrival <= LATEST
}

/// Of a record that has its size, and holds arrivals up to the latest.
fn check(size: usize, of_record: usize, x: &Transaction) -> Result<(), Refusal> {
    if size != of_record {
        return refused(3);
    }
    let latest = if of_record == LATER { LATEST } else { 0 };
    if !in_range(x, WITHOUT_TABLE) || x.arrival > latest {
        return refused(4);
    }
    Ok(())
}

fn read(bytes: &[u8], of_record: usize) -> Result<Transaction, Refusal> {
    if bytes.len() != of_record {
        return refused(3);
    }
    let x = Transaction::of(bytes);
    check(bytes.len(), of_record, &x)?;
    Ok(x)
}

pub fn read_transaction(bytes: &[u8]) -> Result<Transaction, Refusal> {
    read(bytes, PLAIN)
}

pub fn read_later(bytes: &[u8]) -> Result<Transaction, Refusal> {
    read(bytes, LATER)
}

/// Answers edition 0, since no table is given. An arrival that the record has no bytes for is out of range.
pub fn write_transaction(x: Transaction, room: &mut [u8]) -> Result<u16, Refusal> {
    check(room.len(), PLAIN, &x)?;
    room.copy_from_slice(&x.four());
    Ok(0)
}

pub fn write_later(x: Transaction, room: &mut [u8]) -> Result<u16, Refusal> {
    check(room.len(), LATER, &x)?;
    room.copy_from_slice(&x.eight());
    Ok(0)
}
