//! A reader and a writer of each record.

use crate::raw::*;
use crate::{told, Refusal};

/// Edition, banks, B, CCD, RCD, RP, RAS, RC, RRD, FAW, RL, WL, RTP, WR, WTR, RFC.
pub type Table = [u16; 16];

/// The sixteen, then the group count, long CCD, long RRD and long WTR.
pub type GroupTable = [u16; 20];

/// Refused with 1 and 2. Of a table of 32 bytes the group count is 1, and each long number the short one.
pub fn read_table(bytes: &[u8]) -> Result<GroupTable, Refusal> {
    let a = call!(skv_read_table(&bytes));
    told(a.refused, a.position, a.edition, a.numbers)
}

/// Refused with 1 and 2. Answers the table's edition.
pub fn write_table(numbers: Table, out: &mut [u8]) -> Result<u32, Refusal> {
    let a = call!(skv_write_table(Numbers { numbers }, &mut out));
    a.told(a.edition)
}

/// Refused with 1 and 2. Answers the table's edition.
pub fn write_group_table(numbers: GroupTable, out: &mut [u8]) -> Result<u32, Refusal> {
    let numbers = GroupNumbers { numbers };
    let a = call!(skv_write_group_table(numbers, &mut out));
    a.told(a.edition)
}

/// Refused with 3 and 4.
pub fn read_transaction(bytes: &[u8]) -> Result<Transaction, Refusal> {
    read(call!(skv_read_transaction(&bytes)))
}

/// The same of a record of 8 bytes.
pub fn read_later(bytes: &[u8]) -> Result<Transaction, Refusal> {
    read(call!(skv_read_later(&bytes)))
}

fn read(a: TransactionAnswer) -> Result<Transaction, Refusal> {
    let x = Transaction {
        kind: a.kind,
        start: a.start,
        bi: a.bi,
        bc: a.bc,
        arrival: a.arrival,
    };
    told(a.refused, a.position, a.edition, x)
}

/// Refused with 3 and 4. The record of 4 bytes has no arrival: one that is not 0 is out of range.
pub fn write_transaction(x: Transaction, out: &mut [u8]) -> Result<(), Refusal> {
    // No type at all, so that number 3 still goes first.
    let kind = if x.arrival == 0 { x.kind } else { u8::MAX };
    let a = call!(skv_write_transaction(kind, x.start, x.bi, x.bc, &mut out));
    a.told(())
}

/// Refused with 3 and 4.
pub fn write_later(x: Transaction, out: &mut [u8]) -> Result<(), Refusal> {
    let a = call!(skv_write_later(
        x.kind, x.start, x.bi, x.bc, x.arrival, &mut out
    ));
    a.told(())
}

#[derive(Debug, Clone, Copy, PartialEq, Eq)]
pub struct Command {
    pub cycle: u32,
    /// 0 ACT, 1 RD, 2 RDA, 3 WR, 4 WRA, 5 REF, or any other number.
    pub kind: u8,
    pub bank: u8,
    /// The transaction's.
    pub number: u16,
}

/// Refused with 7.
pub fn read_command(bytes: &[u8]) -> Result<Command, Refusal> {
    let a = call!(skv_read_command(&bytes));
    let c = Command {
        cycle: a.cycle,
        kind: a.kind,
        bank: a.bank,
        number: a.number,
    };
    told(a.refused, a.position, a.edition, c)
}

/// Refused with 5. The buffer may be longer than 8 bytes.
pub fn write_command(c: Command, out: &mut [u8]) -> Result<(), Refusal> {
    let a = call!(skv_write_command(
        c.cycle, c.kind, c.bank, c.number, &mut out
    ));
    a.told(())
}

#[derive(Debug, Clone, Copy, PartialEq, Eq)]
pub struct CaptureRecord {
    pub stamp: u16,
    /// A command's, or any other number; 255 with bank 0 is a tick.
    pub kind: u8,
    pub bank: u8,
}

/// Refused with 7.
pub fn read_capture_record(bytes: &[u8]) -> Result<CaptureRecord, Refusal> {
    let a = call!(skv_read_capture_record(&bytes));
    let r = CaptureRecord {
        stamp: a.stamp,
        kind: a.kind,
        bank: a.bank,
    };
    told(a.refused, a.position, a.edition, r)
}

/// Refused with 5. The buffer may be longer than 4 bytes.
pub fn write_capture_record(r: CaptureRecord, out: &mut [u8]) -> Result<(), Refusal> {
    let a = call!(skv_write_capture_record(r.stamp, r.kind, r.bank, &mut out));
    a.told(())
}
