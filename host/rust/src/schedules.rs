//! Lists, schedules, verdicts and the bound.

use crate::raw::*;
use crate::{told, Refusal};

#[derive(Debug, Clone, Copy, PartialEq, Eq)]
pub struct Decoded {
    pub edition: u32,
    pub transactions: u32,
}

/// A call for each size of the records.
macro_rules! decode {
    ($($(#[$said:meta])* $name:ident: $call:ident;)*) => {$(
        $(#[$said])*
        pub fn $name(
            expected: u16,
            table: &[u8],
            bytes: &[u8],
            list: &mut [Transaction],
        ) -> Result<Decoded, Refusal> {
            let a = call!($call(expected, &table, &bytes, &mut list));
            a.told(Decoded {
                edition: a.edition,
                transactions: a.count,
            })
        }
    )*};
}

decode! {
    /// Refused with 1, 2, 10, 3 and 4.
    read_transactions: skv_read_transactions;
    /// The same of records of 8 bytes.
    read_later_transactions: skv_read_later_transactions;
}

#[derive(Debug, Clone, Copy, PartialEq, Eq)]
pub struct Scheduled {
    pub edition: u32,
    pub commands: u32,
}

/// A call for each engine and each form of the list, whose entries are transactions or bytes.
macro_rules! schedule {
    ($($(#[$said:meta])* $name:ident($entry:ty): $call:ident;)*) => {$(
        $(#[$said])*
        pub fn $name(
            expected: u16,
            table: &[u8],
            list: &[$entry],
            commands: &mut [u8],
            finishes: &mut [u32],
        ) -> Result<Scheduled, Refusal> {
            let a = call!($call(expected, &table, &list, &mut commands, &mut finishes));
            a.told(Scheduled {
                edition: a.edition,
                commands: a.count,
            })
        }
    )*};
}

schedule! {
    /// Refused with 1, 2, 10, and 3 to 6. A write finishes at its last data command, a read RL + B cycles after its own, a refresh RFC cycles
    /// after its REF.
    schedule(Transaction): skv_schedule;
    /// The same from the transactions' bytes.
    schedule_bytes(u8): skv_schedule_bytes;
    /// The same from records of 8 bytes.
    schedule_later_bytes(u8): skv_schedule_later_bytes;
    /// As `schedule`, by the second engine.
    schedule_straight(Transaction): skv_schedule_straight;
    /// As `schedule_bytes`, by the second engine.
    schedule_straight_bytes(u8): skv_schedule_straight_bytes;
    /// As `schedule_later_bytes`, by the second engine.
    schedule_straight_later_bytes(u8): skv_schedule_straight_later_bytes;
}

/// The rule is document 01's number; copies count from 1 and are 0 for a schedule; records count from 0.
#[derive(Debug, Clone, Copy, PartialEq, Eq)]
pub enum Verdict {
    Accepted,
    Broken { rule: u32, copy: u32, record: u32 },
}

impl Verdict {
    pub(crate) fn of(rule: u32, copy: u32, record: u32) -> Verdict {
        match rule {
            0 => Verdict::Accepted,
            _ => Verdict::Broken { rule, copy, record },
        }
    }
}

fn judged(a: VerdictAnswer) -> Result<(u32, Verdict), Refusal> {
    let verdict = Verdict::of(a.rule, a.copy, a.record);
    told(a.refused, a.position, a.edition, (a.edition, verdict))
}

/// Refused with 1, 2, 10 and 7. Answers the edition and the verdict.
pub fn judge(expected: u16, table: &[u8], schedule: &[u8]) -> Result<(u32, Verdict), Refusal> {
    judged(call!(skv_judge(expected, &table, &schedule)))
}

/// Refused with 1, 2, 10, 7 and 8. Answers the edition and the verdict on every number of copies.
pub fn judge_pattern(
    expected: u16,
    table: &[u8],
    pattern: &[u8],
    length: u32,
) -> Result<(u32, Verdict), Refusal> {
    judged(call!(skv_judge_pattern(expected, &table, &pattern, length)))
}

/// Refused with 1, 2, 10 and 4. Answers the edition and the bound, which counts from last data command to last data command, or from the finish
/// of a refresh, or from a later arrival.
pub fn bound(expected: u16, table: &[u8], bi: u8, bc: u8) -> Result<(u32, u32), Refusal> {
    let a = call!(skv_bound(expected, &table, bi, bc));
    a.told((a.edition, a.count))
}
