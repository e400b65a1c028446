//! The public calls, one function each.
//!
//! "Each call that takes a table also takes an expected edition", before the table's bytes. "Checks go in the order of these
//! numbers", but for 10, which goes "straight after number 2", each call making only those on things it's given; and "no buffer or
//! state changes" when it refuses: nothing is written until the last check has passed.

mod admit;
mod judging;
mod lists;
mod running;
mod schedules;
#[cfg(test)]
mod tests;

pub use crate::capture::{read_capture_record, write_capture_record, CaptureRecord};
pub use crate::records::write_transaction;
pub use crate::records::{read_command, read_later, read_table, read_transaction};
pub use crate::records::{write_command, write_group_table, write_later, write_table};
pub use crate::records::{Command, GroupTable, Refusal, Table, Transaction};
pub use crate::rules::{PatternVerdict, Verdict};
pub use crate::scheduler::{Bank, Group, State as Controller, NEVER};
pub use crate::serves::Served;
pub use judging::*;
pub use lists::*;
pub use running::*;
pub use schedules::*;
