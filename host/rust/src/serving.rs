//! Whether a schedule serves a list.

use crate::raw::*;
use crate::{told, Refusal};

/// The rule is the papers' number; records and transactions count from 0.
#[derive(Debug, Clone, Copy, PartialEq, Eq)]
pub enum Served {
    Serves,
    /// The judge's verdict against the schedule.
    Broken {
        rule: u32,
        record: u32,
    },
    /// The lowest transaction at fault, or the list's length where none is and a record's number is outside the list.
    AtFault {
        transaction: u32,
    },
}

fn answered(a: ServesAnswer) -> Result<(u32, Served), Refusal> {
    let served = match a {
        ServesAnswer { serves: 1, .. } => Served::Serves,
        ServesAnswer { rule: 0, .. } => Served::AtFault {
            transaction: a.transaction,
        },
        ServesAnswer { rule, record, .. } => Served::Broken { rule, record },
    };
    told(a.refused, a.position, a.edition, (a.edition, served))
}

/// A call for each form of the list, whose entries are transactions or bytes.
macro_rules! serve {
    ($($(#[$said:meta])* $name:ident($entry:ty): $call:ident;)*) => {$(
        $(#[$said])*
        pub fn $name(
            expected: u16,
            table: &[u8],
            list: &[$entry],
            schedule: &[u8],
        ) -> Result<(u32, Served), Refusal> {
            answered(call!($call(expected, &table, &list, &schedule)))
        }
    )*};
}

serve! {
    /// Refused with 1, 2, 10, 3, 4 and 7. Answers the edition, and whether the schedule serves the list.
    serves(Transaction): skv_serves;
    /// The same from the transactions' bytes.
    serves_bytes(u8): skv_serves_bytes;
    /// The same from records of 8 bytes.
    serves_later_bytes(u8): skv_serves_later_bytes;
}
