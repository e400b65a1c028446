//! The calls that decode a list.

use super::admit::{admit, Handed};
use crate::records::{Refusal, Transaction, EDITION};
use crate::scheduler::check_list;

/// What `read_transactions` answers: how many were decoded.
#[derive(Debug, Clone, Copy, PartialEq, Eq)]
pub struct Decoded {
    pub edition: u16,
    pub transactions: u32,
}

fn decoded(
    expected: u16,
    table: &[u8],
    bytes: Handed,
    places: &mut [Transaction],
) -> Result<Decoded, Refusal> {
    let table = admit(expected, table)?;
    let list = bytes.list(&table)?;
    check_list(&table, &list, places.len())?;
    places[..list.len()].copy_from_slice(&list);
    Ok(Decoded {
        edition: table[EDITION],
        transactions: list.len() as u32,
    })
}

/// A call for each form of the list.
macro_rules! decode {
    ($($(#[$said:meta])* $name:ident: $form:ident;)*) => {$(
        $(#[$said])*
        pub fn $name(
            expected: u16,
            table: &[u8],
            bytes: &[u8],
            places: &mut [Transaction],
        ) -> Result<Decoded, Refusal> {
            decoded(expected, table, Handed::$form(bytes), places)
        }
    )*};
}

decode! {
    /// Numbers 1, 2, 10, 3 and 4. "Too few places to decode into" is 3.
    read_transactions: Four;
    /// The same of records of 8 bytes.
    read_later_transactions: Eight;
}
