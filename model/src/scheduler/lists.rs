//! Lists of transactions, and what is refused of them.

use crate::records::{accepts, refused_by, GroupTable, Refusal, Transaction};

/// "At most 256 transactions."
pub const MOST_TRANSACTIONS: usize = 256;

/// Number 3 of bytes: "not a multiple of 4", or for the record of 8 bytes "a multiple of 8". What the records hold is not looked at yet.
pub fn decode(
    table: &GroupTable,
    bytes: &[u8],
    of_record: usize,
) -> Result<Vec<Transaction>, Refusal> {
    if bytes.len() % of_record != 0 {
        return refused_by(table, 3, 0);
    }
    Ok(bytes.chunks_exact(of_record).map(Transaction::of).collect())
}

/// Numbers 3 and 4 of a decoded list: "over 256 records", "too few places to decode into", "a transaction out of range", and an arrival
/// that is "less than the one before it".
pub fn check_list(table: &GroupTable, list: &[Transaction], places: usize) -> Result<(), Refusal> {
    if list.len() > MOST_TRANSACTIONS || list.len() > places {
        return refused_by(table, 3, 0);
    }
    let descends = |place: usize| place > 0 && list[place].arrival < list[place - 1].arrival;
    let fault = |&place: &usize| !accepts(table, &list[place]) || descends(place);
    match (0..list.len()).find(fault) {
        Some(place) => refused_by(table, 4, place as u32),
        None => Ok(()),
    }
}
