//! The cases of the program `runs`, and the lines of each.
//!
//! A case is `[call][expected: u16][t: u8]` and then, for call 1, a build, `[room: u16][slots: u16][n: u16][t bytes][n bytes]`; for call 2,
//! a run, `[count: u32][room: u16][n: u16][state: 342 bytes][t bytes][n bytes]`; for call 3, a bound, `[BI][BC][t bytes]`. The t bytes are
//! the table, the rooms are in bytes, the n bytes are the transactions, of 4 bytes each; calls 4 and 5 are a build and a run of transactions
//! of 8 bytes. A state stands there with 16 bits of its edition and 8 of each bank's `opened`, the others being 0. A case of any other call
//! has no end, so nothing after it is read.

mod arrivals;
mod cases;
mod controller;
mod editions;
mod groups;
mod lists;
mod pieces;
mod put;
mod refreshes;
mod states;
#[cfg(test)]
mod tests;
mod told;

pub use cases::cases;
pub use told::lines;
