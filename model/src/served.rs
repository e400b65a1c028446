//! The cases of the program `served`, and the line of each.
//!
//! A case is `[call][expected: u16][t: u8][l: u16][n: u16][t bytes][l bytes][n bytes]`. The t bytes are the table, the n bytes are the
//! schedule. Call 1 takes the l bytes as transactions of 4 bytes each, call 2 as transactions of 8.

mod cases;
mod edits;
mod faults;
mod long;
mod put;
mod refusals;
#[cfg(test)]
mod tests;
mod told;

pub use cases::cases;
pub use told::lines;
