//! The cases of the program `verdicts`, and the line of each.
//!
//! A case is `[call][expected: u16][length: u32][t: u8][n: u16][t bytes][n bytes]`. The t bytes are the table. Call 1 judges the n bytes
//! as a schedule and has no use for the length, call 2 judges them as a pattern of that length.

mod broken;
mod cases;
mod editions;
mod groups;
mod put;
mod refreshes;
mod search;
#[cfg(test)]
mod tests;
mod told;

pub use cases::{cases, schedules};
pub use told::lines;
