//! The three records of document 01, request 7's second table record and request 9's second transaction record: a reader and a writer of
//! each, and the refusals.
//!
//! Numbers are little-endian. A writer checks the values as the reader would, and the room. The checks go in the order of their
//! numbers, and a refused writer changes no byte.

mod command;
mod refusal;
mod tables;
mod transactions;

pub use command::*;
pub use refusal::*;
pub use tables::*;
pub use transactions::*;
