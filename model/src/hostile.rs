//! The cases of the program `hostile`, and the line of each.
//!
//! A case is `[call][n][n bytes]`. Calls 1, 3, 5 and 8 read a table, a transaction of 4 bytes, a command and a transaction of 8 bytes from
//! the bytes. Calls 2, 4, 6, 7 and 9 write a table of 32 bytes, a transaction of 4, a command, a table of 40 bytes and a transaction of 8:
//! its values come first, in 32, 4, 8, 40 or 8 bytes, and the rest is the buffer.

mod cases;
mod put;
mod tables;
mod told;

pub use cases::cases;
pub use told::lines;
