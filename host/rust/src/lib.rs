//! The desk's calls for Rust: safe functions over the archive that `host/archive` makes.
//!
//! Any bytes may be handed in. A refused call changes no buffer and no controller. A call that is not refused writes each result from its
//! buffer's start and leaves all beyond as it stood. Each call that is lent a table is told before it which edition is expected.
//! `skvorzhan.h` says what each call checks and writes. A call with `straight` in its name does the same as the one without, by the second engine,
//! which passes over the cycles at which nothing goes: its time goes with the commands and not with the cycles.

mod captures;
mod patterns;
pub mod raw;
mod records;
mod running;
mod schedules;
mod serving;

pub use captures::*;
pub use patterns::*;
pub use raw::{Controller, HostBank, HostGroup, Transaction};
pub use records::*;
pub use running::*;
pub use schedules::*;
pub use serving::*;

use raw::Answer;
use std::fmt;

/// A stored cycle of a controller that stands for "never".
pub const NEVER: u32 = u32::MAX;

/// The number and the position, and the edition of the table: 0 where none is given, and for numbers 1 and 2.
#[derive(Debug, Clone, Copy, PartialEq, Eq)]
pub struct Refusal {
    pub number: u32,
    pub position: u32,
    pub edition: u32,
}

impl fmt::Display for Refusal {
    fn fmt(&self, f: &mut fmt::Formatter) -> fmt::Result {
        let (number, position, edition) = (self.number, self.position, self.edition);
        write!(f, "refused {number} at {position} edition {edition}")
    }
}

impl std::error::Error for Refusal {}

fn told<T>(refused: u32, position: u32, edition: u32, value: T) -> Result<T, Refusal> {
    if refused == 0 {
        return Ok(value);
    }
    Err(Refusal {
        number: refused,
        position,
        edition,
    })
}

impl Answer {
    fn told<T>(self, value: T) -> Result<T, Refusal> {
        told(self.refused, self.position, self.edition, value)
    }
}
