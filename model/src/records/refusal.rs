//! What a refused caller is told.

use std::fmt;

/// "What the caller is told".
#[derive(Debug, Clone, Copy, PartialEq, Eq)]
pub struct Refusal {
    pub number: u8,
    pub position: u32,
    pub edition: u16,
}

impl fmt::Display for Refusal {
    fn fmt(&self, f: &mut fmt::Formatter) -> fmt::Result {
        let (number, position, edition) = (self.number, self.position, self.edition);
        write!(f, "refused {number} at {position} edition {edition}")
    }
}

/// The refusal of one record. Every position is 0, the number of the only transaction included; and so is the edition, since 1 and 2
/// name edition 0 and the other calls are given no table.
pub fn refused<T>(number: u8) -> Result<T, Refusal> {
    Err(Refusal {
        number,
        position: 0,
        edition: 0,
    })
}
