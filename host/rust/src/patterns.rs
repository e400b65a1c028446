//! The shortest pattern.

use crate::raw::*;
use crate::{told, Refusal};

#[derive(Debug, Clone, Copy, PartialEq, Eq)]
pub struct Shortest {
    pub edition: u32,
    /// The least.
    pub length: u32,
    pub commands: u32,
}

/// Refused with 1, 2, 10, 4, 5 and 13. Of a type (0 read, 1 write), BI and BC, up to a greatest length; writes the first pattern of the least.
pub fn shortest_pattern(
    expected: u16,
    table: &[u8],
    kind: u8,
    bi: u8,
    bc: u8,
    most: u32,
    pattern: &mut [u8],
) -> Result<Shortest, Refusal> {
    let a = call!(skv_shortest_pattern(
        expected,
        &table,
        kind,
        bi,
        bc,
        most,
        &mut pattern
    ));
    let shortest = Shortest {
        edition: a.edition,
        length: a.length,
        commands: a.count,
    };
    told(a.refused, a.position, a.edition, shortest)
}
