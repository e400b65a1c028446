//! By when each transaction of a list must finish: the proved bound, counted as documents 01 and 02 say.

use crate::desk::Table;
use skvorzhan::{Refusal, Transaction};

const READ: u8 = 0;
const REFRESH: u8 = 2;

const B: usize = 2;
const CCD: usize = 3;
const RCD: usize = 4;
const RL: usize = 10;
const WTR: usize = 14;
const RFC: usize = 15;
const LONG_CCD: usize = 17;
const LONG_WTR: usize = 19;

/// The cycles from a read's last data command to its finish.
pub fn read_tail(numbers: &[u16; 20]) -> u32 {
    u32::from(numbers[RL]) + u32::from(numbers[B])
}

/// The promised finish of each transaction, where those before it finished as told.
pub fn promised(
    table: &Table,
    list: &[Transaction],
    finishes: &[u32],
) -> Result<Vec<u32>, Refusal> {
    let numbers = table.numbers()?;
    let mut all = Vec::new();
    let mut counted_from = 0;
    for (x, finish) in list.iter().zip(finishes) {
        let tail = match x.kind {
            READ => read_tail(&numbers),
            REFRESH => numbers[RFC].into(),
            _ => 0,
        };
        let span = match x.kind {
            REFRESH => refresh_span(table, &numbers)?,
            _ => skvorzhan::bound(table.expected, &table.bytes, x.bi, x.bc)?.1,
        };
        all.push(x.arrival.max(counted_from) + span + tail);
        // From the last command on; where it was a refresh, from its finish on.
        counted_from = match x.kind {
            REFRESH => *finish,
            _ => finish.saturating_sub(tail),
        };
    }
    Ok(all)
}

/// S, within which a REF comes. No call tells it, but the bound for (1, 1) is the greater of X and S + RCD. So that is asked of a table with the same
/// numbers but for CCD, RL and WTR, which S does not have; they are as small as a table may have them, and X is then below S + RCD.
fn refresh_span(table: &Table, numbers: &[u16; 20]) -> Result<u32, Refusal> {
    let mut light = *numbers;
    light[CCD] = light[B].max(2);
    light[LONG_CCD] = light[CCD];
    for place in [RL, WTR, LONG_WTR] {
        light[place] = 1;
    }
    let mut bytes = [0; 40];
    skvorzhan::write_group_table(light, &mut bytes)?;
    let (_, bound) = skvorzhan::bound(table.expected, &bytes, 1, 1)?;
    Ok(bound - u32::from(numbers[RCD]))
}
