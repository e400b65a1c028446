//! The table, of 32 bytes or of 40.

use super::refusal::{refused, Refusal};

/// The numbers of a table record of 32 bytes: edition, banks, B, CCD, RCD, RP, RAS, RC, RRD, FAW, RL, WL, RTP, WR, WTR, and as request 5
/// has it, RFC.
pub type Table = [u16; 16];

/// Request 7: "A second table record of 40 bytes has the first sixteen numbers, then the group count (1 to 8, at most banks), long CCD,
/// long RRD and long WTR".
pub type GroupTable = [u16; 20];

pub const EDITION: usize = 0;
pub const BANKS: usize = 1;
pub const B: usize = 2;
pub const CCD: usize = 3;
pub const RRD: usize = 8;
pub const WTR: usize = 14;
pub const RFC: usize = 15;
pub const GROUPS: usize = 16;
pub const LONG_CCD: usize = 17;
pub const LONG_RRD: usize = 18;
pub const LONG_WTR: usize = 19;

/// Each long number and its short one.
pub const LONGS: [(usize, usize); 3] = [(LONG_CCD, CCD), (LONG_RRD, RRD), (LONG_WTR, WTR)];

/// "The ceiling of 255 for the timing numbers goes to 1,023."
const CEILING: u16 = 1023;

/// "Edition is 1 to 65,535, banks 1 to 16, the others 1 to" request 5's 1,023; "CCD is at least 2 and at least B." RFC is "0 to 1,023",
/// and "number 1 no longer looks at it".
fn sixteen_in_range(t: &GroupTable) -> bool {
    let others = t[B..RFC].iter().all(|n| (1..=CEILING).contains(n)) && t[RFC] <= CEILING;
    t[EDITION] != 0 && (1..=16).contains(&t[BANKS]) && others && t[CCD] >= 2 && t[CCD] >= t[B]
}

/// "The group count (1 to 8, at most banks)", the long numbers "each at most 1,023; a long number below the short one is refused by
/// number 2".
fn groups_in_range(t: &GroupTable) -> bool {
    let long_enough = |&(long, short): &(usize, usize)| t[long] <= CEILING && t[long] >= t[short];
    (1..=8).contains(&t[GROUPS]) && t[GROUPS] <= t[BANKS] && LONGS.iter().all(long_enough)
}

fn check_table(sizes: &[usize], size: usize, t: &GroupTable) -> Result<(), Refusal> {
    if !sizes.contains(&size) {
        return refused(1);
    }
    if !sixteen_in_range(t) || !groups_in_range(t) {
        return refused(2);
    }
    Ok(())
}

/// "A 32-byte table counts as one group, each long number equal to its short one." Of twenty numbers, themselves.
pub fn whole(numbers: &[u16]) -> GroupTable {
    let one_group = [1, numbers[CCD], numbers[RRD], numbers[WTR]];
    let (sixteen, more) = numbers.split_at(16);
    let more = if more.is_empty() { &one_group } else { more };
    let mut t = [0; 20];
    t[..16].copy_from_slice(sixteen);
    t[16..].copy_from_slice(more);
    t
}

/// "Number 1 now refuses any size but 32 and 40."
pub fn read_table(bytes: &[u8]) -> Result<GroupTable, Refusal> {
    let pairs = bytes.chunks_exact(2);
    let mut numbers: Vec<u16> = pairs.map(|p| u16::from_le_bytes([p[0], p[1]])).collect();
    // Of another size no number is looked at.
    numbers.resize(if bytes.len() == 40 { 20 } else { 16 }, 0);
    let t = whole(&numbers);
    check_table(&[32, 40], bytes.len(), &t)?;
    Ok(t)
}

/// Answers the edition of the table written.
pub fn write_table(t: Table, room: &mut [u8]) -> Result<u16, Refusal> {
    check_table(&[32], room.len(), &whole(&t))?;
    write_numbers(&t, room);
    Ok(t[EDITION])
}

/// The same of the second table record.
pub fn write_group_table(t: GroupTable, room: &mut [u8]) -> Result<u16, Refusal> {
    check_table(&[40], room.len(), &t)?;
    write_numbers(&t, room);
    Ok(t[EDITION])
}

fn write_numbers(numbers: &[u16], room: &mut [u8]) {
    for (number, pair) in numbers.iter().zip(room.chunks_exact_mut(2)) {
        pair.copy_from_slice(&number.to_le_bytes());
    }
}

/// The refusal of a call that has read its table.
pub fn refused_by<T>(table: &GroupTable, number: u8, position: u32) -> Result<T, Refusal> {
    Err(Refusal {
        number,
        position,
        edition: table[EDITION],
    })
}
