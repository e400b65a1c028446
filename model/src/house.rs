//! The house tables, tables in which one number outgrows the others, and what else the cases are made from.

use crate::desk::{schedule_bytes, schedule_later_bytes, Refusal, Scheduled, Transaction};
pub use crate::records::{whole, B, BANKS, CCD, GROUPS, LONGS, RFC};
use crate::records::{GroupTable, Table, EDITION, REFRESH};
use crate::rules::{ACT, RDA, WRA};

pub const RC: usize = 7;
pub const FAW: usize = 9;
pub const RL: usize = 10;
pub const RTP: usize = 12;

/// In the order of the record: edition, banks, B, CCD, RCD, RP, RAS, RC, RRD, FAW, RL, WL, RTP, WR, WTR, RFC.
pub const TABLE_A: Table = [7, 8, 4, 4, 10, 10, 28, 38, 6, 32, 10, 8, 6, 12, 6, 0];
pub const TABLE_B: Table = [7, 8, 4, 4, 10, 10, 28, 38, 6, 155, 10, 8, 6, 12, 6, 0];
pub const TABLE_C: Table = [7, 8, 4, 4, 10, 10, 28, 38, 6, 32, 10, 8, 2, 12, 6, 0];
/// No two numbers alike, B below CCD, FAW no multiple of 4.
pub const TABLE_T: Table = [9, 6, 4, 5, 11, 12, 26, 40, 7, 33, 13, 10, 8, 14, 3, 0];

/// The team's own table of 40 bytes: table A's numbers, 4 groups, long CCD 9, long RRD 20, long WTR 13.
pub const TABLE_D: GroupTable = [
    7, 8, 4, 4, 10, 10, 28, 38, 6, 32, 10, 8, 6, 12, 6, 0, 4, 9, 20, 13,
];

/// A table of 40 bytes, of which the last 8 are two writes where transactions are read there.
pub const TWO_WRITES: GroupTable = [
    7, 8, 4, 4, 10, 10, 28, 38, 6, 32, 10, 8, 6, 12, 6, 0, 1, 257, 257, 257,
];

/// Every number the least that is accepted, and every number the greatest.
pub const LEAST: Table = [1, 16, 1, 2, 1, 1, 1, 1, 1, 1, 1, 1, 1, 1, 1, 0];
pub const GREATEST: Table = [
    65535, 16, 1023, 1023, 1023, 1023, 1023, 1023, 1023, 1023, 1023, 1023, 1023, 1023, 1023, 1023,
];

/// One number, or one pair of numbers, that stands far out.
pub const ODD: [Table; 12] = [
    [300, 1, 4, 4, 10, 10, 28, 38, 6, 32, 10, 8, 6, 12, 6, 0],
    [301, 16, 2, 2, 3, 4, 5, 60, 2, 5, 3, 2, 2, 3, 2, 70],
    [302, 16, 2, 2, 3, 4, 700, 20, 2, 5, 3, 2, 2, 3, 2, 0],
    [303, 16, 1, 2, 3, 4, 5, 6, 40, 5, 3, 2, 2, 3, 2, 1],
    [304, 16, 1, 3, 3, 4, 5, 6, 2, 1023, 3, 2, 2, 3, 2, 0],
    [305, 16, 2, 2, 2, 4, 5, 6, 2, 5, 1, 255, 2, 3, 2, 1023],
    [306, 16, 2, 2, 2, 4, 5, 6, 2, 5, 1023, 1, 2, 3, 2, 0],
    [307, 16, 3, 7, 2, 4, 5, 6, 2, 5, 3, 2, 90, 3, 2, 33],
    [308, 5, 2, 3, 2, 4, 5, 6, 2, 5, 3, 2, 2, 630, 2, 0],
    [309, 11, 2, 3, 2, 4, 5, 6, 2, 5, 3, 2, 2, 3, 400, 255],
    [310, 3, 2, 41, 77, 4, 5, 6, 2, 5, 3, 2, 2, 3, 2, 0],
    [
        311, 13, 5, 11, 13, 17, 19, 23, 29, 31, 37, 41, 43, 47, 53, 59,
    ],
];

/// Table A with an edition of its own, and a refresh.
pub const REFRESHED: Table = [70, 8, 4, 4, 10, 10, 28, 38, 6, 32, 10, 8, 6, 12, 6, 50];

/// A read and a write of bank 0, as bytes.
pub const READ: [u8; 4] = [0, 0, 1, 1];
pub const WRITE: [u8; 4] = [1, 0, 1, 1];

/// A refresh, as bytes.
pub const REFRESH_BYTES: [u8; 4] = [REFRESH, 0, 0, 0];

/// A table's edition and an expected one that differs: 0, a neighbour, the two bytes swapped, one of them alike, the least and the
/// greatest.
pub const OTHER_EDITIONS: [(u16, u16); 13] = [
    (7, 8),
    (7, 0),
    (7, 0x0700),
    (7, 0x0107),
    (0x012c, 0x2c01),
    (65535, 0),
    (0x012c, 0x002c),
    (0x012c, 0x0100),
    (7, 6),
    (1, 65535),
    (256, 0),
    (256, 1),
    (65535, 65534),
];

/// Table A with each of those editions, and the expected one; and with one whose low byte is 0 and that is expected.
pub fn other_editions() -> impl Iterator<Item = (Table, u16)> {
    let editions = OTHER_EDITIONS.into_iter().chain([(256, 256)]);
    editions.map(|(edition, expected)| (with(&[(EDITION, edition)]), expected))
}

/// Tables that number 2 refuses, each with an expected edition.
pub fn refused_tables() -> [(Table, u16); 4] {
    [
        (with(&[(RFC, 1024)]), 8),
        (with(&[(RFC, 1024), (EDITION, 0)]), 0),
        (with(&[(CCD, 1)]), 8),
        (with(&[(BANKS, 17)]), 0),
    ]
}

/// Table A with some numbers changed.
pub fn with(changes: &[(usize, u16)]) -> Table {
    let mut t = TABLE_A;
    for &(i, n) in changes {
        t[i] = n;
    }
    t
}

/// The sixteen numbers in so many groups, with these long numbers.
pub fn grouped(t: &Table, groups: u16, longs: [u16; 3]) -> GroupTable {
    let mut all = [0; 20];
    all[..16].copy_from_slice(t);
    all[GROUPS] = groups;
    all[GROUPS + 1..].copy_from_slice(&longs);
    all
}

/// Table A's numbers in each count of groups, of which most don't divide the banks; then as many banks as groups; then the least numbers
/// and the greatest, with the greatest long ones.
pub fn group_tables() -> Vec<GroupTable> {
    let counts = [
        (1, 8),
        (2, 5),
        (3, 16),
        (4, 6),
        (5, 16),
        (6, 11),
        (7, 16),
        (8, 16),
        (3, 3),
        (8, 8),
    ];
    let of_a = counts.iter().map(|&(groups, banks)| {
        let t = with(&[(EDITION, 400 + 16 * groups + banks), (BANKS, banks)]);
        grouped(&t, groups, [4 + groups, 6 + 3 * groups, 5 + 2 * groups])
    });
    let ends = [LEAST, GREATEST].map(|t| grouped(&t, 8, [1023; 3]));
    of_a.chain(ends).collect()
}

/// The record of a table's sixteen numbers, or of its twenty.
pub fn bytes_of(t: &[u16]) -> Vec<u8> {
    t.iter().flat_map(|n| n.to_le_bytes()).collect()
}

pub fn command(cycle: u32, kind: u8, bank: u8, transaction: u16) -> [u8; 8] {
    let [c0, c1, c2, c3] = cycle.to_le_bytes();
    let [t0, t1] = transaction.to_le_bytes();
    [c0, c1, c2, c3, kind, bank, t0, t1]
}

/// Commands, each with its kind, bank and transaction number, in this order: so far apart that no distance of table A, with a refresh or
/// without, is too short.
pub fn loose(order: &[(u8, u8, u16)]) -> Vec<u8> {
    let at = |(&(kind, bank, number), i): (_, u32)| command(60 * i, kind, bank, number);
    order.iter().zip(0..).flat_map(at).collect()
}

/// A record of 8 bytes.
pub fn later(x: [u8; 4], arrival: u32) -> [u8; 8] {
    Transaction::of(&x).arriving(arrival).eight()
}

/// Records of 8 bytes, each with its arrival.
pub fn arriving(list: &[[u8; 4]], arrivals: &[u32]) -> Vec<[u8; 8]> {
    let both = list.iter().zip(arrivals);
    both.map(|(&x, &arrival)| later(x, arrival)).collect()
}

/// Of records of either size.
pub fn transactions(list: &[impl AsRef<[u8]>]) -> Vec<Transaction> {
    list.iter().map(|x| Transaction::of(x.as_ref())).collect()
}

/// What a transaction, of a record of either size, puts into each queue: its ACTs or its REF, and its data commands.
pub fn queued(x: &[u8]) -> [usize; 2] {
    let x = Transaction::of(x);
    if x.kind == REFRESH {
        return [1, 0];
    }
    let [bi, bc] = [x.bi, x.bc].map(usize::from);
    [bi, bi * bc]
}

/// The commands due.
pub fn due(list: &[impl AsRef<[u8]>]) -> usize {
    let one = |x: &[u8]| queued(x).iter().sum::<usize>();
    list.iter().map(|x| one(x.as_ref())).sum()
}

/// 8 bytes for each command.
pub fn room_for(list: &[impl AsRef<[u8]>]) -> usize {
    8 * due(list)
}

type Build = fn(u16, &[u8], &[u8], &mut [u8], &mut [u32]) -> Result<Scheduled, Refusal>;

fn built_by<const N: usize>(build: Build, table: &[u16], list: &[[u8; N]]) -> (Vec<u8>, Vec<u32>) {
    let mut room = vec![0; room_for(list)];
    let mut finishes = vec![0; list.len()];
    let (edition, bytes) = (table[EDITION], list.concat());
    build(edition, &bytes_of(table), &bytes, &mut room, &mut finishes)
        .expect("the list is accepted");
    (room, finishes)
}

/// The schedule of an accepted list, as bytes, and the finishing cycles.
pub fn built(table: &[u16], list: &[[u8; 4]]) -> (Vec<u8>, Vec<u32>) {
    built_by(schedule_bytes, table, list)
}

/// The same of records of 8 bytes.
pub fn built_later(table: &[u16], list: &[[u8; 8]]) -> (Vec<u8>, Vec<u32>) {
    built_by(schedule_later_bytes, table, list)
}

/// Patterns whose copy 2 breaks by a long number of table D at length 59: by rule 6, its first ACT against an ACT of copy 1, and by rule 9,
/// its first read against a write; each also where a neighbour hides that one.
pub fn long_in_copy_2() -> [Vec<(u32, u8, u8)>; 4] {
    let act = [(0, ACT, 0), (10, RDA, 0), (40, ACT, 4), (50, RDA, 4)];
    let write = [(0, ACT, 0), (10, RDA, 0), (20, ACT, 4), (45, WRA, 4)];
    let mut hidden_act = act.to_vec();
    hidden_act.insert(3, (46, ACT, 1));
    hidden_act.push((56, RDA, 1));
    let mut hidden_write = write.to_vec();
    hidden_write.insert(3, (26, ACT, 1));
    hidden_write.push((49, WRA, 1));
    [act.to_vec(), hidden_act, write.to_vec(), hidden_write]
}

/// A linear congruential generator, so that the cases are the same on every machine.
pub struct Numbers(pub u64);

impl Numbers {
    pub fn byte(&mut self) -> u8 {
        self.0 = self
            .0
            .wrapping_mul(6364136223846793005)
            .wrapping_add(1442695040888963407);
        (self.0 >> 56) as u8
    }

    pub fn below(&mut self, n: usize) -> usize {
        self.byte() as usize % n
    }

    pub fn bytes(&mut self, n: usize) -> Vec<u8> {
        (0..n).map(|_| self.byte()).collect()
    }

    pub fn of<T: Copy>(&mut self, choices: &[T]) -> T {
        choices[self.below(choices.len())]
    }
}
