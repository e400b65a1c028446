//! A table's numbers, and what it admits.

use model::desk::Transaction;

use super::REFRESH;

/// A table's numbers in whole cycles.
pub struct Times {
    pub banks: u8,
    /// How many groups there are, and each bank's.
    pub groups: usize,
    pub group: [u8; 16],
    pub rcd: i64,
    pub faw: i64,
    pub rc: i64,
    /// From a bank's ACT, RD and WR to its next ACT, by way of its precharge.
    pub act_to_act: i64,
    pub rd_to_act: i64,
    pub wr_to_act: i64,
    /// Within a group, and across.
    pub near: Apart,
    pub across: Apart,
    /// From the last RD or WR to the end of its transaction.
    pub to_finish: [i64; 2],
    pub rfc: i64,
}

/// Between commands of one group, or of two.
pub struct Apart {
    pub rrd: i64,
    /// One row for each earlier kind: RD, WR.
    pub distances: [[i64; 2]; 2],
}

/// The last arrival there is.
pub const LATEST: u32 = 20_000_000;

impl Times {
    /// None for a table that is refused, and for one of another edition than is expected.
    pub fn read(expected: u16, bytes: &[u8]) -> Option<Times> {
        if bytes.len() != 32 && bytes.len() != 40 {
            return None;
        }
        let mut t = [0; 20];
        for (number, pair) in t.iter_mut().zip(bytes.chunks_exact(2)) {
            *number = i64::from(u16::from_le_bytes([pair[0], pair[1]]));
        }
        let [edition, banks, b, ccd, rcd, rp, ras, rc, rrd, faw, rl, wl, rtp, wr, wtr, rfc, ..] = t;
        let [groups, long_ccd, long_rrd, long_wtr] = match bytes.len() {
            32 => [1, ccd, rrd, wtr],
            _ => [t[16], t[17], t[18], t[19]],
        };
        let in_range = t[2..15].iter().all(|n| (1..=1023).contains(n)) && rfc <= 1023;
        if edition == 0 || edition != expected.into() || !(1..=16).contains(&banks) || !in_range {
            return None;
        }
        if ccd < 2 || ccd < b || !(1..=8.min(banks)).contains(&groups) {
            return None;
        }
        let longs = [(long_ccd, ccd), (long_rrd, rrd), (long_wtr, wtr)];
        if longs
            .iter()
            .any(|&(long, short)| long > 1023 || long < short)
        {
            return None;
        }
        let apart = |ccd: i64, rrd, wtr| {
            let turn_to_write = ccd.max(rl + ccd + 2 - wl);
            let turn_to_read = ccd.max(wl + b + wtr);
            Apart {
                rrd,
                distances: [[ccd, turn_to_write], [turn_to_read, ccd]],
            }
        };
        Some(Times {
            banks: banks as u8,
            groups: groups as usize,
            group: std::array::from_fn(|bank| (bank % groups as usize) as u8),
            rcd,
            faw,
            rc,
            act_to_act: ras + rp,
            rd_to_act: rtp + rp,
            wr_to_act: wl + b + wr + rp,
            near: apart(long_ccd, long_rrd, long_wtr),
            across: apart(ccd, rrd, wtr),
            to_finish: [rl + b, 0],
            rfc,
        })
    }

    /// Whether the table admits the transaction.
    fn admits(&self, x: &Transaction) -> bool {
        if x.arrival > LATEST {
            return false;
        }
        if x.kind == REFRESH {
            return self.rfc > 0 && [x.start, x.bi, x.bc] == [0; 3];
        }
        let counts = |n: u8| (1..=16).contains(&n);
        x.kind <= 1 && counts(x.bi) && counts(x.bc) && x.start < self.banks && x.bi <= self.banks
    }

    /// Whether it admits each, and none arrives before the one before it.
    pub fn admits_all(&self, list: &[Transaction]) -> bool {
        list.len() <= 256
            && list.iter().all(|x| self.admits(x))
            && list
                .windows(2)
                .all(|pair| pair[0].arrival <= pair[1].arrival)
    }

    pub fn apart(&self, near: bool) -> &Apart {
        match near {
            true => &self.near,
            false => &self.across,
        }
    }

    /// Of a bank below 16.
    pub fn group_of(&self, bank: u8) -> usize {
        self.group[usize::from(bank % 16)].into()
    }

    /// The bank that comes so many after the start; bank 0 comes after the last.
    pub fn bank(&self, x: &Transaction, after: u8) -> u8 {
        let bank = x.start + after;
        if bank < self.banks {
            bank
        } else {
            bank - self.banks
        }
    }
}
