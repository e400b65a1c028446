//! The numbers of a table, and the distances that they give.

use crate::records::GroupTable;

/// A table's numbers, in a width in which no sum wraps.
pub struct Times {
    pub banks: u64,
    pub b: u64,
    pub ccd: u64,
    pub rcd: u64,
    pub rp: u64,
    pub ras: u64,
    pub rc: u64,
    pub rrd: u64,
    pub faw: u64,
    pub rl: u64,
    pub wl: u64,
    pub rtp: u64,
    pub wr: u64,
    pub wtr: u64,
    pub rfc: u64,
    pub groups: u64,
    pub long_ccd: u64,
    pub long_rrd: u64,
    pub long_wtr: u64,
}

impl Times {
    pub fn of(t: &GroupTable) -> Times {
        let t = t.map(u64::from);
        let [_, banks, b, ccd, rcd, rp, ras, rc, rrd, faw, rl, wl, rtp, wr, wtr, rfc, ..] = t;
        let [.., groups, long_ccd, long_rrd, long_wtr] = t;
        Times {
            banks,
            b,
            ccd,
            rcd,
            rp,
            ras,
            rc,
            rrd,
            faw,
            rl,
            wl,
            rtp,
            wr,
            wtr,
            rfc,
            groups,
            long_ccd,
            long_rrd,
            long_wtr,
        }
    }

    /// "A bank's group is its number modulo the number of groups."
    pub fn group(&self, bank: u8) -> usize {
        usize::from(bank) % self.groups as usize
    }

    /// RRD: "the long number within a group and the short across".
    pub fn act_distance(&self, near: bool) -> u64 {
        if near {
            self.long_rrd
        } else {
            self.rrd
        }
    }

    /// "A difference below 0 counts as 0." Within a group CCD and WTR are the long ones, in each place.
    pub fn distance(&self, near: bool, earlier_reads: bool, later_reads: bool) -> u64 {
        let (ccd, wtr) = if near {
            (self.long_ccd, self.long_wtr)
        } else {
            (self.ccd, self.wtr)
        };
        match (earlier_reads, later_reads) {
            (true, false) => ccd.max((self.rl + ccd + 2).saturating_sub(self.wl)),
            (false, true) => ccd.max(self.wl + self.b + wtr),
            _ => ccd,
        }
    }
}
