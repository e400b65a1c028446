//! The bound.

use crate::records::{refused_by, GroupTable, Refusal, BANKS};
use crate::rules::Times;

/// S of the bound, in which "CCD, RRD and WTR are the long ones". "A REF itself comes within S of where its count starts."
pub fn longest_wait(t: &Times) -> u64 {
    [
        1,
        t.ras.saturating_sub(t.rcd) + t.rp,
        t.rc.saturating_sub(t.rcd),
        t.rtp + t.rp,
        t.wl + t.b + t.wr + t.rp,
        t.long_rrd.saturating_sub(t.rcd),
        t.faw.saturating_sub(t.rcd),
    ]
    .into_iter()
    .fold(0, u64::max)
}

/// "In the bound CCD, RRD and WTR are the long ones", whatever the banks' groups.
pub fn bound(table: &GroupTable, bi: u8, bc: u8) -> Result<u64, Refusal> {
    let counts = (1..=16).contains(&bi) && (1..=16).contains(&bc);
    if !counts || u16::from(bi) > table[BANKS] {
        return refused_by(table, 4, 0);
    }
    let t = Times::of(table);
    let (bi, bc) = (u64::from(bi), u64::from(bc));
    let n = bi * bc;
    let s = longest_wait(&t);
    let d = t.long_rrd.max((t.faw + 3) / 4);
    let ccd = t.long_ccd;
    let x = ccd
        .max(t.distance(true, true, false))
        .max(t.distance(true, false, true));
    let banks_opened = (bi - 1) * (d + 1) + (bc - 1) * ccd;
    Ok((x + (n - 1) * ccd).max(s + t.rcd + ((n - 1) * ccd).max(banks_opened)))
}
