//! Of a schedule that breaks rule 6 or 9 under a table of several groups: by which earlier commands it does.

use crate::case::Case;

/// By one of its own group, by one of another group, and by one of its own group that a later command of another group hides.
#[derive(Debug, Default, Clone, Copy, PartialEq, Eq)]
pub struct By {
    pub within: bool,
    pub across: bool,
    pub hidden: bool,
}

#[derive(Clone, Copy, PartialEq, Eq)]
enum Sort {
    Act,
    Read,
    Write,
    None,
}

struct Record {
    cycle: u64,
    sort: Sort,
    group: u16,
}

fn read(c: &[u8], groups: u16) -> Record {
    Record {
        cycle: u32::from_le_bytes([c[0], c[1], c[2], c[3]]).into(),
        sort: match c[4] {
            0 => Sort::Act,
            1 | 2 => Sort::Read,
            3 | 4 => Sort::Write,
            _ => Sort::None,
        },
        group: u16::from(c[5]) % groups,
    }
}

/// How far the later must be from the earlier.
fn distance(t: &[u16; 20], earlier: &Record, later: &Record) -> u64 {
    let [_, _, b, ccd, _, _, _, _, rrd, _, rl, wl, _, _, wtr, ..] = t.map(u64::from);
    let [.., long_ccd, long_rrd, long_wtr] = t.map(u64::from);
    let (ccd, rrd, wtr) = match earlier.group == later.group {
        true => (long_ccd, long_rrd, long_wtr),
        false => (ccd, rrd, wtr),
    };
    match (earlier.sort, later.sort) {
        (Sort::Act, Sort::Act) => rrd,
        (Sort::Read, Sort::Write) => ccd.max((rl + ccd + 2).saturating_sub(wl)),
        (Sort::Write, Sort::Read) => ccd.max(wl + b + wtr),
        (Sort::Read, Sort::Read) | (Sort::Write, Sort::Write) => ccd,
        _ => 0,
    }
}

/// Of a table with several groups.
pub fn broken_by(case: &Case, record: usize) -> Option<By> {
    let t = case.numbers();
    let groups = t[16];
    if groups < 2 {
        return None;
    }
    let records: Vec<Record> = (case.bytes.chunks_exact(8).take(record + 1))
        .map(|c| read(c, groups))
        .collect();
    let (later, before) = records.split_last()?;
    let near = |e: &Record| later.cycle < e.cycle + distance(&t, e, later);
    let newest = |sort| before.iter().rfind(|e| e.sort == sort).map_or(false, near);
    let by = |own: bool| {
        before
            .iter()
            .any(|e| (e.group == later.group) == own && near(e))
    };
    let by_newest = [Sort::Act, Sort::Read, Sort::Write].into_iter().any(newest);
    Some(By {
        within: by(true),
        across: by(false),
        hidden: !by_newest,
    })
}
