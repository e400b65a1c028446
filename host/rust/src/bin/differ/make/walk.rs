//! Schedules that no cycle rule gives: any command to any bank, each as early as the timing allows, or a little before or after.
//!
//! Where this is wrong about the timing, the schedule is only less legal than it might be.

use model::desk::GroupTable;
use model::house::GROUPS;

use crate::numbers::Random;

#[derive(Clone, Copy)]
struct Bank {
    open: bool,
    act: i64,
    /// Its precharge start + RP.
    precharged: i64,
}

struct Walk {
    t: [i64; 20],
    cycle: i64,
    banks: [Bank; 16],
    /// Newest first.
    acts: [i64; 4],
    /// The latest ACT, RD and WR of each group.
    groups: [[i64; 3]; 8],
    refresh: i64,
}

const LONG_AGO: i64 = -100_000;

impl Walk {
    fn earliest(&self, kind: u8, bank: usize) -> i64 {
        let [_, banks, b, ccd, rcd, _, _, rc, rrd, faw, rl, wl, _, _, wtr, rfc, ..] = self.t;
        let [.., groups, long_ccd, long_rrd, long_wtr] = self.t;
        let own = &self.banks[bank];
        let after_groups = |by: &dyn Fn([i64; 3], i64, i64, i64) -> i64| {
            let of = |(place, &group): (usize, &[i64; 3])| match place == bank % groups as usize {
                true => by(group, long_ccd, long_rrd, long_wtr),
                false => by(group, ccd, rrd, wtr),
            };
            let all = self.groups[..groups as usize].iter().enumerate();
            all.map(of).fold(LONG_AGO, i64::max)
        };
        let least = match kind {
            0 => (own.act + rc)
                .max(own.precharged)
                .max(after_groups(&|[act, _, _], _, rrd, _| act + rrd))
                .max(self.acts[3] + faw)
                .max(self.refresh + rfc),
            1 | 2 => (own.act + rcd).max(after_groups(&|[_, rd, wr], ccd, _, wtr| {
                (rd + ccd).max(wr + ccd.max(wl + b + wtr))
            })),
            5 => self.banks[..banks as usize]
                .iter()
                .fold(self.refresh + rfc, |least, b| least.max(b.precharged)),
            _ => (own.act + rcd).max(after_groups(&|[_, rd, wr], ccd, _, _| {
                (wr + ccd).max(rd + ccd.max(rl + ccd + 2 - wl))
            })),
        };
        least.max(self.cycle + 1)
    }

    fn note(&mut self, cycle: i64, kind: u8, bank: usize) {
        let [_, _, b, _, _, rp, ras, _, _, _, _, wl, rtp, wr, ..] = self.t;
        self.cycle = cycle;
        if kind == 5 {
            self.refresh = cycle;
            return;
        }
        let group = &mut self.groups[bank % self.t[GROUPS] as usize];
        let own = &mut self.banks[bank];
        own.open = kind == 0 || kind % 2 == 1;
        let until = match kind {
            0 => {
                own.act = cycle;
                own.precharged = LONG_AGO;
                self.acts.rotate_right(1);
                self.acts[0] = cycle;
                group[0] = cycle;
                cycle + ras + rp
            }
            1 | 2 => {
                group[1] = cycle;
                cycle + rtp + rp
            }
            _ => {
                group[2] = cycle;
                cycle + wl + b + wr + rp
            }
        };
        own.precharged = own.precharged.max(until);
    }
}

fn slack(r: &mut Random) -> i64 {
    match r.below(12) {
        0 => 1,
        1 => r.range(2, 4).into(),
        2 if r.one_in(3) => r.range(5, 300).into(),
        _ => 0,
    }
}

/// About so many records, with one of them perhaps early.
pub fn records(r: &mut Random, table: &GroupTable, size: usize) -> Vec<[u8; 8]> {
    let mut walk = Walk {
        t: table.map(i64::from),
        cycle: -1,
        banks: [Bank {
            open: false,
            act: LONG_AGO,
            precharged: LONG_AGO,
        }; 16],
        acts: [LONG_AGO; 4],
        groups: [[LONG_AGO; 3]; 8],
        refresh: LONG_AGO,
    };
    let banks = usize::from(table[1]);
    let used = if r.one_in(2) {
        banks
    } else {
        banks.min(1 + r.below(3))
    };
    let early = if r.one_in(2) {
        r.below(size + 1)
    } else {
        size * 2
    };
    let mut records = Vec::new();
    let mut put = |walk: &mut Walk, r: &mut Random, kind: u8, bank: usize| {
        let mut cycle = walk.earliest(kind, bank) + slack(r);
        if records.len() == early {
            // A cycle early, or by so much that several rules are broken and the first of them is told.
            cycle = match r.below(3) {
                0 => walk.cycle + 1,
                _ => (cycle - 1).max(0),
            };
        }
        walk.note(cycle, kind, bank);
        records.push(model::house::command(
            cycle as u32,
            kind,
            bank as u8,
            r.u32() as u16,
        ));
    };
    // Many ACTs one after the other, for rules 6 and 7.
    let opens = r.one_in(3);
    let refreshes = r.one_in(2);
    for _ in 0..size {
        // A REF: after all banks are closed, or seldom whatever they are.
        if refreshes && r.one_in(6) {
            for bank in 0..used {
                if walk.banks[bank].open && !r.one_in(24) {
                    let kind = r.of_these(&[2, 4]);
                    put(&mut walk, r, kind, bank);
                }
            }
            put(&mut walk, r, 5, 0);
            continue;
        }
        let mut bank = r.below(used);
        if opens && walk.banks[bank].open {
            bank = (0..used).find(|&b| !walk.banks[b].open).unwrap_or(bank);
        }
        let kind = match walk.banks[bank].open {
            false => 0,
            true => r.range(1, 4) as u8,
        };
        put(&mut walk, r, kind, bank);
    }
    if !r.one_in(10) {
        for bank in 0..used {
            if walk.banks[bank].open {
                let kind = r.of_these(&[2, 4]);
                put(&mut walk, r, kind, bank);
            }
        }
    }
    records
}
