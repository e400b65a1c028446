//! Request 7: "with one group and long equal to short, every answer equals the old (from a running state, where the group's latest ACT is
//! the first of the four)". The old rules 6 and 9, the old bound and the old running state are kept here for this alone.

use super::queues::{Queues, Waiting};
use super::*;
use crate::desk::{judge, judge_pattern, PatternVerdict, Verdict};
use crate::house::*;
use crate::records::*;
use crate::rules::*;

/// "RD to WR: the greater of CCD and RL + CCD + 2 − WL", "WR to RD: the greater of CCD and WL + B + WTR", else CCD.
fn old_distance(t: &Times, earlier_reads: bool, later_reads: bool) -> u64 {
    match (earlier_reads, later_reads) {
        (true, false) => t.ccd.max((t.rl + t.ccd + 2).saturating_sub(t.wl)),
        (false, true) => t.ccd.max(t.wl + t.b + t.wtr),
        _ => t.ccd,
    }
}

/// Rule 6, "ACT less than RRD after any ACT", and rule 9, "data command nearer to an earlier one than their distance"; the others as they
/// are.
fn old_broken(table: &GroupTable, before: &[Record], r: &Record) -> Option<u8> {
    let t = Times::of(table);
    let data = |e: &Record| e.reads() || e.writes();
    RULES.into_iter().find(|&rule| match rule {
        6 => r.acts() && before.iter().any(|e| e.acts() && r.cycle < e.cycle + t.rrd),
        9 => {
            let near = |e: &Record| r.cycle < e.cycle + old_distance(&t, e.reads(), r.reads());
            data(r) && before.iter().any(|e| data(e) && near(e))
        }
        rule => breaks(rule, table, before, r),
    })
}

fn old_bound(t: &Times, bi: u64, bc: u64) -> u64 {
    let n = bi * bc;
    let s = [
        1,
        t.ras.saturating_sub(t.rcd) + t.rp,
        t.rc.saturating_sub(t.rcd),
        t.rtp + t.rp,
        t.wl + t.b + t.wr + t.rp,
        t.rrd.saturating_sub(t.rcd),
        t.faw.saturating_sub(t.rcd),
    ];
    let s = s.into_iter().fold(0, u64::max);
    let d = t.rrd.max((t.faw + 3) / 4);
    let x = old_distance(t, true, false).max(old_distance(t, false, true));
    let opened = (bi - 1) * (d + 1) + (bc - 1) * t.ccd;
    (x + (n - 1) * t.ccd).max(s + t.rcd + ((n - 1) * t.ccd).max(opened))
}

/// Tables of 32 bytes, and the same in one group.
fn tables() -> Vec<(Table, GroupTable)> {
    let house = [
        TABLE_A, TABLE_B, TABLE_C, TABLE_T, LEAST, GREATEST, REFRESHED,
    ];
    let pair = |t: Table| (t, grouped(&t, 1, [t[CCD], t[RRD], t[WTR]]));
    house.into_iter().chain(ODD).map(pair).collect()
}

fn records(bytes: &[u8]) -> Vec<Record> {
    commands_of(bytes).iter().map(Record::of).collect()
}

/// A 32-byte table and the 40-byte one count the same, and no bound but the old one is told.
#[test]
fn tables_and_bounds() {
    for (t, one) in tables() {
        assert_eq!(read_table(&bytes_of(&t)), Ok(one));
        assert_eq!(read_table(&bytes_of(&one)), Ok(one));
        assert_eq!(whole(&t), one);
        let times = Times::of(&one);
        for (bi, bc) in (1..=t[BANKS] as u8).flat_map(|bi| [1, 2, 3, 16].map(|bc| (bi, bc))) {
            let old = old_bound(&times, bi.into(), bc.into());
            assert_eq!(bound(&one, bi, bc), Ok(old));
        }
    }
}

/// The first broken rule of schedules with a record moved, and in patterns copy by copy.
#[test]
fn verdicts() {
    let mut numbers = Numbers(71);
    let mut told = std::collections::BTreeMap::new();
    for round in 0..600 {
        let (_, table) = tables()[round % tables().len()];
        let banks = usize::from(table[BANKS]);
        let list: Vec<[u8; 4]> = (0..1 + numbers.below(3))
            .map(|_| {
                let bi = 1 + numbers.below(banks.min(4));
                let start = numbers.below(banks);
                [
                    numbers.byte() % 2,
                    start as u8,
                    bi as u8,
                    1 + numbers.byte() % 3,
                ]
            })
            .collect();
        let (mut bytes, _) = built(&table, &list);
        let place = 8 * numbers.below(bytes.len() / 8);
        let by = numbers.below(4) as u32;
        let cycle = records(&bytes[place..place + 8])[0].cycle as u32;
        bytes[place..place + 4].copy_from_slice(&cycle.saturating_sub(by).to_le_bytes());
        if numbers.below(3) == 0 {
            bytes[place + 4] = numbers.below(5) as u8;
        }
        let all = records(&bytes);
        let old = all
            .iter()
            .enumerate()
            .find_map(|(at, r)| old_broken(&table, &all[..at], r).map(|rule| (rule, at)));
        let edition = table[EDITION];
        let (_, verdict) = judge(edition, &bytes_of(&table), &bytes).expect("whole records");
        match (verdict, old) {
            (Verdict::Broken { rule, record }, Some(both)) => assert_eq!((rule, record), both),
            (Verdict::Broken { rule, .. }, None) => assert_eq!(rule, 10),
            (Verdict::Accepted, old) => assert_eq!(old, None),
        }
        *told.entry(old.map(|(rule, _)| rule)).or_insert(0) += 1;
        pattern_as_before(&table, &bytes, 1 + numbers.below(200) as u32);
    }
    for rule in [None, Some(6), Some(9)] {
        assert!(told[&rule] > 10, "{told:?}");
    }
}

fn pattern_as_before(table: &GroupTable, bytes: &[u8], length: u32) {
    let (edition, pattern) = (table[EDITION], records(bytes));
    let answer = judge_pattern(edition, &bytes_of(table), bytes, length);
    // "Each single copy must close its banks."
    let left_open = PatternVerdict::Broken {
        rule: 10,
        copy: 1,
        record: pattern.len(),
    };
    let copies = if answer == Ok((edition, left_open)) {
        1
    } else {
        6
    };
    let mut all: Vec<Record> = Vec::new();
    for copy in 1..=copies {
        for (record, r) in pattern.iter().enumerate() {
            let cycle = r.cycle + u64::from(length) * (copy - 1);
            let moved = Record { cycle, ..*r };
            if let Some(rule) = old_broken(table, &all, &moved) {
                let broken = PatternVerdict::Broken { rule, copy, record };
                assert_eq!(answer, Ok((edition, broken)));
                return;
            }
            all.push(moved);
        }
    }
    assert!(copies == 1 || answer == Ok((edition, PatternVerdict::Accepted)));
}

/// The old cycle rule from a running state that tells the last RD and WR of all, of the four ACTs the first for rule 6. Only the table's
/// times and the queues are the present ones.
struct Old {
    state: State,
    rd: u32,
    wr: u32,
}

impl Old {
    fn far(&self, stored: u32, distance: u64) -> bool {
        stored == NEVER || u64::from(stored) + distance <= u64::from(self.state.cycle)
    }

    fn data_goes(&self, t: &Times, w: &Waiting) -> bool {
        let bank = &self.state.banks[usize::from(w.bank)];
        let reads = w.kind == RD || w.kind == RDA;
        bank.opened != 0
            && self.far(bank.act, t.rcd)
            && self.far(self.rd, old_distance(t, true, reads))
            && self.far(self.wr, old_distance(t, false, reads))
    }

    fn precharged(&self, t: &Times, bank: &Bank) -> bool {
        bank.opened == 0
            && self.far(bank.act, t.ras + t.rp)
            && self.far(bank.rd, t.rtp + t.rp)
            && self.far(bank.wr, t.wl + t.b + t.wr + t.rp)
    }

    fn act_goes(&self, t: &Times, w: &Waiting) -> bool {
        let s = &self.state;
        if !self.far(s.refresh, t.rfc) {
            return false;
        }
        if w.kind == REF {
            let mut banks = s.banks[..t.banks as usize].iter();
            return banks.all(|bank| self.precharged(t, bank));
        }
        let bank = &s.banks[usize::from(w.bank)];
        self.precharged(t, bank)
            && self.far(bank.act, t.rc)
            && self.far(s.last[0], t.rrd)
            && self.far(s.last[3], t.faw)
    }

    fn step(&mut self, t: &Times, queues: &Queues) -> Option<Command> {
        let (acts, datas) = (self.state.acts as usize, self.state.datas as usize);
        let data = queues.datas.get(datas).filter(|w| w.act < acts);
        let data = data.filter(|w| self.data_goes(t, w));
        let act = || queues.acts.get(acts).filter(|w| self.act_goes(t, w));
        let gone = data.or_else(act).map(|w| (w.at(self.state.cycle), *w));
        let cycle = self.state.cycle;
        self.state.cycle += 1;
        let (command, w) = gone?;
        let s = &mut self.state;
        let bank = &mut s.banks[usize::from(w.bank)];
        match w.kind {
            REF => (s.refresh, s.acts) = (cycle, s.acts + 1),
            ACT => {
                (bank.opened, bank.act, bank.rd, bank.wr) = (1, cycle, NEVER, NEVER);
                s.last.rotate_right(1);
                s.last[0] = cycle;
                s.acts += 1;
            }
            kind => {
                bank.opened = u32::from(kind == RD || kind == WR);
                if kind == RD || kind == RDA {
                    (bank.rd, self.rd) = (cycle, cycle);
                } else {
                    (bank.wr, self.wr) = (cycle, cycle);
                }
                s.datas += 1;
            }
        }
        Some(command)
    }
}

/// From states "where the group's latest ACT is the first of the four", and its RD and WR are the old last ones: the same commands, and a
/// state of which the same holds again. A fresh one is among them, so builds too are as before.
#[test]
fn runs() {
    let mut numbers = Numbers(73);
    for round in 0..300 {
        let (_, table) = tables()[round % tables().len()];
        let t = Times::of(&table);
        let banks = table[BANKS] as u8;
        let kind = numbers.byte() % 2;
        let mut list = vec![
            [
                kind,
                numbers.byte() % banks,
                1 + numbers.byte() % banks.min(5),
                2,
            ],
            [1 - kind, numbers.byte() % banks, 1, 1 + numbers.byte() % 3],
        ];
        if table[RFC] != 0 {
            list.insert(1, REFRESH_BYTES);
        }
        let list = decode(&table, &list.concat(), PLAIN).expect("whole records");
        let mut state = State::fresh(&table);
        state.lent = list.len() as u32;
        if round % 4 > 0 {
            state.cycle = 2000;
            let mut stored = || match numbers.byte() {
                n if n < 90 => NEVER,
                n => 1999 - u32::from(n) % 70,
            };
            for bank in &mut state.banks {
                (bank.act, bank.rd, bank.wr) = (stored(), stored(), stored());
            }
            state.last = [(); 4].map(|()| stored());
            let (rd, wr) = (stored(), stored());
            let act = state.last[0];
            state.groups[0] = Group { act, rd, wr };
        }
        let count = 400;
        let present = run(Engine::Plain, &state, &table, &list, count, 1 << 16);
        let present = present.expect("nothing is refused");
        let queues = Queues::of(&table, &list);
        let (rd, wr) = (state.groups[0].rd, state.groups[0].wr);
        let mut old = Old { state, rd, wr };
        let steps = (0..present.cycles).map(|_| old.step(&t, &queues));
        let gone: Vec<Command> = steps.collect::<Vec<_>>().into_iter().flatten().collect();
        assert_eq!(gone, present.commands);
        let Old { mut state, rd, wr } = old;
        let act = state.last[0];
        state.groups[0] = Group { act, rd, wr };
        assert_eq!(state, present.state);
    }
}
