//! Schedules and patterns that are looked for: the last cycle that is too early, several rules broken at once, and patterns by the
//! copy and the rule that they fail in.

use std::collections::BTreeSet;

use crate::house::*;
use crate::records::{whole, GroupTable, Table, BANKS, RFC};
use crate::rules::*;

/// The lowest cycle, after the record's before it, at which this one breaks no rule.
pub fn earliest(table: &[u16], before: &[Record], kind: u8, bank: u8) -> u64 {
    let table = &whole(table);
    let from = before.last().map_or(0, |last| last.cycle + 1);
    let at = |cycle| Record { cycle, kind, bank };
    let fine = |&cycle: &u64| first_broken(table, before, &at(cycle)).is_none();
    (from..from + 5000).find(fine).expect("time breaks no rule")
}

/// So many records that break no rule and close every bank, most as early as can be. A REF stands where no bank is open.
fn any_legal(table: &[u16], count: usize, numbers: &mut Numbers) -> Vec<Record> {
    let banks = 1 + numbers.below(usize::from(table[BANKS]).min(7));
    legal_on(
        table,
        &(0..banks as u8).collect::<Vec<u8>>(),
        count,
        numbers,
    )
}

/// The same with the banks that it may use.
fn legal_on(table: &[u16], banks: &[u8], count: usize, numbers: &mut Numbers) -> Vec<Record> {
    let mut records: Vec<Record> = Vec::new();
    let mut open: Vec<u8> = Vec::new();
    while records.len() < count {
        let left = count - records.len();
        let bank = numbers.of(banks);
        let (kind, bank) = if open.is_empty() && (left == 1 || numbers.below(6) == 0) {
            (REF, 0)
        } else if !open.contains(&bank) && open.len() + 2 <= left {
            open.push(bank);
            (ACT, bank)
        } else if open.len() < left && numbers.below(2) == 0 {
            (numbers.of(&[RD, WR]), numbers.of(&open))
        } else {
            let closed = open.remove(numbers.below(open.len()));
            (numbers.of(&[RDA, WRA]), closed)
        };
        let late = numbers.of(&[0, 0, 0, 1, 9]);
        let cycle = earliest(table, &records, kind, bank) + late;
        records.push(Record { cycle, kind, bank });
    }
    records
}

/// A table of small numbers, with some that stand out.
fn any_table(numbers: &mut Numbers) -> Table {
    let mut t = TABLE_A.map(|_| 1 + numbers.below(9) as u16);
    t[..4].copy_from_slice(&[400 + numbers.below(99) as u16, 8, 2, 2]);
    t[RFC] *= numbers.of(&[0, 1, 1, 8]);
    for _ in 0..numbers.below(3) {
        let place = 4 + numbers.below(11);
        t[place] = 20 + numbers.below(60) as u16;
    }
    t
}

pub fn bytes_of_records(records: &[Record]) -> Vec<u8> {
    let bytes = |r: &Record| command(r.cycle as u32, r.kind, r.bank, 0);
    records.iter().flat_map(bytes).collect()
}

/// For each table and rule a legal schedule whose record stands one cycle too early: that record's place, and the whole.
pub fn too_early(numbers: &mut Numbers) -> Vec<(Table, usize, Vec<Record>)> {
    let house = [TABLE_A, TABLE_B, LEAST, GREATEST];
    let long_rc = [with(&[(0, 8), (RC, 60)]), with(&[(0, 9), (RC, 1023)])];
    let mut found = Vec::new();
    let mut seen = BTreeSet::new();
    for table in house.iter().chain(&long_rc).chain(&ODD[1..]) {
        for count in (2..=6).chain([6, 8, 10].repeat(12)) {
            let legal = any_legal(table, count, numbers);
            for place in 1..count {
                let mut records = legal.clone();
                let r = records[place];
                records[place].cycle = earliest(table, &legal[..place], r.kind, r.bank) - 1;
                let rule = first_broken(&whole(table), &legal[..place], &records[place]);
                if seen.insert((table[0], table[FAW], rule)) {
                    found.push((*table, place, records));
                }
            }
        }
    }
    found
}

/// A schedule for each set of rules, of those that were met, that its last record breaks at once.
pub fn broken_sets(numbers: &mut Numbers) -> Vec<(Table, Vec<Record>)> {
    let mut found = Vec::new();
    let mut seen = BTreeSet::new();
    for _ in 0..6000 {
        let table = any_table(numbers);
        let count = 2 + numbers.below(7);
        let mut records = any_legal(&table, count, numbers);
        records.truncate(1 + numbers.below(count));
        let end = records[records.len() - 1].cycle + 6;
        let last = Record {
            cycle: end.saturating_sub(numbers.below(9) as u64),
            kind: numbers.of(&[ACT, ACT, ACT, RD, RDA, WR, WRA, REF, REF, 6]),
            bank: numbers.of(&[0, 1, 2, 3, 4, 5, 6, 8]),
        };
        let broken = |&rule: &u8| breaks(rule, &whole(&table), &records, &last);
        let set: Vec<u8> = RULES.into_iter().filter(broken).collect();
        if set.len() > 1 && seen.insert(set) {
            records.push(last);
            found.push((table, records));
        }
    }
    found
}

/// For some numbers of records up to 12, each copy and each rule that was met: a pattern and its length. The least length that is
/// accepted comes with every pattern that fails after its first copy.
pub fn patterns(numbers: &mut Numbers) -> Vec<(Table, Vec<Record>, u32)> {
    let mut found = Vec::new();
    let mut seen = BTreeSet::new();
    for round in 0..9600 {
        let table = any_table(numbers);
        let count = [1, 2, 3, 4, 5, 6, 9, 12][round % 8];
        let mut records = any_legal(&table, count.max(2), numbers);
        let verdict = |records: &[Record], length: u32| {
            judge_pattern(&whole(&table), &bytes_of_records(records), length)
                .expect("a pattern of whole records and some length")
        };
        let accepted = |&length: &u32| verdict(&records, length) == PatternVerdict::Accepted;
        let least = (1..3000).find(accepted).expect("a length that is enough");
        let mut lengths = vec![least - 1, 1 + numbers.below(least as usize) as u32];
        if count == 1 || numbers.below(3) == 0 {
            records.truncate(count);
            let r = &mut records[numbers.below(count)];
            r.cycle = (r.cycle + 2).saturating_sub(numbers.below(9) as u64);
            if count == 1 || numbers.below(2) == 0 {
                r.kind = numbers.of(&[ACT, RD, RDA, WR, WRA, REF, 6]);
                r.bank = numbers.of(&[0, 1, 2, 8]);
            }
            lengths = vec![least];
        }
        for length in lengths.into_iter().filter(|&length| length > 0) {
            if let PatternVerdict::Broken { rule, copy, .. } = verdict(&records, length) {
                if seen.insert((count, copy, rule)) {
                    found.push((table, records.clone(), length));
                    if copy > 1 && count % 3 == 0 {
                        found.push((table, records.clone(), least));
                    }
                }
            }
        }
    }
    found
}

/// For each of the tables and for rules 6 and 9: a legal schedule whose record stands one cycle too early, and is kept from its place by an
/// older command of its group alone, which a neighbour in another group hides. That record's place, and the whole.
pub fn hidden(
    tables: &[GroupTable],
    numbers: &mut Numbers,
) -> Vec<(GroupTable, usize, Vec<Record>)> {
    let mut found = Vec::new();
    let mut seen = BTreeSet::new();
    for table in tables {
        let t = Times::of(table);
        for _ in 0..200 {
            let banks: Vec<u8> = (0..6)
                .map(|_| numbers.below(t.banks as usize) as u8)
                .collect();
            let legal = legal_on(table, &banks, 10, numbers);
            for place in 1..legal.len() {
                let (before, mut r) = (&legal[..place], legal[place]);
                r.cycle = earliest(table, before, r.kind, r.bank) - 1;
                let rule = first_broken(table, before, &r);
                // Of the same sort as this one: ACTs, or reads, or writes.
                let sort = |e: &Record| (e.acts(), e.reads(), e.writes());
                let newest = |s: &dyn Fn(&Record) -> bool| before.iter().rfind(|e| s(e)).copied();
                let alone: Vec<Record> = match rule {
                    Some(6) => newest(&|e| sort(e) == sort(&r)).into_iter().collect(),
                    Some(9) => [newest(&Record::reads), newest(&Record::writes)]
                        .into_iter()
                        .flatten()
                        .collect(),
                    _ => continue,
                };
                let by_them = rule.map_or(false, |rule| breaks(rule, table, &alone, &r));
                if !by_them && seen.insert((table[0], rule)) {
                    let mut records = legal.clone();
                    records[place] = r;
                    found.push((*table, place, records));
                }
            }
        }
    }
    found
}
