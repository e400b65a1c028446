//! A plain search: every way to put the commands onto the cycles of a length, each judged as a pattern.

use super::*;
use crate::desk::{judge_pattern, PatternVerdict};
use crate::house::*;
use crate::records::EDITION;

/// Every way to go on, from a cycle on.
fn all_from(
    asked: &Asked,
    cycle: u64,
    length: u64,
    placed: &mut Vec<Placed>,
    found: &mut Vec<Vec<Placed>>,
) {
    if placed.len() == asked.records() {
        found.push(placed.clone());
        return;
    }
    if cycle == length {
        return;
    }
    for bank in 0..asked.bi {
        let gone = placed.iter().filter(|p| p.2 == bank).count();
        if let Some(&kind) = asked.kinds().get(gone) {
            placed.push((cycle, kind, bank));
            all_from(asked, cycle + 1, length, placed, found);
            placed.pop();
        }
    }
    all_from(asked, cycle + 1, length, placed, found);
}

fn is_accepted(table: &GroupTable, pattern: &[Placed], length: u32) -> bool {
    let record = |&(cycle, kind, bank): &Placed| command(cycle as u32, kind, bank, 0);
    let bytes: Vec<u8> = pattern.iter().flat_map(record).collect();
    let told = judge_pattern(table[EDITION], &bytes_of(table), &bytes, length);
    told == Ok((table[EDITION], PatternVerdict::Accepted))
}

fn plain(table: &GroupTable, asked: &Asked, length: u32) -> Option<Vec<Placed>> {
    let mut found = Vec::new();
    all_from(asked, 1, length.into(), &mut vec![(0, ACT, 0)], &mut found);
    found.sort_unstable();
    found.into_iter().find(|p| is_accepted(table, p, length))
}

/// A table of numbers small enough for short patterns, in one to four groups, some with a number that stands out.
fn any_table(numbers: &mut Numbers) -> GroupTable {
    let mut t = TABLE_A.map(|_| 1 + numbers.below(3) as u16);
    t[..4].copy_from_slice(&[7, 4, 1, 2]);
    t[numbers.below(11) + 4] += numbers.of(&[0, 1, 3, 5]);
    t[RFC] = 0;
    let long = LONGS.map(|(_, short)| t[short] + numbers.of(&[0, 0, 1, 2]));
    grouped(&t, 1 + numbers.below(4) as u16, long)
}

/// What may be asked for, with a greatest length.
pub fn all_asked(most: u32) -> Vec<Asked> {
    let counts = [
        (1, 1),
        (1, 2),
        (1, 3),
        (1, 4),
        (1, 5),
        (2, 1),
        (2, 2),
        (3, 1),
    ];
    let of_kind = |kind| counts.map(|(bi, bc)| Asked { kind, bi, bc, most });
    [of_kind(0), of_kind(1)].concat()
}

/// At every length from 1 on, not the least alone.
#[test]
fn as_a_plain_search_finds() {
    let mut numbers = Numbers(11);
    let mut found = [0; 2];
    for _ in 0..60 {
        let table = any_table(&mut numbers);
        for asked in all_asked(128) {
            let longest = if asked.records() == 6 { 11 } else { 13 };
            let orders = asked_of(&table, &asked);
            for length in 1..=longest {
                let first = first_of(&orders, length);
                assert_eq!(
                    first,
                    plain(&table, &asked, length),
                    "{table:?} {asked:?} {length}"
                );
                found[usize::from(first.is_some())] += 1;
            }
        }
    }
    assert!(found.iter().all(|&n| n > 1000), "{found:?}");
}

/// The pattern that is answered is accepted, and whether one fits is monotone in the length.
#[test]
fn accepted_and_monotone() {
    let mut tables: Vec<GroupTable> = [TABLE_A, TABLE_B, TABLE_C, TABLE_T, LEAST]
        .map(|t| whole(&t))
        .to_vec();
    tables.extend([TABLE_D]);
    tables.extend(group_tables().iter().filter(|t| t[BANKS] >= 3));
    for table in &tables {
        for asked in all_asked(128) {
            let orders = asked_of(table, &asked);
            let mut fits = false;
            for length in 1..=128 {
                let first = first_of(&orders, length);
                assert!(first.is_some() || !fits, "{table:?} {asked:?} {length}");
                fits = first.is_some();
                if let Some(pattern) = first.filter(|_| length % 16 == 0) {
                    assert!(is_accepted(table, &pattern, length));
                }
            }
        }
    }
}
