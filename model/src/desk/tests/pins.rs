//! Request 8: of what the judges accept and the scheduler builds, on the pins, cycle by cycle.

use super::laws::lists_and_tables;
use crate::desk::*;
use crate::house::{built, bytes_of, command, TABLE_A, TABLE_D};
use crate::pins::{busy, clash, Clash};
use crate::records::EDITION;
use crate::rules::{ACT, RD, RDA, WR, WRA};

fn bytes(commands: &[(u32, u8, u8)]) -> Vec<u8> {
    let one = |&(cycle, kind, bank): &(u32, u8, u8)| command(cycle, kind, bank, 0);
    commands.iter().flat_map(one).collect()
}

/// How many cycles are busy, and the first cycle after them.
fn share(table: &[u16], schedule: &[u8]) -> (usize, u64) {
    let busy = busy(&bytes_of(table), schedule, 0, 1);
    (busy.len(), busy.last().map_or(0, |last| last + 1))
}

#[test]
fn shares_of_the_examples() {
    let of = |list: &[[u8; 4]]| share(&TABLE_A, &built(&TABLE_A, list).0);
    let (read, write) = ([0, 0, 1, 1], [1, 0, 1, 1]);
    assert_eq!(of(&[read]), (4, 24));
    assert_eq!(of(&[write, read]), (8, 68));
    assert_eq!(of(&[read, [1, 1, 1, 1]]), (8, 30));
    assert_eq!(of(&[write, [0, 1, 1, 1]]), (8, 42));
    assert_eq!(of(&[[0, 0, 4, 2]]), (32, 52));
    assert_eq!(of(&[[0, 0, 5, 1]]), (20, 56));
    let four = built(&TABLE_A, &[read, [1, 1, 1, 1]]).0;
    let held: Vec<u64> = (20..24).chain(26..30).collect();
    assert_eq!(busy(&bytes_of(&TABLE_A), &four, 0, 1), held);
}

#[test]
fn a_pattern_in_copies() {
    let (table, five) = (bytes_of(&TABLE_A), built(&TABLE_A, &[[0, 0, 4, 2]]).0);
    assert_eq!(
        judge_pattern(7, &table, &five, 39),
        Ok((7, PatternVerdict::Accepted))
    );
    assert_eq!(clash(&table, &five, 39, 9), None);
    let held = busy(&table, &five, 39, 3);
    assert_eq!(held.iter().filter(|c| (39..78).contains(*c)).count(), 32);
}

#[test]
fn what_is_built_never_clashes() {
    for (table, list) in lists_and_tables() {
        let (room, _) = built(&table, &list);
        let bytes = bytes_of(&table);
        let told = judge(table[EDITION], &bytes, &room);
        assert_eq!(told, Ok((table[EDITION], Verdict::Accepted)));
        assert_eq!(clash(&bytes, &room, 0, 1), None, "{list:?}");
    }
}

/// The two claims can fail: a cycle less than rule 9 asks for, and the bursts meet or stand too near.
#[test]
fn one_cycle_less_clashes() {
    let opened = [(0, ACT, 0), (6, ACT, 1)];
    let then = |data: [(u32, u8, u8); 2]| bytes(&[&opened[..], &data].concat());
    for (schedule, found) in [
        (then([(16, RDA, 0), (20, RDA, 1)]), None),
        (
            then([(16, RDA, 0), (19, RDA, 1)]),
            Some(Clash::Shared(2, 3)),
        ),
        (then([(16, RDA, 0), (24, WRA, 1)]), None),
        (then([(16, RDA, 0), (23, WRA, 1)]), Some(Clash::Turn(2, 3))),
    ] {
        for table in [&TABLE_A[..], &TABLE_D] {
            let table = bytes_of(table);
            assert_eq!(clash(&table, &schedule, 0, 1), found);
            let broken = matches!(judge(7, &table, &schedule), Ok((_, Verdict::Broken { .. })));
            assert!(found.is_none() || broken);
        }
    }
    // The free cycles may stand before other bursts: a read, two free cycles, a write; another write.
    let three = bytes(&[(0, ACT, 0), (10, RD, 0), (18, WR, 0), (22, WRA, 0)]);
    let table = bytes_of(&TABLE_A);
    assert_eq!(judge(7, &table, &three), Ok((7, Verdict::Accepted)));
    assert_eq!(clash(&table, &three, 0, 1), None);
}
