//! The worked figures of table T, whose numbers all differ, each through the public calls where there is one.

use crate::desk::*;
use crate::house::{built, bytes_of, command, TABLE_T};
use crate::records::{commands_of, whole};
use crate::rules::{Times, ACT, RD, RDA, WR, WRA};

/// Cycle, kind and bank.
type Row = (u32, u8, u8);

fn bytes(rows: &[Row]) -> Vec<u8> {
    let one = |&(cycle, kind, bank): &Row| command(cycle, kind, bank, 0);
    rows.iter().flat_map(one).collect()
}

fn scheduled(list: &[[u8; 4]]) -> (Vec<Row>, Vec<u32>) {
    let (room, finishes) = built(&TABLE_T, list);
    let rows = commands_of(&room);
    let rows = rows.iter().map(|c| (c.cycle, c.kind, c.bank));
    (rows.collect(), finishes)
}

fn judged(rows: &[Row]) -> Verdict {
    judge(9, &bytes_of(&TABLE_T), &bytes(rows))
        .expect("whole records")
        .1
}

fn repeated(rows: &[Row], length: u32) -> PatternVerdict {
    let answer = judge_pattern(9, &bytes_of(&TABLE_T), &bytes(rows), length);
    answer.expect("whole records").1
}

#[test]
fn no_two_numbers_alike() {
    let mut numbers = TABLE_T;
    numbers.sort();
    assert!(numbers.windows(2).all(|w| w[0] < w[1]));
}

#[test]
fn distances() {
    let t = Times::of(&whole(&TABLE_T));
    for near in [true, false] {
        let square = [true, false].map(|e| [true, false].map(|l| t.distance(near, e, l)));
        assert_eq!(square, [[5, 10], [17, 5]]);
    }
}

#[test]
fn bounds() {
    let figures = [(1, 1, 51), (2, 1, 61), (1, 4, 66), (5, 1, 91), (6, 2, 106)];
    for (bi, bc, cycles) in figures {
        assert_eq!(bound(9, &bytes_of(&TABLE_T), bi, bc), Ok((9, cycles)));
    }
}

#[test]
fn each_pair_of_data_kinds() {
    let (rows, finishes) = scheduled(&[[0, 0, 1, 2], [1, 1, 1, 2], [0, 2, 1, 1]]);
    let acts = [(0, ACT, 0), (7, ACT, 1), (11, RD, 0), (14, ACT, 2)];
    let datas = [(16, RDA, 0), (26, WR, 1), (31, WRA, 1), (48, RDA, 2)];
    assert_eq!(rows, [acts, datas].concat());
    assert_eq!(finishes, [33, 31, 65]);
}

#[test]
fn a_bank_again_after_a_write() {
    let (rows, finishes) = scheduled(&[[1, 0, 1, 1], [0, 0, 1, 1]]);
    let again = [(0, ACT, 0), (11, WRA, 0), (51, ACT, 0), (62, RDA, 0)];
    assert_eq!(rows, again);
    assert_eq!(finishes, [11, 79]);
}

#[test]
fn the_fifth_act() {
    let (rows, finishes) = scheduled(&[[0, 0, 5, 1]]);
    assert_eq!(rows.iter().rfind(|c| c.1 == ACT), Some(&(33, ACT, 4)));
    assert_eq!(rows.last(), Some(&(44, RDA, 4)));
    assert_eq!(finishes, [61]);
}

#[test]
fn each_cause_of_precharge() {
    let then = |first: &[Row], act| {
        let end = [(act, ACT, 0), (act + 11, RDA, 0)];
        judged(&[first, &end[..]].concat())
    };
    let broken = |rule, record| Verdict::Broken { rule, record };
    let early = [(0, ACT, 0), (11, RDA, 0)];
    assert_eq!(then(&early, 37), broken(4, 2));
    assert_eq!(then(&early, 38), broken(5, 2));
    assert_eq!(then(&early, 39), broken(5, 2));
    assert_eq!(then(&early, 40), Verdict::Accepted);
    let late = [(0, ACT, 0), (30, RDA, 0)];
    assert_eq!(then(&late, 49), broken(4, 2));
    assert_eq!(then(&late, 50), Verdict::Accepted);
    let written = [(0, ACT, 0), (11, WR, 0), (28, RDA, 0)];
    assert_eq!(then(&written, 50), broken(4, 3));
    assert_eq!(then(&written, 51), Verdict::Accepted);
}

#[test]
fn patterns() {
    let broken = |rule, copy, record| PatternVerdict::Broken { rule, copy, record };
    let mixed = [(0, ACT, 0), (7, ACT, 1), (11, RDA, 0), (21, WRA, 1)];
    assert_eq!(repeated(&mixed, 54), PatternVerdict::Accepted);
    assert_eq!(repeated(&mixed, 53), broken(4, 2, 1));
    let burst = [(0, ACT, 0), (7, ACT, 1), (11, RDA, 0), (18, RDA, 1)];
    assert_eq!(repeated(&burst, 40), PatternVerdict::Accepted);
    assert_eq!(repeated(&burst, 39), broken(5, 2, 0));
}
