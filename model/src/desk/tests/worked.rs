//! The worked examples of document 01, each through the public calls.

use crate::desk::*;
use crate::house::{built, bytes_of, command, with, READ, TABLE_A, TABLE_B, TABLE_C, WRITE};
use crate::records::{commands_of, CCD};
use crate::rules::{ACT, MOST_RECORDS, RD, RDA, WR, WRA};

/// Cycle, kind and bank of each command of a list's schedule under table A.
fn scheduled(list: &[[u8; 4]]) -> Vec<(u32, u8, u8)> {
    let (room, _) = built(&TABLE_A, list);
    let commands = commands_of(&room);
    commands.iter().map(|c| (c.cycle, c.kind, c.bank)).collect()
}

fn finishes(list: &[[u8; 4]]) -> Vec<u32> {
    built(&TABLE_A, list).1
}

fn bytes(commands: &[(u32, u8, u8)]) -> Vec<u8> {
    let one = |&(cycle, kind, bank): &(u32, u8, u8)| command(cycle, kind, bank, 0);
    commands.iter().flat_map(one).collect()
}

fn refusal<T>(answer: Result<T, Refusal>) -> Option<(u8, u32, u16)> {
    answer.err().map(|r| (r.number, r.position, r.edition))
}

#[test]
fn example_1() {
    assert_eq!(scheduled(&[READ]), [(0, ACT, 0), (10, RDA, 0)]);
    assert_eq!(finishes(&[READ]), [24]);
}

#[test]
fn example_2() {
    let two = [(0, ACT, 0), (10, RDA, 0), (38, ACT, 0), (48, RDA, 0)];
    assert_eq!(scheduled(&[READ, READ]), two);
}

#[test]
fn example_3() {
    let two = [(0, ACT, 0), (10, WRA, 0), (44, ACT, 0), (54, RDA, 0)];
    assert_eq!(scheduled(&[WRITE, READ]), two);
    assert_eq!(finishes(&[WRITE, READ]), [10, 68]);
    // "Is met exactly", and "still counts from last command to last command": from 10 to 54.
    assert_eq!(bound(7, &bytes_of(&TABLE_A), 1, 1), Ok((7, 44)));
}

#[test]
fn example_4() {
    let mixed = [(0, ACT, 0), (6, ACT, 1), (10, RDA, 0), (18, WRA, 1)];
    assert_eq!(scheduled(&[READ, [1, 1, 1, 1]]), mixed);
    // The later transaction finishes first: the read's last word is still under way.
    assert_eq!(finishes(&[READ, [1, 1, 1, 1]]), [24, 18]);
    assert_eq!(finishes(&[WRITE, [0, 1, 1, 1]]), [10, 42]);
}

const EXAMPLE_5: [(u32, u8, u8); 12] = [
    (0, ACT, 0),
    (6, ACT, 1),
    (10, RD, 0),
    (12, ACT, 2),
    (14, RDA, 0),
    (18, RD, 1),
    (19, ACT, 3),
    (22, RDA, 1),
    (26, RD, 2),
    (30, RDA, 2),
    (34, RD, 3),
    (38, RDA, 3),
];

#[test]
fn example_5() {
    assert_eq!(scheduled(&[[0, 0, 4, 2]]), EXAMPLE_5);
}

#[test]
fn example_6() {
    let five = scheduled(&[[0, 0, 5, 1]]);
    assert_eq!(five.iter().rfind(|c| c.1 == ACT), Some(&(32, ACT, 4)));
    assert_eq!(five.last(), Some(&(42, RDA, 4)));
    assert_eq!(finishes(&[[0, 0, 5, 1]]), [56]);
}

#[test]
fn example_7() {
    for (bi, bc, cycles) in [(2, 1, 53), (1, 4, 56), (4, 2, 75), (5, 1, 80), (8, 1, 107)] {
        assert_eq!(bound(7, &bytes_of(&TABLE_A), bi, bc), Ok((7, cycles)));
    }
}

#[test]
fn examples_8_to_10() {
    let broken = |rule, copy| {
        let record = 0;
        Ok((7, PatternVerdict::Broken { rule, copy, record }))
    };
    let accepted = Ok((7, PatternVerdict::Accepted));
    let (a, b) = (bytes_of(&TABLE_A), bytes_of(&TABLE_B));
    let one = bytes(&[(0, ACT, 0), (10, RDA, 0)]);
    let five = bytes(&EXAMPLE_5);
    assert_eq!(judge_pattern(7, &a, &one, 38), accepted);
    assert_eq!(judge_pattern(7, &a, &one, 37), broken(4, 2));
    assert_eq!(judge_pattern(7, &a, &five, 39), accepted);
    assert_eq!(judge_pattern(7, &a, &five, 38), broken(2, 2));
    assert_eq!(judge_pattern(7, &b, &one, 39), accepted);
    assert_eq!(judge_pattern(7, &b, &one, 38), broken(7, 5));
}

#[test]
fn example_11() {
    let c = bytes_of(&TABLE_C);
    let with_act = |act| {
        let end = [(act, ACT, 0), (act + 10, RDA, 0)];
        bytes(&[&[(0, ACT, 0), (10, WR, 0), (28, RDA, 0)], &end[..]].concat())
    };
    assert_eq!(judge(7, &c, &with_act(44)), Ok((7, Verdict::Accepted)));
    let (rule, record) = (4, 3);
    let broken = Verdict::Broken { rule, record };
    assert_eq!(judge(7, &c, &with_act(43)), Ok((7, broken)));
}

#[test]
fn example_12() {
    let a = bytes_of(&TABLE_A);
    let listed = |list: &[u8]| {
        let mut room = vec![0; 1 << 16];
        refusal(schedule_bytes(7, &a, list, &mut room, &mut [0; 256]))
    };
    assert_eq!(listed(&[0, 7, 1, 1]), None);
    // As request 2 has it: "start 7 and BI 2 uses banks 7 and 0".
    let wraps = [(0, ACT, 7), (6, ACT, 0), (10, RDA, 7), (16, RDA, 0)];
    assert_eq!(scheduled(&[[0, 7, 2, 1]]), wraps);
    assert_eq!(listed(&[0, 8, 1, 1]), Some((4, 0, 7)));
    assert_eq!(listed(&[0, 7, 9, 1]), Some((4, 0, 7)));
    assert_eq!(listed(&READ.repeat(256)), None);
    assert_eq!(listed(&READ.repeat(257)), Some((3, 0, 7)));
    let ccd_1 = bytes_of(&with(&[(CCD, 1)]));
    assert_eq!(refusal(read_table(&ccd_1)), Some((2, 0, 0)));
    assert_eq!(judge(7, &a, &[]), Ok((7, Verdict::Accepted)));
}

#[test]
fn sizes_of_schedules() {
    let a = bytes_of(&TABLE_A);
    let most = vec![0; 8 * MOST_RECORDS];
    let (rule, record) = (2, 1);
    let broken = Verdict::Broken { rule, record };
    assert_eq!(judge(7, &a, &most), Ok((7, broken)));
    let over = vec![0; 8 * MOST_RECORDS + 8];
    assert_eq!(refusal(judge(7, &a, &over)), Some((7, 0, 7)));
    assert_eq!(refusal(judge_pattern(7, &a, &over, 0)), Some((7, 0, 7)));
    assert_eq!(refusal(judge_pattern(7, &a, &[], 0)), Some((8, 0, 7)));
}
