//! Number 10, call by call: "straight after number 2", before all others, and no buffer or state changes.

use super::refusals::{bad, bytes, told, two, Told, ROOM};
use crate::desk::*;
use crate::house::*;
use crate::records::{BANKS, CCD, EDITION, RFC};

/// Expected editions and tables that differ, and tables that 1 or 2 refuses whatever is expected; with what must be told of each
/// before anything else is looked at.
fn tables() -> Vec<(u16, Vec<u8>, Told)> {
    let mut all = Vec::new();
    for (edition, expected) in OTHER_EDITIONS {
        let table = bytes_of(&with(&[(EDITION, edition)]));
        all.push((expected, table, (10, edition.into(), edition)));
    }
    for expected in [0, 7, 8] {
        let short = bytes_of(&with(&[(BANKS, 0)]))[..31].to_vec();
        all.push((expected, vec![], (1, 0, 0)));
        all.push((expected, short, (1, 0, 0)));
        let faults = [((RFC, 1024), 2), ((CCD, 1), 2), ((EDITION, 0), 2)];
        for (fault, number) in faults {
            all.push((expected, bytes_of(&with(&[fault])), (number, 0, 0)));
        }
    }
    all
}

/// A list that nothing is wrong with, and those that 3 and 4 refuse.
fn lists() -> [Vec<Transaction>; 3] {
    [two().to_vec(), vec![bad()[2]; 257], bad().to_vec()]
}

#[test]
fn reading_transactions() {
    let blank = bad()[2];
    for (expected, table, first) in tables() {
        for list in lists().iter().map(|list| bytes(list)).chain([vec![9; 5]]) {
            for places in [0, 300] {
                let mut into = vec![blank; places];
                let answer = read_transactions(expected, &table, &list, &mut into);
                assert_eq!(told(answer), first);
                assert_eq!(into, vec![blank; places]);
            }
        }
    }
}

/// With too little room and too few finishing cycles, and with enough of both.
#[test]
fn schedules() {
    for (expected, table, first) in tables() {
        let (mut room, mut finishes) = (ROOM, [9; 4]);
        for (size, slots) in [(0, 0), (31, 2), (32, 1), (48, 4)] {
            let (room, finishes) = (&mut room[..size], &mut finishes[..slots]);
            for list in &lists() {
                let as_list = schedule(expected, &table, list, room, finishes);
                assert_eq!(told(as_list), first);
                let as_bytes = schedule_bytes(expected, &table, &bytes(list), room, finishes);
                assert_eq!(told(as_bytes), first);
            }
            let odd = schedule_bytes(expected, &table, &[9; 7], room, finishes);
            assert_eq!(told(odd), first);
        }
        assert_eq!((room, finishes), (ROOM, [9; 4]));
    }
}

/// Before 7 and 8, and before every verdict: a schedule of ACT and RDA is legal, its first half leaves a bank open.
#[test]
fn judges() {
    let (legal, _) = built(&TABLE_A, &[[0, 0, 1, 1]]);
    for (expected, table, first) in tables() {
        for size in [0, 8, 9, 16] {
            let answer = judge(expected, &table, &legal[..size]);
            assert_eq!(told(answer), first);
            for length in [0, 1, 38] {
                let answer = judge_pattern(expected, &table, &legal[..size], length);
                assert_eq!(told(answer), first);
            }
        }
    }
}

#[test]
fn bounds() {
    for (expected, table, first) in tables() {
        for (bi, bc) in [(1, 1), (0, 1), (9, 1), (1, 17)] {
            assert_eq!(told(bound(expected, &table, bi, bc)), first);
        }
    }
}

/// A refused start's controller can't be run by any table: it has edition 0.
#[test]
fn starts() {
    for (expected, table, first) in tables() {
        let (answer, mut c) = start(expected, &table);
        assert_eq!(told(answer), first);
        assert_eq!(c, Controller::fresh(&[0; 16]));
        let answer = run(&mut c, 7, &bytes_of(&TABLE_A), &two(), 9, &mut ROOM.clone());
        assert_eq!(told(answer), (9, 0, 7));
    }
}

/// Before 5, and before 9 whatever edition the state has: the table's, the expected one, or another.
#[test]
fn runs() {
    for (expected, table, first) in tables() {
        for edition in [7, 0, 9, expected, first.2] {
            let mut c = Controller::fresh(&TABLE_A);
            c.edition = edition.into();
            let (before, mut room) = (c.clone(), ROOM);
            for (count, size) in [(0, 0), (1, 7), (1, 8), (9, 31), (9, 48)] {
                let room = &mut room[..size];
                for list in &lists() {
                    let as_list = run(&mut c, expected, &table, list, count, room);
                    assert_eq!(told(as_list), first);
                    let list = bytes(list);
                    let as_bytes = run_bytes(&mut c, expected, &table, &list, count, room);
                    assert_eq!(told(as_bytes), first);
                }
                let odd = run_bytes(&mut c, expected, &table, &[9; 7], count, room);
                assert_eq!(told(odd), first);
            }
            assert_eq!((c, room), (before, ROOM));
        }
    }
}

#[test]
fn steps() {
    for (expected, table, first) in tables() {
        for edition in [7, expected, first.2] {
            let mut c = Controller::fresh(&TABLE_A);
            c.edition = edition.into();
            let (before, mut room) = (c.clone(), ROOM);
            for size in [0, 7, 8] {
                let room = &mut room[..size];
                for list in &lists() {
                    let as_list = step(&mut c, expected, &table, list, room);
                    assert_eq!(told(as_list), first);
                    let as_bytes = step_bytes(&mut c, expected, &table, &bytes(list), room);
                    assert_eq!(told(as_bytes), first);
                }
            }
            assert_eq!((c, room), (before, ROOM));
        }
    }
}

/// A table is admitted by its own edition alone, and every edition but 0 is some table's.
#[test]
fn every_edition() {
    let a = bytes_of(&TABLE_A);
    for edition in 0..=u16::MAX {
        let own = bytes_of(&with(&[(EDITION, edition)]));
        let number = if edition == 0 {
            (2, 0, 0)
        } else {
            (10, edition.into(), edition)
        };
        assert_eq!(told(bound(0, &own, 1, 1)), number);
        if edition != 0 {
            assert_eq!(bound(edition, &own, 1, 1), Ok((edition, 44)));
        }
        if edition != 7 {
            assert_eq!(told(bound(edition, &a, 1, 1)), (10, 7, 7));
        }
    }
}
