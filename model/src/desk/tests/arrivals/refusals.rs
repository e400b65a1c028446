//! The record of 8 bytes, and lists of them: numbers 3 and 4.

use super::*;
use crate::desk::tests::refusals::{told, ROOM};
use crate::records::{CCD, EDITION};

/// "A transaction record of 8 bytes adds a 32-bit arrival, at most 20,000,000": read and written, with any size but 8 refused first.
#[test]
fn records() {
    for (x, fine) in [(READ, true), (REFRESH, true), ([0, 16, 1, 1], false)] {
        for arrival in [0, 1, 255, 256, 19_999_999, 20_000_000, 20_000_001, u32::MAX] {
            let (record, mut room) = (later(x, arrival), [9; 8]);
            assert_eq!(record[..4], x);
            assert_eq!(record[4..], arrival.to_le_bytes());
            let read = read_later(&record);
            let whole = Transaction::of(&x).arriving(arrival);
            let written = write_later(whole, &mut room);
            if fine && arrival <= 20_000_000 {
                assert_eq!((read, written, room), (Ok(whole), Ok(0), record));
            } else {
                assert_eq!((told(read), told(written)), ((4, 0, 0), (4, 0, 0)));
                assert_eq!(room, [9; 8]);
            }
            for size in [0, 4, 7, 9, 16] {
                let long = [record, record].concat();
                assert_eq!(told(read_later(&long[..size])), (3, 0, 0));
                let mut room = vec![9; size];
                assert_eq!(told(write_later(whole, &mut room)), (3, 0, 0));
                assert_eq!(room, vec![9; size]);
            }
            // "The 4-byte record is arrival 0": it has no other.
            let mut four = [9; 4];
            let written = write_transaction(whole, &mut four);
            if fine && arrival == 0 {
                assert_eq!((written, four), (Ok(0), x));
                assert_eq!(read_transaction(&four), Ok(whole));
            } else {
                assert_eq!((told(written), four), ((4, 0, 0), [9; 4]));
            }
            assert_eq!(told(write_transaction(whole, &mut [9; 8])), (3, 0, 0));
        }
    }
}

/// Each call that is given a list of them: the refusal's number and position, or nothing.
fn refused(table: &[u16], list: &[u8], places: usize) -> Option<(u8, u32)> {
    let (edition, table) = (table[EDITION], bytes_of(table));
    let told = |answer: Result<(), Refusal>| answer.err().map(|r| (r.number, r.position));
    let blank = transaction(9, 9, 9, 9).arriving(9);
    let mut into = vec![blank; places];
    let read = read_later_transactions(edition, &table, list, &mut into);
    assert!(read.is_ok() || into == vec![blank; places]);
    let answer = told(read.map(|_| ()));
    let (mut room, mut finishes) = (vec![0; 1 << 16], vec![0; 257]);
    let build = schedule_later_bytes(edition, &table, list, &mut room, &mut finishes);
    assert_eq!(told(build.map(|_| ())), answer);
    let (_, mut c) = start(edition, &table);
    let fresh = c.clone();
    let ran = run_later_bytes(&mut c, edition, &table, list, 3, &mut room);
    assert_eq!(told(ran.map(|_| ())), answer);
    assert!(ran.is_ok() || c == fresh);
    if list.len() % 8 == 0 {
        let list: Vec<Transaction> = list.chunks(8).map(Transaction::of).collect();
        let lent = schedule(edition, &table, &list, &mut room, &mut finishes);
        assert_eq!(told(lent.map(|_| ())), answer);
        assert!(answer.is_some() || into[..list.len()] == list);
        let (_, mut c) = start(edition, &table);
        let ran = run(&mut c, edition, &table, &list, 3, &mut room);
        assert_eq!(told(ran.map(|_| ())), answer);
    }
    answer
}

/// "Never less than the one before it; otherwise number 4", "and for the new one number 3 wants a multiple of 8".
#[test]
fn lists() {
    for (arrivals, number) in [
        ([0, 0, 0], None),
        ([7, 7, 7], None),
        ([0, 1, 2], None),
        ([0, 255, 256], None),
        ([0, 0, 20_000_000], None),
        ([5, 4, 5], Some((4, 1))),
        ([5, 5, 4], Some((4, 2))),
        ([256, 255, 0], Some((4, 1))),
        ([1, 0, 0], Some((4, 1))),
        ([20_000_001, 0, 0], Some((4, 0))),
        ([0, 20_000_001, 0], Some((4, 1))),
        ([0, 0, u32::MAX], Some((4, 2))),
    ] {
        let list = [READ, [1, 1, 1, 1], [0, 2, 1, 1]];
        let list = arriving(&list, &arrivals).concat();
        assert_eq!(refused(&TABLE_A, &list, 4), number);
        assert_eq!(refused(&TABLE_A, &list[..20], 4), Some((3, 0)));
    }
    // The lowest fault is named, be it of the one kind or of the other.
    let bad = [0, 8, 1, 1];
    let list = arriving(&[READ, bad, READ], &[1, 1, 0]).concat();
    assert_eq!(refused(&TABLE_A, &list, 3), Some((4, 1)));
    let list = arriving(&[READ, READ, bad], &[1, 0, 0]).concat();
    assert_eq!(refused(&TABLE_A, &list, 3), Some((4, 1)));
    // A refresh "may have any arrival", and one below that of the one before it is as any other.
    let list = arriving(&[REFRESH, REFRESH], &[9, LATEST]).concat();
    assert_eq!(refused(&REFRESHED, &list, 2), None);
    let list = arriving(&[READ, REFRESH], &[9, 8]).concat();
    assert_eq!(refused(&REFRESHED, &list, 2), Some((4, 1)));
    for (size, number) in [(256, None), (257, Some((3, 0)))] {
        let list: Vec<u8> = (0..size).flat_map(|k| later(READ, k)).collect();
        assert_eq!(refused(&TABLE_A, &list, 300), number);
    }
}

/// Numbers 1, 2 and 10 before 3, and too few places are 3, before 4.
#[test]
fn the_order_of_the_refusals() {
    let falls = arriving(&[READ, READ], &[5, 4]).concat();
    let a = bytes_of(&TABLE_A);
    let ccd_1 = bytes_of(&with(&[(CCD, 1)]));
    for (expected, table, first) in [
        (8, &a[..31], Some((1, 0, 0))),
        (8, &ccd_1, Some((2, 0, 0))),
        (8, &a, Some((10, 7, 7))),
        (0, &a, Some((10, 7, 7))),
        (7, &a, None),
    ] {
        for (list, places, number) in [
            (&falls[..12], 2, (3, 0, 7)),
            (&falls, 1, (3, 0, 7)),
            (&falls, 2, (4, 1, 7)),
        ] {
            let mut into = vec![transaction(0, 0, 0, 0); places];
            let answer = read_later_transactions(expected, table, list, &mut into);
            assert_eq!(told(answer), first.unwrap_or(number));
        }
        for (list, number) in [(&falls[..12], (3, 0, 7)), (&falls, (4, 1, 7))] {
            let answer = schedule_later_bytes(expected, table, list, &mut [], &mut []);
            assert_eq!(told(answer), first.unwrap_or(number));
            let mut c = Controller::fresh(&[8]);
            let answer = run_later_bytes(&mut c, expected, table, list, 9, &mut []);
            assert_eq!(told(answer), first.unwrap_or(number));
        }
    }
    let good = arriving(&[WRITE, READ], &[4, 9]).concat();
    for (size, slots, number) in [(31, 1, 5), (32, 1, 6)] {
        let (mut room, mut finishes) = (ROOM, [9; 4]);
        let (lent, slots) = (&mut room[..size], &mut finishes[..slots]);
        let answer = schedule_later_bytes(7, &a, &good, lent, slots);
        assert_eq!(told(answer), (number, 0, 7));
        assert_eq!((room, finishes), (ROOM, [9; 4]));
    }
}
