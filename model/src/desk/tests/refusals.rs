//! The numbers in their order, call by call, and that no buffer or state changes when one is told.

use super::laws::transaction;
use crate::desk::*;
use crate::house::*;
use crate::records::{whole, BANKS, CCD, RFC};

/// Number, position, edition.
pub type Told = (u8, u32, u16);

pub fn told<T>(answer: Result<T, Refusal>) -> Told {
    let r = answer.err().expect("it's refused");
    (r.number, r.position, r.edition)
}

/// Numbers 1 and 2 at once, 2 alone, in two ways, and none; with what must be told of each before anything else is looked at.
fn tables() -> [(Vec<u8>, Option<Told>); 4] {
    let short = bytes_of(&with(&[(BANKS, 0)]))[..31].to_vec();
    [
        (short, Some((1, 0, 0))),
        (bytes_of(&with(&[(RFC, 1024)])), Some((2, 0, 0))),
        (bytes_of(&with(&[(CCD, 1)])), Some((2, 0, 0))),
        (bytes_of(&TABLE_A), None),
    ]
}

pub const ROOM: [u8; 48] = [0xa5; 48];

/// Four commands: room for 32 bytes.
pub fn two() -> [Transaction; 2] {
    [transaction(1, 0, 1, 1), transaction(0, 0, 1, 1)]
}

/// The second and the third are out of range.
pub fn bad() -> [Transaction; 3] {
    [
        transaction(0, 7, 8, 1),
        transaction(0, 8, 1, 1),
        transaction(2, 0, 1, 1),
    ]
}

pub fn bytes(list: &[Transaction]) -> Vec<u8> {
    list.iter().flat_map(|x| x.four()).collect()
}

#[test]
fn schedules() {
    for (table, of_table) in tables() {
        let refused = |list: &[Transaction], size: usize, slots: usize, number: Told| {
            let (mut room, mut finishes) = (ROOM, [9; 4]);
            let number = of_table.unwrap_or(number);
            let as_list = schedule(7, &table, list, &mut room[..size], &mut finishes[..slots]);
            assert_eq!(told(as_list), number);
            let list = bytes(list);
            let as_bytes =
                schedule_bytes(7, &table, &list, &mut room[..size], &mut finishes[..slots]);
            assert_eq!(told(as_bytes), number);
            assert_eq!((room, finishes), (ROOM, [9; 4]));
        };
        refused(&[bad()[2]; 257], 0, 0, (3, 0, 7));
        refused(&bad(), 0, 0, (4, 1, 7));
        refused(&two(), 31, 1, (5, 0, 7));
        refused(&two(), 32, 1, (6, 0, 7));
        let odd = schedule_bytes(7, &table, &[9; 7], &mut [], &mut []);
        assert_eq!(told(odd), of_table.unwrap_or((3, 0, 7)));
    }
    let (mut room, mut finishes) = (ROOM, [9; 4]);
    let a = bytes_of(&TABLE_A);
    let commands = schedule(7, &a, &two(), &mut room, &mut finishes).map(|told| told.commands);
    assert_eq!((commands, finishes), (Ok(4), [10, 68, 9, 9]));
    assert_eq!(room[32..], ROOM[32..]);
    assert_eq!(room[..32], built(&TABLE_A, &[[1, 0, 1, 1], [0, 0, 1, 1]]).0);
}

#[test]
fn lists() {
    let blank = transaction(9, 9, 9, 9);
    for (table, of_table) in tables() {
        for (list, places, number) in [
            (&[9; 5][..], 4, (3, 0, 7)),
            (&[9; 1028], 300, (3, 0, 7)),
            (&bytes(&bad()), 2, (3, 0, 7)),
            (&bytes(&bad()), 3, (4, 1, 7)),
        ] {
            let mut into = vec![blank; places];
            let answer = read_transactions(7, &table, list, &mut into);
            assert_eq!(told(answer), of_table.unwrap_or(number));
            assert_eq!(into, vec![blank; places]);
        }
    }
    let mut into = [blank; 4];
    let answer = read_transactions(7, &bytes_of(&TABLE_A), &bytes(&two()), &mut into);
    let (edition, transactions) = (7, 2);
    let decoded = Decoded {
        edition,
        transactions,
    };
    assert_eq!(answer, Ok(decoded));
    assert_eq!(into, [two()[0], two()[1], blank, blank]);
}

#[test]
fn judges_and_bounds() {
    for (table, of_table) in tables() {
        let first = |number| of_table.unwrap_or(number);
        assert_eq!(told(judge(7, &table, &[0; 9])), first((7, 0, 7)));
        assert_eq!(told(judge_pattern(7, &table, &[0; 9], 0)), first((7, 0, 7)));
        assert_eq!(told(judge_pattern(7, &table, &[0; 8], 0)), first((8, 0, 7)));
        for (bi, bc) in [(0, 1), (9, 1), (17, 1), (1, 0), (1, 17)] {
            assert_eq!(told(bound(7, &table, bi, bc)), first((4, 0, 7)));
        }
    }
}

#[test]
fn starts() {
    for (table, of_table) in tables() {
        let (answer, c) = start(7, &table);
        let edition = of_table.map_or(7, |_| 0);
        assert_eq!(
            answer.map_err(|r| (r.number, r.position, r.edition)),
            of_table.map_or(Ok(7), Err)
        );
        let mut fresh = Controller::fresh(&TABLE_A);
        fresh.edition = edition;
        assert_eq!(c, fresh);
        assert_eq!(
            (c.cycle, c.acts, c.datas, c.last, c.refresh, c.lent),
            (0, 0, 0, [NEVER; 4], NEVER, 0)
        );
    }
}

/// "For a run, under 8 × the lesser of count and commands left", and 5 comes before 9.
#[test]
fn runs() {
    let mut other = Controller::fresh(&TABLE_A);
    other.edition = 8;
    // Nothing is left of the ACTs, though more have gone than there are.
    let mut too_many = Controller::fresh(&TABLE_A);
    too_many.acts = 5;
    for (table, of_table) in tables() {
        let refused = |c: &Controller, list: &[Transaction], count, size: usize, number| {
            let (mut same, mut room) = (c.clone(), ROOM);
            let number = of_table.unwrap_or(number);
            let as_list = run(&mut same, 7, &table, list, count, &mut room[..size]);
            assert_eq!(told(as_list), number);
            let list = bytes(list);
            let as_bytes = run_bytes(&mut same, 7, &table, &list, count, &mut room[..size]);
            assert_eq!(told(as_bytes), number);
            assert_eq!((&same, room), (c, ROOM));
        };
        refused(&other, &[bad()[2]; 257], 1, 0, (3, 0, 7));
        refused(&other, &bad(), 1, 0, (4, 1, 7));
        refused(&other, &two(), 1, 7, (5, 0, 7));
        refused(&other, &two(), 1, 8, (9, 0, 7));
        refused(&other, &two(), 9, 31, (5, 0, 7));
        refused(&other, &two(), 9, 32, (9, 0, 7));
        refused(&other, &two(), 0, 0, (9, 0, 7));
        refused(&too_many, &two(), 9, 15, (5, 0, 7));
        refused(&too_many, &two(), 9, 16, (9, 0, 7));
        let mut same = other.clone();
        let answer = step(&mut same, 7, &table, &two(), &mut []);
        assert_eq!(told(answer), of_table.unwrap_or((5, 0, 7)));
        assert_eq!(same, other);
    }
}

/// All 32 bits of a state's edition and of `opened` count.
#[test]
fn wide_states() {
    let (mut room, table) = ([0; 16], bytes_of(&TABLE_A));
    let list = [transaction(0, 0, 1, 1)];
    for edition in [7 << 16, 7 + (1 << 16), u32::MAX] {
        let mut c = Controller::fresh(&TABLE_A);
        c.edition = edition;
        let answer = run(&mut c, 7, &table, &list, 1, &mut room);
        assert_eq!((told(answer), c.edition), ((9, 0, 7), edition));
    }
    for (opened, written) in [(0, 1), (1, 0), (256, 0), (1 << 16, 0), (u32::MAX, 0)] {
        let mut c = Controller::fresh(&TABLE_A);
        c.banks[0].opened = opened;
        let answer = run(&mut c, 7, &table, &list, 1, &mut room);
        assert_eq!(answer.map(|ran| ran.commands), Ok(written));
        assert_eq!(c.banks[0].opened, opened.max(written));
    }
}

/// Of one record: a refused writer changes no byte, and what is written is read back.
#[test]
fn records() {
    let mut room = ROOM;
    assert_eq!(told(write_table(TABLE_A, &mut room)), (1, 0, 0));
    let bad_table = with(&[(CCD, 1)]);
    assert_eq!(told(write_table(bad_table, &mut room[..32])), (2, 0, 0));
    let write = |x: [u8; 4], room: &mut [u8]| write_transaction(Transaction::of(&x), room);
    assert_eq!(told(write([2, 0, 1, 1], &mut room)), (3, 0, 0));
    for (start, bi) in [(16, 1), (0, 17), (15, 17)] {
        let answer = write([0, start, bi, 1], &mut room[..4]);
        assert_eq!(told(answer), (4, 0, 0));
        assert_eq!(told(read_transaction(&[0, start, bi, 1])), (4, 0, 0));
    }
    assert_eq!(told(write_command(0, 0, 0, 0, &mut room[..7])), (5, 0, 0));
    assert_eq!(room, ROOM);
    assert_eq!(write_table(TABLE_A, &mut room[..32]), Ok(7));
    assert_eq!(read_table(&room[..32]), Ok(whole(&TABLE_A)));
    assert_eq!(write([1, 15, 16, 16], &mut room[..4]), Ok(0));
    assert_eq!(read_transaction(&room[..4]), Ok(transaction(1, 15, 16, 16)));
    assert_eq!(write_command(NEVER, 255, 16, 300, &mut room[..40]), Ok(0));
    let c = read_command(&room[..8]).expect("any 8 bytes are a command");
    assert_eq!(
        (c.cycle, c.kind, c.bank, c.transaction),
        (NEVER, 255, 16, 300)
    );
}
