//! Transactions that arrive later, and runs in pieces.

use super::*;

fn at(arrival: u32, x: Transaction) -> Transaction {
    Transaction { arrival, ..x }
}

fn laters(list: &[Transaction]) -> Vec<u8> {
    let one = |x: &Transaction| {
        let mut record = [0; 8];
        assert_eq!(write_later(*x, &mut record), Ok(()));
        assert_eq!(read_later(&record), Ok(*x));
        record
    };
    list.iter().flat_map(one).collect()
}

/// Three reads: the second arrives while the first is at work, the third when both are done.
fn three() -> [Transaction; 3] {
    let read = |bank| transaction(0, bank, 1, 1);
    [at(0, read(0)), at(8, read(1)), at(40, read(0))]
}

#[test]
fn records() {
    let x = at(20_000_000, transaction(1, 2, 3, 4));
    let mut out = [5; 9];
    assert_eq!(write_later(x, &mut out[..8]), Ok(()));
    assert_eq!(out, [1, 2, 3, 4, 0, 45, 49, 1, 5]);
    assert_eq!(read_later(&out[..8]), Ok(x));
    for size in [0, 4, 7, 9] {
        assert_eq!(refused(read_later(&out[..size])), (3, 0, 0));
        assert_eq!(refused(write_later(x, &mut vec![0; size])), (3, 0, 0));
    }
    let beyond = at(20_000_001, x);
    assert_eq!(refused(write_later(beyond, &mut out[..8])), (4, 0, 0));
    out[4] = 1;
    assert_eq!(refused(read_later(&out[..8])), (4, 0, 0));
    // The record of 4 bytes is arrival 0.
    assert_eq!(refused(write_transaction(x, &mut out[..8])), (3, 0, 0));
    assert_eq!(refused(write_transaction(x, &mut out[..4])), (4, 0, 0));
    assert_eq!(read_transaction(&out[..4]), Ok(at(0, x)));
}

#[test]
fn schedules() {
    let (commands, finishes, room) = built(&three());
    let right = [
        (0, 0, 0, 0),
        (8, 0, 1, 1),
        (10, 2, 0, 0),
        (18, 2, 1, 1),
        (40, 0, 0, 2),
        (50, 2, 0, 2),
    ];
    assert_eq!(
        (&commands[..], &finishes[..]),
        (&right[..], &[24, 32, 64][..])
    );
    let bytes_of_list = laters(&three());
    let (mut same, mut same_finishes) = (vec![0; room.len()], [0; 3]);
    let told = schedule_later_bytes(7, &bytes(A), &bytes_of_list, &mut same, &mut same_finishes);
    assert_eq!(told.map(|s| s.commands), Ok(6));
    assert_eq!((same, &same_finishes[..]), (room, &finishes[..]));
    let mut list = [transaction(9, 9, 9, 9); 4];
    let told = read_later_transactions(7, &bytes(A), &bytes_of_list, &mut list);
    assert_eq!(told.map(|d| d.transactions), Ok(3));
    assert_eq!(
        (list[..3] == three(), list[3]),
        (true, transaction(9, 9, 9, 9))
    );
}

#[test]
fn refusals() {
    let (table, bytes_of_list) = (bytes(A), laters(&three()));
    let [first, second, third] = three();
    let (mut room, mut finishes) = ([0; 48], [0; 3]);
    let mut build = |list: &[u8]| {
        let told = schedule_later_bytes(7, &table, list, &mut room, &mut finishes);
        refused(told)
    };
    assert_eq!(build(&bytes_of_list[..12]), (3, 0, 7));
    assert_eq!(build(&laters(&[second, first])), (4, 1, 7));
    let told = schedule(7, &table, &[first, third, second], &mut room, &mut finishes);
    assert_eq!(refused(told), (4, 2, 7));
    let told = read_later_transactions(7, &table, &bytes_of_list, &mut [first; 2]);
    assert_eq!(refused(told), (3, 0, 7));
}

/// In pieces, lent and handed over: the commands, the cycles and the controller of the whole list.
#[test]
fn pieces() {
    let (table, list) = (bytes(A), three());
    let (_, _, whole) = built(&list);
    let fresh = start(7, &table).expect("the table is accepted");
    let mut at_once = fresh;
    let mut room = [0; 48];
    let told = run(&mut at_once, 7, &table, &list, NEVER, &mut room);
    assert_eq!(told.map(|r| (r.commands, r.cycles)), Ok((6, 51)));
    assert_eq!((&room[..], at_once.lent), (&whole[..], 3));
    let (mut c, mut room, mut from, mut cycles) = (fresh, [0; 48], 0, 0);
    for (size, count) in [(0, 7), (2, 4), (2, 0), (2, 1000), (3, 0), (3, 1000)] {
        let mut lent = c;
        let rest = &mut room[from..];
        let told = run(&mut lent, 7, &table, &list[..size], count, rest).expect("it's in time");
        let by_bytes = laters(&list[..size]);
        let (handed, same) = run_later_bytes(c, 7, &table, &by_bytes, count, rest);
        assert_eq!((same, handed), (Ok(told), lent));
        assert_eq!(lent.lent, size as u32);
        c = lent;
        from += 8 * told.commands as usize;
        cycles += told.cycles;
    }
    assert_eq!((c, cycles, &room[..]), (at_once, 51, &whole[..]));
}

/// Late by a cycle, and in time; nothing new; more lent than the list has; and 9 before 12.
#[test]
fn late() {
    let (table, list) = (bytes(A), three());
    let mut c = start(7, &table).expect("the table is accepted");
    let mut room = [0; 48];
    run(&mut c, 7, &table, &list[..1], 9, &mut room).expect("it's in time");
    let mut again = |c: Controller, size: usize, count| {
        let mut lent = c;
        let told = run(&mut lent, 7, &table, &list[..size], count, &mut room);
        assert!(told.is_ok() || lent == c);
        told.map(|_| lent.lent).map_err(|r| (r.number, r.position))
    };
    assert_eq!(again(c, 2, 0), Err((12, 0)));
    assert_eq!(again(c, 1, 0), Ok(1));
    assert_eq!(again(c, 0, 0), Err((9, 0)));
    let mut other = c;
    other.refresh = other.cycle;
    assert_eq!(again(other, 2, 0), Err((9, 0)));
    c.cycle = 8;
    assert_eq!(again(c, 2, 0), Ok(2));
    c.lent = 3;
    assert_eq!(again(c, 2, 0), Err((9, 0)));
    assert_eq!(again(c, 3, 0), Ok(3));
}
