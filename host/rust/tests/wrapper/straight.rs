//! The second engine: whatever the plain one answers, writes and leaves.

use super::*;

/// Example 3 of document 01, with the read at once and with the read later.
fn lists() -> [[Transaction; 2]; 2] {
    let (write, read) = (transaction(1, 0, 1, 1), transaction(0, 0, 1, 1));
    let later = Transaction {
        arrival: 9_000,
        ..read
    };
    [[write, read], [write, later]]
}

fn eights(list: &[Transaction]) -> Vec<u8> {
    let one = |x: &Transaction| {
        let mut record = [0; 8];
        assert_eq!(write_later(*x, &mut record), Ok(()));
        record
    };
    list.iter().flat_map(one).collect()
}

const FOURS: [u8; 8] = [1, 0, 1, 1, 0, 0, 1, 1];

type Build<'a> = &'a dyn Fn(&mut [u8], &mut [u32]) -> Result<Scheduled, Refusal>;

#[test]
fn schedules() {
    let table = bytes(A);
    for list in lists() {
        let (_, finishes, room) = built(&list);
        let eights = eights(&list);
        let of_eights: Build = &|r, f| schedule_straight_later_bytes(7, &table, &eights, r, f);
        let of_fours: Build = &|r, f| schedule_straight_bytes(7, &table, &FOURS, r, f);
        let ways = if list[1].arrival == 0 { 2 } else { 1 };
        for build in [of_eights, of_fours].iter().take(ways) {
            let (mut same, mut same_finishes) = ([0; 32], [0; 2]);
            let told = build(&mut same, &mut same_finishes);
            assert_eq!(told.map(|s| (s.edition, s.commands)), Ok((7, 4)));
            assert_eq!((&same[..], &same_finishes[..]), (&room[..], &finishes[..]));
            assert_eq!(
                refused(build(&mut same[..31], &mut same_finishes)),
                (5, 0, 7)
            );
            assert_eq!(refused(build(&mut same, &mut [])), (6, 0, 7));
        }
    }
}

/// One engine may go on where the other stopped, lent or handed over, for some cycles, for one and to the end.
#[test]
fn in_turn() {
    let table = bytes(A);
    for list in lists() {
        let (_, _, whole) = built(&list);
        let eights = eights(&list);
        let mut plain = start(7, &table).expect("the table is accepted");
        let mut straight = plain;
        let (mut room, mut same) = ([0; 32], [0; 32]);
        for (from, count) in [(0, 10), (8, 1), (16, 0), (16, 20), (16, 1), (16, NEVER)] {
            let (r, s) = (&mut room[from..], &mut same[from..]);
            let told = match count {
                1 => step(&mut plain, 7, &table, &list, r),
                _ => run(&mut plain, 7, &table, &list, count, r),
            };
            let before = straight;
            let by_straight = match count {
                1 => step_straight(&mut straight, 7, &table, &list, s),
                _ => run_straight(&mut straight, 7, &table, &list, count, s),
            };
            assert_eq!((by_straight, straight), (told, plain));
            let (handed, by_bytes) = run_straight_later_bytes(before, 7, &table, &eights, count, s);
            assert_eq!((by_bytes, handed), (told, plain));
            if list[1].arrival == 0 {
                let (handed, by_bytes) = run_straight_bytes(before, 7, &table, &FOURS, count, s);
                assert_eq!((by_bytes, handed), (told, plain));
            }
        }
        assert_eq!((&room[..], &same[..]), (&whole[..], &whole[..]));
        assert_eq!((straight.acts, straight.datas), (2, 2));
    }
}

/// From a controller from which nothing can leave: all cycles to the last are told, whatever the count above them.
#[test]
fn stuck() {
    let (table, list) = (bytes(A), [transaction(0, 0, 1, 1)]);
    let mut open = start(7, &table).expect("the table is accepted");
    open.banks[0].opened = 1;
    let mut closed = open;
    (closed.acts, closed.banks[0].opened) = (1, 0);
    for stuck in [open, closed] {
        for (count, cycles) in [
            (NEVER, 100_000_000),
            (100_000_001, 100_000_000),
            (99_999_999, 99_999_999),
            (0, 0),
        ] {
            let (mut c, mut room) = (stuck, [5; 16]);
            let told = run_straight(&mut c, 7, &table, &list, count, &mut room);
            assert_eq!(told.map(|r| (r.commands, r.cycles)), Ok((0, cycles)));
            let left = Controller {
                cycle: cycles,
                lent: 1,
                ..stuck
            };
            assert_eq!((c, room), (left, [5; 16]));
        }
    }
}

#[test]
fn refusals() {
    let (table, list) = (bytes(A), lists()[0]);
    let fresh = start(7, &table).expect("the table is accepted");
    let mut late = fresh;
    late.cycle = 1;
    let mut ended = fresh;
    ended.cycle = 100_000_000;
    for (c, table, size, number) in [
        (fresh, &table[..31], 32, (1, 0, 0)),
        (fresh, &table[..], 31, (5, 0, 7)),
        (ended, &table[..], 32, (9, 0, 7)),
        (late, &table[..], 32, (12, 0, 7)),
    ] {
        let (mut lent, mut room) = (c, [5; 32]);
        let told = run_straight(&mut lent, 7, table, &list, 90, &mut room[..size]);
        assert_eq!((refused(told), lent), (number, c));
        let (handed, told) = run_straight_bytes(c, 7, table, &FOURS, 90, &mut room[..size]);
        assert_eq!((refused(told), handed), (number, c));
        assert_eq!(room, [5; 32]);
    }
    let mut c = fresh;
    let told = step_straight(&mut c, 8, &table, &list, &mut [0; 8]);
    assert_eq!((refused(told), c), ((10, 7, 7), fresh));
    let (handed, told) = run_straight_later_bytes(fresh, 7, &table, &[0; 9], 1, &mut [0; 8]);
    assert_eq!((refused(told), handed), ((3, 0, 7), fresh));
    let told = schedule_straight_bytes(7, &table, &[0, 8, 1, 1], &mut [0; 16], &mut [0]);
    assert_eq!(refused(told), (4, 0, 7));
}
