//! Numbers 9 and 12 by what the state tells was lent before, and transactions that a state's commands went before.

use super::*;
use crate::desk::tests::refusals::{told, Told, ROOM};
use crate::rules::RD;

/// From a state, under table A, with so much room: the commands as cycle and kind, and the state that is left.
fn ran(
    c: &Controller,
    list: &[[u8; 8]],
    count: u32,
    size: usize,
) -> Result<(Vec<(u32, u8)>, Controller), Told> {
    let (mut left, mut room) = (c.clone(), ROOM);
    let a = bytes_of(&TABLE_A);
    let lent = &mut room[..size];
    let answer = run_later_bytes(&mut left, 7, &a, &list.concat(), count, lent);
    let transactions = transactions(list);
    let (mut same, mut same_room) = (c.clone(), ROOM);
    let lent = &mut same_room[..size];
    let as_list = run(&mut same, 7, &a, &transactions, count, lent);
    assert_eq!((answer, &left, room), (as_list, &same, same_room));
    match answer {
        Ok(told) => {
            let gone = commands_of(&room[..8 * told.commands as usize]);
            Ok((gone.iter().map(|c| (c.cycle, c.kind)).collect(), left))
        }
        Err(_) => {
            assert_eq!((&left, room), (c, ROOM));
            Err(told(answer))
        }
    }
}

fn at(cycle: u32, lent: u32) -> Controller {
    let mut c = Controller::fresh(&TABLE_A);
    (c.cycle, c.lent) = (cycle, lent);
    c
}

/// "If the first new arrival is below the state's cycle, the piece is late: number 12, position 0; an equal arrival is in time, an empty
/// piece never late."
#[test]
fn number_12() {
    let list = arriving(&[READ, [0, 1, 1, 1], [0, 2, 1, 1]], &[5, 9, 9]);
    for cycle in 0..12 {
        for lent in 0..=3 {
            let first_new = [5, 9, 9, u32::MAX][lent as usize];
            for count in [0, 1, 40] {
                let answer = ran(&at(cycle, lent), &list, count, 48);
                if first_new < cycle {
                    assert_eq!(answer.err(), Some((12, 0, 7)));
                } else {
                    let (_, left) = answer.expect("it's in time");
                    // "Every run that is not refused, of count 0 too."
                    assert_eq!(left.lent, 3);
                    let mut same = at(cycle, 3);
                    if count == 0 {
                        assert_eq!(left, same);
                    }
                    same.cycle += 1;
                    if count == 1 && cycle < 5 {
                        assert_eq!(left, same);
                    }
                }
            }
        }
    }
    // Of no list, and of all that was lent, nothing is late, whatever the cycle.
    assert!(ran(&at(99_999_999, 0), &[], 9, 0).is_ok());
    assert!(ran(&at(99_999_999, 3), &list, 0, 0).is_ok());
    for (cycle, number) in [(LATEST, None), (LATEST + 1, Some((12, 0, 7)))] {
        let answer = ran(&at(cycle, 0), &[later(READ, LATEST)], 20, 16);
        assert_eq!(answer.err(), number);
    }
}

/// "(More than the list has: number 9)".
#[test]
fn number_9() {
    let list = arriving(&[READ, WRITE], &[50, 60]);
    for lent in [0, 1, 2, 3, 255, 256, 257, 1 << 16, u32::MAX] {
        for size in 0..=2 {
            let answer = ran(&at(0, lent), &list[..size], 0, 0);
            let fine = lent as usize <= size;
            assert_eq!(answer.err(), (!fine).then_some((9, 0, 7)));
        }
    }
}

/// 5 before 9, and 9 before 12, each of its causes.
#[test]
fn the_order() {
    let list = arriving(&[READ, WRITE], &[4, 9]);
    let late = at(5, 0);
    assert_eq!(ran(&late, &list, 9, 32).err(), Some((12, 0, 7)));
    assert_eq!(ran(&late, &list, 9, 31).err(), Some((5, 0, 7)));
    assert_eq!(ran(&late, &list, 0, 0).err(), Some((12, 0, 7)));
    let falls = arriving(&[READ, WRITE], &[4, 3]);
    assert_eq!(ran(&late, &falls, 9, 32).err(), Some((4, 1, 7)));
    let changes: [fn(&mut Controller); 6] = [
        |c| c.cycle = 100_000_000,
        |c| c.edition = 8,
        |c| c.refresh = c.cycle,
        |c| c.banks[7].act = c.cycle,
        |c| c.acts = 3,
        |c| c.datas = 1,
    ];
    for change in changes {
        let mut c = late.clone();
        change(&mut c);
        assert_eq!(ran(&c, &list, 9, 32).err(), Some((9, 0, 7)));
    }
}

/// "Neither queue": from a state whose ACT went before, the data command waits for the arrival too, be it the first of its bank or not.
#[test]
fn the_data_queue_waits() {
    let mut c = at(20, 1);
    (c.acts, c.banks[0].opened) = (1, 1);
    for arrival in [0, 19, 20, 21, 27, 30] {
        let first = arrival.max(20);
        let list = [later([0, 0, 1, 2], arrival)];
        let (gone, _) = ran(&c, &list, 30, 24).expect("nothing is refused");
        assert_eq!(gone, [(first, RD), (first + 4, RDA)]);
        let mut within = c.clone();
        within.datas = 1;
        let (gone, _) = ran(&within, &list, 30, 24).expect("nothing is refused");
        assert_eq!(gone, [(first, RDA)]);
    }
    // It is not seen, though it is due: what is left counts it, and the run goes on to its count.
    let list = [later([0, 0, 1, 2], 500)];
    assert_eq!(ran(&c, &list, 9, 15).err(), Some((5, 0, 7)));
    let (gone, left) = ran(&c, &list, 9, 16).expect("nothing is refused");
    assert_eq!((gone, left.cycle), (vec![], 29));
}

/// The ACT queue waits alone where the data queue's head has arrived; and an ACT that could go is not held by data that have not.
#[test]
fn each_queue_by_its_own_head() {
    let mut c = at(20, 2);
    (c.acts, c.banks[0].opened) = (1, 1);
    let list = [later([0, 0, 1, 2], 20), later([1, 1, 1, 1], 23)];
    let (gone, _) = ran(&c, &list, 60, 32).expect("nothing is refused");
    assert_eq!(gone, [(20, RD), (23, ACT), (24, RDA), (33, WRA)]);
    // No list has it so, since arrivals never descend: both queues' heads are of one transaction, or the data queue's is of an earlier one.
    let list = [later([0, 0, 1, 1], 30), later([1, 1, 1, 1], 30)];
    let (gone, _) = ran(&c, &list, 60, 32).expect("nothing is refused");
    assert_eq!(gone, [(30, RDA), (31, ACT), (41, WRA)]);
}
