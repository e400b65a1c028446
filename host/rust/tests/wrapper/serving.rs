//! Whether a schedule serves a list.

use super::*;

/// What the three calls answer, which is the same, of a list that arrives at 0.
fn answer(t: Table, list: &[Transaction], schedule: &[u8]) -> Result<(u32, Served), Refusal> {
    let (edition, table) = (t[0], bytes(t));
    let four = |x: &Transaction| [x.kind, x.start, x.bi, x.bc];
    let fours: Vec<u8> = list.iter().flat_map(four).collect();
    let eights: Vec<u8> = list
        .iter()
        .flat_map(|x| [&four(x)[..], &x.arrival.to_le_bytes()].concat())
        .collect();
    let told = serves(edition, &table, list, schedule);
    assert_eq!(serves_bytes(edition, &table, &fours, schedule), told);
    let laters = serves_later_bytes(edition, &table, &eights, schedule);
    assert_eq!(laters, told);
    told
}

fn fault(transaction: u32) -> Result<(u32, Served), Refusal> {
    Ok((7, Served::AtFault { transaction }))
}

const SERVES: Result<(u32, Served), Refusal> = Ok((7, Served::Serves));

#[test]
fn built_ones() {
    for list in [
        &[][..],
        &[transaction(0, 0, 1, 1)],
        &[transaction(0, 7, 2, 3), transaction(1, 0, 8, 1)],
    ] {
        let (_, _, room) = built(list);
        assert_eq!(answer(A, list, &room), SERVES);
    }
}

#[test]
fn edited_ones() {
    let list = [transaction(0, 0, 1, 2), transaction(1, 1, 1, 1)];
    let (_, _, room) = built(&list);
    // ACT0 0, ACT1 6, RD0 10, RDA0 14, WRA1 22.
    let number = |at: usize| 8 * at + 6;
    let mut edited = room.clone();
    edited[number(1)] = 0;
    assert_eq!(answer(A, &list, &edited), fault(0));
    edited[number(1)] = 9;
    assert_eq!(answer(A, &list, &edited), fault(1));
    // The first read is missing; the second transaction's commands are outside the list.
    let short = [&room[..16], &room[24..]].concat();
    assert_eq!(answer(A, &list, &short), fault(0));
    assert_eq!(answer(A, &list[..1], &room), fault(1));
    assert_eq!(answer(A, &[], &room), fault(0));
    assert_eq!(answer(A, &list, &[]), fault(0));
    // The judge's verdict comes first: the bank of the write stays open.
    let open = Served::Broken {
        rule: 10,
        record: 4,
    };
    assert_eq!(answer(A, &list, &room[..32]), Ok((7, open)));
}

/// Arrivals are not looked at, and each number in its turn.
#[test]
fn refusals() {
    let late = Transaction {
        arrival: 20_000_000,
        ..transaction(0, 0, 1, 1)
    };
    let (_, _, room) = built(&[transaction(0, 0, 1, 1)]);
    let table = bytes(A);
    assert_eq!(serves(7, &table, &[late], &room), SERVES);
    let mut wrong = table;
    wrong[6] = 1;
    let bad = transaction(0, 8, 1, 1);
    let all = [late; 257];
    assert_eq!(
        refused(serves(8, &wrong[..31], &all, &room[..9])),
        (1, 0, 0)
    );
    assert_eq!(refused(serves(8, &wrong, &all, &room[..9])), (2, 0, 0));
    assert_eq!(refused(serves(8, &table, &all, &room[..9])), (10, 7, 7));
    assert_eq!(refused(serves(7, &table, &all, &room[..9])), (3, 0, 7));
    assert_eq!(
        refused(serves(7, &table, &[late, bad], &room[..9])),
        (4, 1, 7)
    );
    assert_eq!(refused(serves(7, &table, &[late], &room[..9])), (7, 0, 7));
    assert_eq!(refused(serves_bytes(7, &table, &[0; 6], &room)), (3, 0, 7));
    let half = serves_later_bytes(7, &table, &[0; 12], &room);
    assert_eq!(refused(half), (3, 0, 7));
}
