//! The request's "Yes exactly when ..", by equal lists, against the faults; and the readings of who is at fault.

use super::*;
use crate::house::*;
use crate::records::whole;
use crate::rules::{RDA, WR};

/// Of a schedule that the judge accepts: "no record's number is outside the list, no record is anything but a command due under its number,
/// and every transaction's ACTs and data commands occur exactly once, .. all data commands in queue order". The commands of the ACT queue
/// "may stand in any order", each data command behind the ACT of its number, each REF behind all that is earlier and before all that is later.
fn does_the_work(table: &GroupTable, list: &[Transaction], records: &[Due]) -> bool {
    let [mut acts, datas] = dues(table, list);
    let in_queue = |data: bool| move |r: &&Due| is_data(r.0) == data;
    let mut others: Vec<Due> = records.iter().filter(in_queue(false)).copied().collect();
    acts.sort();
    others.sort();
    let mut open = [None; 16];
    let mut behind_own = true;
    for &(kind, bank, number) in records {
        if kind == ACT {
            open[usize::from(bank)] = Some(number);
        }
        behind_own &= !is_data(kind) || open[usize::from(bank)] == Some(number);
    }
    let refs_apart = records.iter().enumerate().all(|(place, r)| {
        let earlier = records[..place].iter().all(|w| w.2 <= r.2);
        let later = records[place + 1..].iter().all(|w| w.2 >= r.2);
        r.0 != REF || earlier && later
    });
    records.iter().filter(in_queue(true)).eq(&datas) && acts == others && behind_own && refs_apart
}

/// What is answered, with the same answer by the request's own words where the judge accepts.
fn answer(list: &[[u8; 4]], order: &[Due]) -> Served {
    let table = whole(&REFRESHED);
    let list = transactions(list);
    let served = serves(&table, &list, &loose(order)).expect("nothing to refuse");
    if !matches!(served, Served::Broken { .. }) {
        let work = does_the_work(&table, &list, order);
        assert_eq!(served == Served::Serves, work, "{order:?}");
    }
    served
}

fn fault(transaction: usize) -> Served {
    Served::AtFault { transaction }
}

/// Random orders of random commands, some of them the list's own.
#[test]
fn yes_exactly_when() {
    let mut numbers = Numbers(5);
    let lists: [&[[u8; 4]]; 4] = [
        &[],
        &[[0, 0, 1, 1], REFRESH_BYTES],
        &[[0, 0, 1, 2], [1, 0, 1, 1]],
        &[REFRESH_BYTES, [1, 7, 2, 1], REFRESH_BYTES],
    ];
    let mut told = [0; 3];
    for turn in 0..200_000 {
        let list = lists[turn % lists.len()];
        let transactions = transactions(list);
        let mut order = dues(&whole(&REFRESHED), &transactions).concat();
        for _ in 0..numbers.below(6) {
            let (at, to) = (
                numbers.below(order.len() + 1),
                numbers.below(order.len() + 1),
            );
            match numbers.below(5) {
                0 if at < order.len() => drop(order.remove(at)),
                1 => {
                    let kind = numbers.below(6) as u8;
                    order.insert(at, (kind, numbers.of(&[0, 0, 7]), numbers.below(4) as u16));
                }
                2 if at < order.len() => order[at].2 = numbers.below(4) as u16,
                _ if at.max(to) < order.len() => {
                    let moved = order.remove(at);
                    order.insert(to, moved);
                }
                _ => {}
            }
        }
        told[match answer(list, &order) {
            Served::Serves => 0,
            Served::Broken { .. } => 1,
            Served::AtFault { .. } => 2,
        }] += 1;
    }
    assert!(told.iter().all(|&n| n > 5_000), "{told:?}");
}

/// Data of transaction 1 before data of 0: 0 is at fault. ACTs may stand in any order.
#[test]
fn order() {
    let two = [[0, 0, 1, 1], [0, 1, 1, 1]];
    let (open, close) = (|x: u16| (ACT, x as u8, x), |x: u16| (RDA, x as u8, x));
    let served = answer(&two, &[open(1), open(0), close(0), close(1)]);
    assert_eq!(served, Served::Serves);
    let served = answer(&two, &[open(0), open(1), close(1), close(0)]);
    assert_eq!(served, fault(0));
    // With three, only those that stand behind a later one.
    let three = [[0, 0, 1, 1], [0, 1, 1, 1], [0, 2, 1, 1]];
    let served = answer(
        &three,
        &[open(0), close(0), open(1), open(2), close(2), close(1)],
    );
    assert_eq!(served, fault(1));
}

/// A misplaced REF: the refresh alone is at fault. A stray record of a later number misplaces it, one outside the list doesn't.
#[test]
fn misplaced() {
    let list = [[0, 0, 1, 1], REFRESH_BYTES, [1, 0, 1, 1]];
    let first = [(ACT, 0, 0), (RDA, 0, 0)];
    let last = [(ACT, 0, 2), (WRA, 0, 2)];
    let refresh = [(REF, 0, 1)];
    let stray = |x| [(ACT, 3, x), (RDA, 3, x)];
    assert_eq!(
        answer(&list, &[&first[..], &refresh, &last].concat()),
        Served::Serves
    );
    assert_eq!(
        answer(&list, &[&refresh[..], &first, &last].concat()),
        fault(1)
    );
    assert_eq!(
        answer(&list, &[&first[..], &last, &refresh].concat()),
        fault(1)
    );
    let with = |x| [&first[..], &stray(x), &refresh, &last].concat();
    assert_eq!(
        [0, 1, 2, 3, 9].map(|x| answer(&list, &with(x))),
        [0, 1, 1, 3, 3].map(fault)
    );
}

/// ACTs exchanged between two transactions on one bank: both are at fault. An ACT from outside the list is "another number" too.
#[test]
fn other_number() {
    let list = [[0, 0, 1, 1], [1, 0, 1, 1]];
    let exchanged = [(ACT, 0, 1), (RDA, 0, 0), (ACT, 0, 0), (WRA, 0, 1)];
    assert_eq!(answer(&list, &exchanged), fault(0));
    let work = Work {
        transactions: 2,
        all: dues(&whole(&REFRESHED), &list.map(|x| Transaction::of(&x))).concat(),
        records: exchanged.to_vec(),
        places: vec![None, Some(0), None, Some(1)],
    };
    assert_eq!(work.faults(), [0, 1].map(|x| (x, vec![Cause::OtherNumber])));
    let outside = [
        (ACT, 0, 0),
        (RDA, 0, 0),
        (ACT, 0, 5),
        (WRA, 0, 1),
        (ACT, 0, 1),
        (WRA, 0, 5),
    ];
    assert_eq!(answer(&list, &outside), fault(1));
}

/// Data records that are not due have no place in the queue, repeated ones have theirs.
#[test]
fn not_due_and_repeated() {
    let list = [[0, 0, 1, 2], [0, 1, 1, 1]];
    let own = [
        (ACT, 0, 0),
        (RD, 0, 0),
        (RDA, 0, 0),
        (ACT, 1, 1),
        (RDA, 1, 1),
    ];
    assert_eq!(answer(&list, &own), Served::Serves);
    // A write of 1's before 0's data puts 1 alone at fault.
    let stray = [&[(ACT, 1, 1), (WR, 1, 1)], &own[..3], &own[4..]].concat();
    assert_eq!(answer(&list, &stray), fault(1));
    // The same of a read of 1's that is due puts 0 at fault.
    let early = [&[(ACT, 1, 1), (RDA, 1, 1)], &own[..]].concat();
    assert_eq!(answer(&list, &early), fault(0));
}
