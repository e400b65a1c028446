//! Request 2: "Start must be below banks and BI at most banks; the banks are then start, start + 1 and so on, with bank 0 after the
//! last."

use super::laws::transaction;
use super::refusals::{bytes, told, ROOM};
use crate::desk::*;
use crate::house::*;
use crate::records::{commands_of, BANKS, EDITION};
use crate::rules::ACT;

/// Tables of every number of banks, the numbers of table A and the least there are.
fn tables() -> Vec<Table> {
    let of_banks = |banks| {
        let mut least = LEAST;
        least[BANKS] = banks;
        [with(&[(BANKS, banks)]), least]
    };
    (1..=16).flat_map(of_banks).collect()
}

/// Counted up one by one, as the request has it.
fn banks_from(start: u8, bi: u8, banks: u8) -> Vec<u8> {
    let mut all = vec![start];
    while all.len() < usize::from(bi) {
        let next = all[all.len() - 1] + 1;
        all.push(if next == banks { 0 } else { next });
    }
    all
}

/// The banks of the ACTs, and of the data commands, in the order in which they went.
fn banks_gone(gone: &[Command]) -> (Vec<u8>, Vec<u8>) {
    let (acts, datas): (Vec<Command>, Vec<Command>) = gone.iter().partition(|c| c.kind == ACT);
    let banks = |some: &[Command]| some.iter().map(|c| c.bank).collect();
    (banks(&acts), banks(&datas))
}

/// "\"Ascending\" in the cycle rule means this order", in both queues; the judge accepts what is built, and a run gives the same.
#[test]
fn every_start_with_every_bi() {
    for table in tables() {
        let (edition, banks) = (table[EDITION], table[BANKS] as u8);
        for (start_bank, bi) in (0..banks).flat_map(|s| (1..=banks).map(move |bi| (s, bi))) {
            let (kind, bc) = (bi % 2, 1 + start_bank % 2);
            let (room, _) = built(&table, &[[kind, start_bank, bi, bc]]);
            let expected = banks_from(start_bank, bi, banks);
            let (acts, datas) = banks_gone(&commands_of(&room));
            assert_eq!(acts, expected);
            let each = |&bank| vec![bank; bc.into()];
            assert_eq!(datas, expected.iter().flat_map(each).collect::<Vec<u8>>());
            let table = bytes_of(&table);
            assert_eq!(
                judge(edition, &table, &room),
                Ok((edition, Verdict::Accepted))
            );
            let (_, mut c) = start(edition, &table);
            let list = [transaction(kind, start_bank, bi, bc)];
            let mut same = vec![0; room.len()];
            run(&mut c, edition, &table, &list, u32::MAX, &mut same).expect("it's accepted");
            assert_eq!(same, room);
        }
    }
}

/// All banks from every start, in one list: each of them is the whole turn, and its last bank the one before its first.
#[test]
fn all_banks_from_every_start() {
    for table in tables() {
        let banks = table[BANKS] as u8;
        let list: Vec<[u8; 4]> = (0..banks)
            .map(|start| [start % 2, start, banks, 1])
            .collect();
        let (room, _) = built(&table, &list);
        let gone = commands_of(&room);
        for (number, start) in (0..).zip(0..banks) {
            let of_it = |c: &&Command| c.transaction == number;
            let of_it: Vec<Command> = gone.iter().filter(of_it).copied().collect();
            let (acts, datas) = banks_gone(&of_it);
            assert_eq!(acts, banks_from(start, banks, banks));
            assert_eq!(acts, datas);
            assert_eq!(acts.last(), Some(&((start + banks - 1) % banks)));
        }
    }
}

/// Number 4 in each call that takes a list: a start that is no bank of the table's, and more banks than it has.
#[test]
fn refused() {
    for table in tables() {
        let (edition, banks) = (table[EDITION], table[BANKS] as u8);
        let table = bytes_of(&table);
        let good = transaction(0, banks - 1, banks, 1);
        for (start_bank, bi) in [
            (banks, 1),
            (banks, banks),
            (banks + 1, 1),
            (255, 1),
            (255, banks),
            (0, banks + 1),
            (banks - 1, banks + 1),
            (banks - 1, 255),
        ] {
            let list = [good, transaction(1, start_bank, bi, 1)];
            let (mut room, mut finishes, mut places) = (ROOM, [9; 2], [good; 2]);
            let number = (4, 1, edition);
            let answer = schedule(edition, &table, &list, &mut room, &mut finishes);
            assert_eq!(told(answer), number);
            let answer = read_transactions(edition, &table, &bytes(&list), &mut places);
            assert_eq!(told(answer), number);
            let (_, mut c) = start(edition, &table);
            let fresh = c.clone();
            let answer = run(&mut c, edition, &table, &list, 1, &mut room);
            assert_eq!(told(answer), number);
            assert_eq!((room, finishes, places), (ROOM, [9; 2], [good; 2]));
            assert_eq!(c, fresh);
        }
    }
}

/// "Where no table is given, banks counts as 16": a single record is read and written exactly when it's in range of 16 banks.
#[test]
fn single_records() {
    for start in 0..=255 {
        for bi in 0..=255 {
            let mut room = [9; 4];
            let answer = write_transaction(transaction(0, start, bi, 1), &mut room);
            let read = read_transaction(&[0, start, bi, 1]);
            if start < 16 && (1..=16).contains(&bi) {
                assert_eq!((answer, room), (Ok(0), [0, start, bi, 1]));
                assert_eq!(read, Ok(transaction(0, start, bi, 1)));
            } else {
                assert_eq!((told(answer), room), ((4, 0, 0), [9; 4]));
                assert_eq!(told(read), (4, 0, 0));
            }
        }
    }
}
