//! Request 12: the second engine's "commands, finishing cycles, states and reported cycle counts equal those of the cycle rule for every input,
//! refusals included". Its model halves; the plain one tries each cycle.

use super::laws::lists_and_tables;
use crate::desk::*;
use crate::house::*;
use crate::records::{whole, BANKS, EDITION, GROUPS};
use crate::scheduler::dues;

/// Both runs from a state, lent and of bytes, into so much room: what is told, and the state that is left.
fn ran(
    c: &Controller,
    table: &[u16],
    list: &[Transaction],
    count: u32,
    size: usize,
) -> (Result<Ran, Refusal>, Controller) {
    let (edition, table) = (table[EDITION], bytes_of(table));
    let bytes: Vec<u8> = list.iter().flat_map(|x| x.eight()).collect();
    type By<'a> = &'a dyn Fn(&mut Controller, &mut [u8]) -> Result<Ran, Refusal>;
    let by = |run: By| {
        let (mut left, mut room) = (c.clone(), vec![9; size]);
        let told = run(&mut left, &mut room);
        (told, left, room)
    };
    let plain = by(&|c, room| run(c, edition, &table, list, count, room));
    let straight = by(&|c, room| run_straight(c, edition, &table, list, count, room));
    assert_eq!(straight, plain);
    let straight = by(&|c, room| run_straight_later_bytes(c, edition, &table, &bytes, count, room));
    assert_eq!(straight, plain);
    if count == 1 {
        let stepped = by(&|c, room| step_straight(c, edition, &table, list, room));
        assert_eq!(stepped, plain);
    }
    (plain.0, plain.1)
}

fn with_arrivals(numbers: &mut Numbers, list: &[[u8; 4]], apart: usize) -> Vec<Transaction> {
    let mut arrival = 0;
    let one = |x: &[u8; 4]| {
        arrival += numbers.below(apart) as u32;
        Transaction::of(x).arriving(arrival)
    };
    list.iter().map(one).collect()
}

/// Schedules with their finishing cycles, and runs to the end and in two parts; with room that is short too.
#[test]
fn lists() {
    let mut numbers = Numbers(12);
    for (table, list) in lists_and_tables() {
        for apart in [1, 9, 200] {
            let list = with_arrivals(&mut numbers, &list, apart);
            let (edition, bytes) = (table[EDITION], bytes_of(&table));
            let size = room_for(&list.iter().map(|x| x.eight()).collect::<Vec<_>>());
            for (size, slots) in [(size + 5, list.len() + 1), (size, 0), (size / 2, 9)] {
                let (mut room, mut finishes) = (vec![9; size], vec![9; slots]);
                let plain = schedule(edition, &bytes, &list, &mut room, &mut finishes);
                let (mut same, mut same_finishes) = (vec![9; size], vec![9; slots]);
                let told = schedule_straight(edition, &bytes, &list, &mut same, &mut same_finishes);
                assert_eq!((told, same, same_finishes), (plain, room, finishes));
            }
            let (_, fresh) = start(edition, &bytes);
            let (told, end) = ran(&fresh, &table, &list, u32::MAX, size);
            let cycles = told.expect("nothing is refused").cycles;
            let first = cycles / 3;
            let (told, part) = ran(&fresh, &table, &list, first, size);
            assert_eq!(told.map(|r| r.cycles), Ok(first));
            let (told, rest) = ran(&part, &table, &list, cycles - first, size);
            assert_eq!((told.map(|r| r.cycles), rest), (Ok(cycles - first), end));
        }
    }
}

/// Numbers that number 9 has nothing against, mostly: stamps near, or far behind, or never; banks open or closed whatever has gone.
fn strange(numbers: &mut Numbers, table: &GroupTable, list: &[Transaction]) -> Controller {
    let mut c = Controller::fresh(table);
    c.cycle = numbers.of(&[3, 60, 2000, 99_999_000, 99_999_990]);
    let cycle = c.cycle;
    let stored = |numbers: &mut Numbers| match numbers.below(5) {
        0 => NEVER,
        1 => cycle - 1,
        2 => 0,
        _ => cycle - 1 - (numbers.below(90) as u32).min(cycle - 1),
    };
    for bank in &mut c.banks[..table[BANKS].into()] {
        bank.opened = numbers.of(&[0, 0, 0, 1, 256]);
        (bank.act, bank.rd, bank.wr) = (stored(numbers), stored(numbers), stored(numbers));
    }
    c.last = c.last.map(|_| stored(numbers));
    for group in &mut c.groups[..table[GROUPS].into()] {
        (group.act, group.rd, group.wr) = (stored(numbers), stored(numbers), stored(numbers));
    }
    c.refresh = stored(numbers);
    let [acts, datas] = dues(table, list).map(|queue| queue.len());
    c.acts = numbers.below(acts + 1) as u32;
    c.datas = numbers.below(datas + 1).min(numbers.below(datas + 1)) as u32;
    c.lent = list.len() as u32;
    c
}

/// To the count, to the end of the list and to the last cycle, from states in which something, everything or nothing goes.
#[test]
fn strange_states() {
    let mut numbers = Numbers(120);
    let cases = lists_and_tables();
    let (mut refused, mut none, mut some, mut served) = (0, 0, 0, 0);
    for round in 0..4000 {
        let (table, list) = &cases[(7 * round) % cases.len()];
        let table = whole(table);
        let list = with_arrivals(&mut numbers, list, [1, 30][round % 2]);
        let mut c = strange(&mut numbers, &table, &list);
        if numbers.below(9) == 0 {
            c.cycle += numbers.of(&[1, 9, 10, u32::MAX - 100_000_000]);
        }
        let count = numbers.of(&[0, 1, 1, 17, 400, 2000]);
        match ran(&c, &table, &list, count, 4096).0 {
            Err(_) => refused += 1,
            Ok(told) if told.cycles < count && told.commands > 0 => served += 1,
            Ok(told) if told.commands == 0 => none += 1,
            Ok(_) => some += 1,
        }
    }
    let met = [refused, none, some, served];
    assert!(met.iter().all(|&n| n > 100), "{met:?}");
}

/// A bank that is open holds its ACT and a REF for good, a closed one the data command that is due: all idle cycles are counted, up to the
/// greatest count and the last cycle.
#[test]
fn stuck() {
    let read = [Transaction::of(&[0, 0, 1, 1])];
    let refresh = [Transaction::of(&REFRESH_BYTES)];
    for (list, change) in [
        (read, (|c| c.banks[0].opened = 1) as fn(&mut Controller)),
        (read, |c| c.acts = 1),
        (refresh, |c| c.banks[7].opened = 1 << 31),
    ] {
        let (table, mut c) = (bytes_of(&REFRESHED), Controller::fresh(&REFRESHED));
        change(&mut c);
        c.lent = 1;
        for (from, count, cycles) in [
            (0, u32::MAX, 100_000_000),
            (0, 100_000_000, 100_000_000),
            (0, 99_999_999, 99_999_999),
            (99_999_999, 1, 1),
            (99_999_990, 100, 10),
            (12_345_678, u32::MAX, 87_654_322),
        ] {
            c.cycle = from;
            if cycles < 1000 {
                ran(&c, &REFRESHED, &list, count, 16).0.expect("it runs");
            }
            let (mut left, mut room) = (c.clone(), [9; 16]);
            let told = run_straight(&mut left, 70, &table, &list, count, &mut room);
            let (edition, commands) = (70, 0);
            let right = Ran {
                edition,
                commands,
                cycles,
            };
            assert_eq!((told, room), (Ok(right), [9; 16]));
            let mut same = c.clone();
            same.cycle += cycles;
            assert_eq!(left, same);
        }
    }
}
