//! Runs from states that no run has left.

use super::lists::{any_list, ran};
use super::put::Cases;
use crate::desk::{Bank, Controller, NEVER};
use crate::house::*;
use crate::records::BANKS;

/// Two ACTs and four reads, one ACT and one write, one ACT and one read.
const LIST: [[u8; 4]; 3] = [[0, 0, 2, 2], [1, 1, 1, 1], [0, 0, 1, 1]];
const ACTS: u32 = 4;
const DATAS: u32 = 6;

/// The state in which this list is left by the run of 15 cycles: two ACTs and two data commands have gone.
fn midway() -> Controller {
    ran(&Controller::fresh(&TABLE_A), &TABLE_A, &LIST, 15).2
}

pub fn hand_made(cases: &mut Cases) {
    let list = LIST.concat();
    let room = room_for(&LIST);
    let mut put = |count: u32, change: &dyn Fn(&mut Controller)| {
        let mut state = midway();
        change(&mut state);
        cases.run(&TABLE_A, count, room, &state, &list);
    };
    put(0, &|_| ());
    put(u32::MAX, &|_| ());

    // What may stand in a state and breaks no rule, or keeps a queue from moving.
    put(40, &|s| s.banks[1].act = NEVER);
    put(40, &|s| *s = never_anywhere(s, 0));
    put(40, &|s| *s = never_anywhere(s, 1));
    put(40, &|s| s.banks[1].opened = 0);
    put(60, &|s| s.banks[0].opened = 7);
    put(40, &|s| s.banks[1].opened = 7);
    put(60, &|s| s.last = [0, 1, 2, 14]);
    put(60, &|s| s.last = [14, NEVER, NEVER, NEVER]);
    put(60, &|s| s.last = [NEVER, 14, 14, 14]);
    put(60, &|s| s.groups[0].act = 14);
    put(60, &|s| s.groups[0].act = NEVER);
    put(60, &|s| s.groups[0].wr = 14);
    put(60, &|s| (s.groups[0].rd, s.groups[0].wr) = (NEVER, NEVER));
    put(60, &|s| s.banks[0].wr = 13);
    put(60, &|s| {
        (s.banks[0].act, s.banks[0].rd, s.banks[0].wr) = (NEVER, 12, NEVER)
    });
    put(9, &|s| (s.acts, s.datas) = (ACTS, DATAS));
    put(9, &|s| (s.acts, s.datas) = (ACTS, DATAS - 1));
    put(9, &|s| (s.acts, s.datas) = (2, 0));

    // The last cycles there are.
    put(5, &|s| s.cycle = 99_999_999);
    put(u32::MAX, &|s| s.cycle = 99_999_960);
    put(u32::MAX, &|s| {
        *s = Controller {
            cycle: 99_999_000,
            ..never_anywhere(s, 0)
        }
    });
    put(1, &|s| s.cycle = 100_000_000);
    put(0, &|s| s.cycle = u32::MAX);

    // Number 9.
    put(5, &|s| s.edition = 8);
    put(5, &|s| s.edition = 0);
    put(5, &|s| s.acts = ACTS + 1);
    put(5, &|s| (s.acts, s.datas) = (ACTS, DATAS + 1));
    put(5, &|s| (s.acts, s.datas) = (u32::MAX, u32::MAX));
    put(5, &|s| (s.acts, s.datas) = (0, 1));
    put(5, &|s| (s.acts, s.datas) = (1, 3));
    put(5, &|s| (s.acts, s.datas) = (1, 2));
    put(0, &|s| (s.acts, s.datas) = (3, DATAS));
    let own = midway().cycle;
    for stored in [own - 1, own, NEVER - 1] {
        put(5, &|s| s.banks[0].act = stored);
        put(5, &|s| s.banks[7].rd = stored);
    }
    put(5, &|s| s.groups[0].rd = own - 1);
    put(5, &|s| s.groups[0].rd = own);
    put(5, &|s| s.groups[0].act = own);
    put(5, &|s| s.banks[3].wr = own);
    put(5, &|s| s.last[0] = own);
    put(5, &|s| s.last[3] = own);
    put(5, &|s| s.groups[0].wr = own);
    past_the_banks(cases);
    run_rooms(cases);
}

/// The state with nothing stored and every bank as given.
fn never_anywhere(s: &Controller, opened: u32) -> Controller {
    let mut empty = Controller::fresh(&TABLE_A);
    (empty.cycle, empty.acts, empty.datas, empty.lent) = (s.cycle, s.acts, s.datas, s.lent);
    empty.banks.iter_mut().for_each(|bank| bank.opened = opened);
    empty
}

/// What lies past the table's banks is neither read nor changed, not even by a transaction that runs over the last of them.
fn past_the_banks(cases: &mut Cases) {
    for (table, of_table, list) in [
        (TABLE_A, 8, [[1, 7, 2, 2], [0, 0, 1, 1]]),
        (ODD[0], 1, [[1, 0, 1, 2], [0, 0, 1, 1]]),
    ] {
        let mut state = Controller::fresh(&table);
        for (n, bank) in (0..).zip(&mut state.banks[of_table..]) {
            *bank = Bank {
                opened: 200 + n,
                act: 1000,
                rd: NEVER - 1,
                wr: n,
            };
        }
        cases.run(&table, 400, room_for(&list), &state, &list.concat());
        state.banks[of_table - 1].wr = 1000;
        cases.run(&table, 400, room_for(&list), &state, &list.concat());
    }
}

/// Room for the lesser of the count and what both queues hold; lists that are refused; and the order of 3, 4, 5 and 9.
fn run_rooms(cases: &mut Cases) {
    let list = LIST.concat();
    let mut other = midway();
    other.edition = 8;
    let mut too_many = midway();
    too_many.acts = ACTS + 3;
    for state in [&midway(), &other, &too_many] {
        let left = 8 * (ACTS.saturating_sub(state.acts) + DATAS - state.datas) as usize;
        cases.run(&TABLE_A, u32::MAX, left, state, &list);
        cases.run(&TABLE_A, u32::MAX, left - 1, state, &list);
        if state.acts > ACTS {
            continue;
        }
        cases.run(&TABLE_A, 3, 24, state, &list);
        cases.run(&TABLE_A, 3, 23, state, &list);
        cases.run(&TABLE_A, 0, 0, state, &list);
    }
    cases.run(&TABLE_A, 9, 0, &other, &list[..11]);
    cases.run(&TABLE_A, 9, 0, &other, &[&list[..], &[0, 8, 1, 1]].concat());
    cases.run(&TABLE_A, 9, 0, &Controller::fresh(&TABLE_A), &[]);
    cases.run(&TABLE_A, 9, 0, &midway(), &[]);
}

/// States as runs leave them, but for the stored cycles, which may be any that are not refused.
pub fn any_states(cases: &mut Cases, numbers: &mut Numbers) {
    for round in 0..16 {
        let table: &[u16] = &ODD[(round + 1) % ODD.len()];
        let list = any_list(table, 2 + round % 3, numbers);
        let mut state = Controller::fresh(table);
        state.cycle = numbers.of(&[70, 300, 99_999_700]);
        state.lent = list.len() as u32;
        let (_, whole, _) = ran(&state, table, &list, u32::MAX);
        let next = whole[numbers.below(whole.len())].cycle;
        let mut state = Controller {
            cycle: state.cycle,
            ..ran(&state, table, &list, next - state.cycle).2
        };
        let mut stored = || match numbers.byte() {
            n if n < 90 => NEVER,
            n => state.cycle - 1 - u32::from(n) % 60,
        };
        for bank in &mut state.banks[..usize::from(table[BANKS])] {
            bank.act = stored();
            (bank.rd, bank.wr) = (stored(), stored());
        }
        state.last = [(); 4].map(|()| stored());
        let one = &mut state.groups[0];
        (one.act, one.rd, one.wr) = (stored(), stored(), stored());
        state.refresh = stored();
        for bank in &mut state.banks {
            bank.opened *= numbers.of(&[1, 7]);
        }
        let count = if state.cycle > 300 { u32::MAX } else { 200 };
        cases.run(table, count, room_for(&list), &state, &list.concat());
    }
}
