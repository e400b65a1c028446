//! States for the two engines alone, which no model walks through, so they may idle as long as they like. They are what a second engine may get
//! wrong: it works out the cycle at which a head may go, so the numbers that hold the heads up are set to let both go at one cycle, or one before or
//! after it; heads that can never go; and counts and last cycles within what is passed over.

use model::desk::GroupTable;
use model::house::room_for;

use super::lists;
use super::states::{self, LAST_CYCLE};
use super::tables;
use super::terms::{act_head, data_head, terms, Head};
use crate::case::*;
use crate::numbers::Random;

mod set;

pub use set::all;

/// How often each call is drawn.
const SHARES: [(Call, usize); 7] = [
    (Call::Schedule, 2),
    (Call::ScheduleBytes, 1),
    (Call::ScheduleLaterBytes, 2),
    (Call::Run, 9),
    (Call::Step, 3),
    (Call::RunBytes, 3),
    (Call::RunLaterBytes, 5),
];

/// Others than those that are drawn for the model too.
const OF_ENGINES: u64 = 1 << 40;

fn call(r: &mut Random) -> Call {
    let mut share = r.below(SHARES.iter().map(|(_, share)| share).sum());
    for (call, of_call) in SHARES {
        if share < of_call {
            return call;
        }
        share -= of_call;
    }
    unreachable!("the share is below their sum")
}

/// Case `index` of a seed.
pub fn case(seed: u64, index: u64) -> Case {
    let r = &mut Random::of(seed, OF_ENGINES + index);
    let mut case = Case::new(call(r)).by(true);
    case.filling = r.u32() as u16;
    case.lies = r.below(3) as u8;
    let table = match r.below(24) {
        0 => tables::some(r, &mut case),
        _ => tables::accepted(r, &mut case),
    };
    match r.below(24) {
        0 => lists::some(r, &table, &mut case),
        _ => lists::good(r, &table, &mut case),
    }
    if case.call.builds() {
        case.room = room(r, room_for(&case.list()));
        case.slots = case.list().len().min(380);
        return case;
    }
    let aim = state(r, &table, &mut case);
    if case.call != Call::Step {
        case.values[0] = count(r, &case, aim);
    }
    let due = states::left(&case).min(case.count() as usize);
    case.room = room(r, 8 * due);
    case
}

/// Gives the case a state, and answers the cycle at which its heads are free, if it is made for one.
fn state(r: &mut Random, table: &GroupTable, case: &mut Case) -> u32 {
    let list = case.list();
    let mut aim = None;
    case.state = match r.below(12) {
        0 => states::plausible(r, table, case),
        1 => states::reached(table, &list, r.range(0, 400)),
        2 if r.one_in(4) => states::arbitrary(r),
        _ => {
            let (state, cycle) = pointed(r, table, &list);
            aim = Some(cycle);
            state
        }
    };
    let s = &mut case.state;
    if r.one_in(6) {
        states::change_one(r, table, s);
    }
    states::scribble(r, table, s);
    let aim = aim.unwrap_or(s[CYCLE]);
    if !r.one_in(4) {
        return aim;
    }
    // The same about the last cycle; now and then with numbers of long ago.
    let by = (LAST_CYCLE - 3 + r.range(0, 5)).saturating_sub(aim);
    states::moved_on(s, by);
    if r.one_in(4) {
        for place in states::stamps() {
            if r.one_in(2) {
                s[place] = r.of_these(&[0, 1, 1_000, u32::MAX]);
            }
        }
    }
    aim.wrapping_add(by)
}

/// Mostly enough.
fn room(r: &mut Random, due: usize) -> usize {
    match r.below(8) {
        0 => super::room(r, due),
        _ => due.min(8 * 69_632) + r.below(2),
    }
}

/// Just to the cycle at which the heads are free, a cycle fewer and one more; so with the last cycle, and with the last of 32 bits.
fn count(r: &mut Random, case: &Case, aim: u32) -> u32 {
    let cycle = case.state[CYCLE];
    let about = |r: &mut Random, to: u32| {
        to.wrapping_sub(cycle)
            .wrapping_add(r.range(0, 2))
            .wrapping_sub(1)
    };
    match r.below(12) {
        0 => 0,
        1 => 1,
        2 | 3 => about(r, aim),
        4 => r.range(2, 12),
        5 => r.range(13, 400),
        6 => about(r, LAST_CYCLE),
        7 => about(r, u32::MAX),
        8 => r.edge(),
        9 => states::left(case) as u32 + r.range(0, 2),
        _ => u32::MAX,
    }
}

/// A state of which each number lets the heads go at one cycle, or one before or after it, or says "never", or is of long ago; and that cycle.
fn pointed(r: &mut Random, t: &GroupTable, list: &[[u8; 8]]) -> (State, u32) {
    let s = &mut fresh(t[0].into());
    s[LENT] = list.len() as u32;
    let [acts, _] = states::both(list);
    let gone = r.below(acts + 1);
    // Mostly the data command next is one whose ACT has gone, of a bank that was opened last.
    let behind = states::behind(list, gone);
    let back = match r.below(4) {
        0 => r.below(behind + 1),
        _ => r.below(behind.min(4) + 1),
    };
    (s[ACTS], s[DATAS]) = (gone as u32, (behind - back) as u32);
    let heads = [act_head(t, list, gone), data_head(t, list, behind - back)];
    let arrival = heads.iter().flatten().map(|(_, arrival)| *arrival).max();
    let aim = match (r.below(3), arrival.unwrap_or(0)) {
        (0, arrival) if arrival > 0 => arrival - 1 + r.range(0, 2),
        (1, _) => r.range(1, 60),
        _ => r.range(100, 3_000),
    };
    s[CYCLE] = aim.saturating_sub(match r.below(4) {
        0 => 0,
        1 => r.range(0, 3),
        2 => r.range(0, 60),
        _ => r.range(0, 1_500),
    });
    let before = s[CYCLE];
    let off: &[i64] = r.of_these(&[&[0][..], &[0, 0, -1], &[0, 0, 0, -1, 1]]);
    for (head, _) in heads.iter().flatten() {
        for (place, cycles) in terms(t, *head) {
            let to = i64::from(aim) + r.of_these(off) - i64::from(cycles);
            s[place] = match r.below(4) {
                0 => u32::MAX,
                1 if before > 0 => r.range(0, before - 1),
                _ if to < 0 || before == 0 => u32::MAX,
                _ => (to as u32).min(before - 1),
            };
        }
    }
    open(r, t, &heads.map(|head| head.map(|(head, _)| head)), s);
    (*s, aim)
}

/// Open and closed as the heads want it, mostly. An open bank bars its ACT and a REF for good, unless a data command closes it; a closed one bars its
/// data command.
fn open(r: &mut Random, t: &GroupTable, heads: &[Option<Head>; 2], s: &mut State) {
    let banks = usize::from(t[1]);
    let all_closed = !r.one_in(3);
    for bank in 0..banks {
        s[BANKS + 4 * bank] = match all_closed {
            true => 0,
            false => r.of_these(&[0, 0, 0, 1, 2, 256, 1 << 31]),
        };
    }
    if let (Some(Head::Act { bank }), false) = (heads[0], r.one_in(8)) {
        s[BANKS + 4 * bank] = 0;
    }
    if let (Some(Head::Data { bank, .. }), false) = (heads[1], r.one_in(8)) {
        s[BANKS + 4 * bank] = r.of_these(&[1, 1, 1, 1 << 16]);
    }
}
