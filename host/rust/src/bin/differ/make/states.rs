//! Controllers: reachable ones, with the whole list lent before or a part of it, reachable ones with a number changed, and arbitrary ones.

use model::desk::{self, GroupTable};
use model::house::{self, bytes_of, due, queued, room_for};

use super::lists;
use crate::case::*;
use crate::expected::{controller, state, transactions};
use crate::numbers::Random;

pub const LAST_CYCLE: u32 = 100_000_000;

/// A run of more cycles than this is not worth the time; one of so few always is.
const LONG: u32 = 300_000;
const SHORT: u32 = 20_000;

/// Where the stored cycles stand.
pub fn stamps() -> impl Iterator<Item = usize> {
    let of_banks = (BANKS..LAST).filter(|i| (i - BANKS) % 4 != 0);
    of_banks.chain(LAST..=REFRESH)
}

/// After so many cycles from a fresh start, in which the list was lent.
pub fn reached(table: &GroupTable, list: &[[u8; 8]], cycles: u32) -> State {
    let (edition, table) = (table[0], bytes_of(table));
    let mut room = vec![0; room_for(list)];
    let mut c = desk::start(edition, &table).1;
    // Refused for a list that is refused: then it stays fresh.
    let list = transactions(list);
    let _ = desk::run(&mut c, edition, &table, &list, cycles, &mut room);
    state(&c)
}

/// After a part of the list was lent for some cycles: mostly the rest is still in time, and else late by one cycle or more.
fn after_a_piece(r: &mut Random, table: &GroupTable, list: &[[u8; 8]], cycles: u32) -> State {
    let at = r.below(list.len() + 1);
    let until = list.get(at).map_or(cycles, arrival);
    let cycles = match r.below(6) {
        0 => until,
        1 => until.saturating_add(1),
        2 => cycles,
        _ => cycles.min(until),
    };
    // No further than is worth the time.
    reached(table, &list[..at], cycles.min(LONG))
}

pub fn moved_on(s: &mut State, by: u32) {
    s[CYCLE] = s[CYCLE].wrapping_add(by);
    for i in stamps() {
        if s[i] != u32::MAX {
            s[i] = s[i].wrapping_add(by);
        }
    }
}

/// So late that the last cycle is near.
fn make_late(r: &mut Random, s: &mut State) {
    let before_last = r.of_these(&[1, 2, 20, 300]);
    moved_on(
        s,
        LAST_CYCLE
            .saturating_sub(s[CYCLE])
            .saturating_sub(before_last),
    );
}

pub fn change_one(r: &mut Random, table: &GroupTable, s: &mut State) {
    let i = match r.below(6) {
        0 => r.below(4),
        1 => LAST + r.below(NUMBERS - LAST),
        2 => GROUPS + r.below(3 * groups(table)),
        3 => LENT,
        _ => BANKS + r.below(64),
    };
    let near = [s[CYCLE].wrapping_sub(1), s[CYCLE], s[CYCLE].wrapping_add(1)];
    s[i] = match r.below(7) {
        0 => u32::MAX,
        1 => r.edge(),
        2 => r.of_these(&near),
        3 => s[i].wrapping_add(1),
        4 => s[i].wrapping_sub(1),
        // In its edition and in a bank's `opened` all 32 bits count.
        5 => s[i] ^ 1 << r.below(32),
        _ => r.range(0, near[1].min(1_000_000)),
    };
}

/// Any numbers that number 9 has nothing against, but for the counts perhaps.
pub fn plausible(r: &mut Random, table: &GroupTable, case: &Case) -> State {
    let mut s = fresh(table[0].into());
    let (cycle, back) = r.of_these(&[(400, 80), (400, 80), (9_000, 3_000)]);
    s[CYCLE] = 1 + r.below(cycle) as u32;
    for i in stamps() {
        if !r.one_in(3) {
            s[i] = s[CYCLE] - 1 - r.below(back.min(s[CYCLE] as usize)) as u32;
        }
    }
    for opened in s[BANKS..LAST].iter_mut().step_by(4) {
        *opened = r.of_these(&[0, 0, 1, 1, 2, 255, 256, 1 << 16, 1 << 31]);
    }
    let list = case.list();
    s[LENT] = match r.below(6) {
        0 => r.below(list.len() + 1) as u32,
        1 => list.len() as u32 + r.range(0, 1),
        _ => list.len() as u32,
    };
    let [acts, datas] = both(&list);
    let gone = r.below(acts + 1);
    s[ACTS] = gone as u32;
    s[DATAS] = r.below(behind(&list, gone) + 1) as u32;
    if r.one_in(4) {
        s[DATAS] = r.below(datas + 1) as u32;
    }
    s
}

fn groups(table: &GroupTable) -> usize {
    table[house::GROUPS].into()
}

/// How many each queue holds at first.
pub fn both(list: &[[u8; 8]]) -> [usize; 2] {
    let acts = list.iter().map(|x| queued(x)[0]).sum();
    [acts, due(list) - acts]
}

/// The data commands of the banks whose ACTs are among the first so many of the ACT queue. A REF has none.
pub fn behind(list: &[[u8; 8]], mut acts: usize) -> usize {
    let mut datas = 0;
    for x in list {
        let [here, of_them] = queued(x);
        let gone = here.min(acts);
        acts -= gone;
        datas += gone * of_them.checked_div(here).unwrap_or(0);
    }
    datas
}

pub fn arbitrary(r: &mut Random) -> State {
    let mut s = [0; NUMBERS];
    s.iter_mut().for_each(|n| *n = r.u32());
    s
}

fn some(r: &mut Random, table: &GroupTable, case: &Case) -> State {
    let cycles = match r.below(3) {
        0 => r.below(20) as u32,
        1 => r.below(150) as u32,
        _ => r.below(1500 + 20 * lists::widest(table) as usize) as u32,
    };
    let mut s = match r.below(12) {
        0 => fresh(table[0].into()),
        1..=5 => reached(table, &case.list(), cycles),
        6..=8 => after_a_piece(r, table, &case.list(), cycles),
        9 | 10 => plausible(r, table, case),
        _ => arbitrary(r),
    };
    if r.one_in(3) {
        change_one(r, table, &mut s);
    }
    scribble(r, table, &mut s);
    if r.one_in(8) {
        make_late(r, &mut s);
    }
    s
}

/// What is kept past the table's banks is nobody's, nor what is kept past its groups.
pub fn scribble(r: &mut Random, table: &GroupTable, s: &mut State) {
    for (past, end) in [
        (BANKS + 4 * usize::from(table[1]), LAST),
        (GROUPS + 3 * groups(table), REFRESH),
    ] {
        if r.one_in(2) {
            for n in &mut s[past..end] {
                *n = r.u32() >> r.below(32);
            }
        }
    }
}

/// The commands left, queue by queue.
pub fn left(case: &Case) -> usize {
    let [acts, datas] = both(&case.list());
    acts.saturating_sub(case.state[ACTS] as usize)
        + datas.saturating_sub(case.state[DATAS] as usize)
}

/// The state, the count and the room of a run.
pub fn run(r: &mut Random, table: &GroupTable, case: &mut Case) {
    case.state = some(r, table, case);
    // The controller agrees with what is expected, and only the table doesn't.
    if case.expected != case.edition() && r.one_in(2) {
        case.state[EDITION] = case.expected.into();
    }
    case.values[0] = match r.below(10) {
        0 => 0,
        1 => 1,
        2 | 3 => r.range(2, 12),
        4 => r.range(13, 400),
        5 => r.edge(),
        6 => left(case) as u32 + r.range(0, 2),
        _ => u32::MAX,
    };
    if case.call == Call::Step {
        case.values[0] = 0;
    }
    let due = left(case).min(case.count() as usize);
    case.room = super::room(r, 8 * due);
    if too_long(case) {
        if r.one_in(2) {
            make_late(r, &mut case.state);
        }
        if too_long(case) {
            case.values[0] = r.range(0, SHORT);
        }
    }
}

/// Whether the run, were the table's edition expected, goes on for more cycles than is worth the time: it's long, or it's stuck.
pub fn too_long(case: &Case) -> bool {
    // The second engine passes over them.
    if case.straight || !case.call.runs() || case.count() <= SHORT {
        return false;
    }
    if case.room < 8 * left(case).min(case.count() as usize) {
        return false;
    }
    let last_arrival = case.list().iter().map(arrival).fold(0, u32::max);
    let list = transactions(&case.list());
    let mut room = vec![0; case.room];
    let mut c = controller(&case.state);
    // No rule asks for more cycles than all numbers of the table together: what does not go within them, once all have arrived, never goes.
    let wait: u32 = case.numbers()[2..].iter().map(|&n| u32::from(n)).sum();
    let wait = wait.max(1_000);
    let mut cycles = 0;
    while cycles <= LONG {
        match desk::run(&mut c, case.edition(), &case.table, &list, wait, &mut room) {
            Ok(told) if told.cycles < wait => return false,
            Ok(told) if told.commands == 0 && c.cycle >= last_arrival.saturating_add(wait) => {
                return true
            }
            Ok(_) => cycles += wait,
            Err(_) => return false,
        }
    }
    true
}
