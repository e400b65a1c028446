//! Cases: random and hostile, for every call.

mod arrivals;
mod captures;
mod engines;
mod groups;
mod lists;
mod patterns;
mod refreshes;
mod refusals;
mod schedules;
mod serving;
mod states;
mod tables;
mod terms;
mod walk;

use model::house::{bytes_of, room_for, whole, GREATEST, TABLE_A};

use crate::case::*;
use crate::numbers::Random;
pub use engines::{all as for_engines, case as case_for_engines};
pub use states::too_long;

/// How often each call is made, in the order of the header.
const SHARES: [usize; COUNT] = [
    4, 3, 3, 2, 2, 2, 2, 1, 2, 1, 2, 4, 4, 12, 6, 6, 14, 10, 12, 8, 4, 4, 3, 3, 1, 14, 6, 6, 8,
];

/// Case `index` of a seed.
pub fn case(seed: u64, index: u64) -> Case {
    let r = &mut Random::of(seed, index);
    let mut share = r.below(SHARES.iter().sum());
    let mut at = 0;
    while share >= SHARES[at] {
        share -= SHARES[at];
        at += 1;
    }
    let mut case = Case::new(CALLS[at].0);
    case.filling = r.u32() as u16;
    case.lies = r.below(3) as u8;
    match case.call {
        Call::ReadTable => case.table = tables::hostile(r),
        Call::WriteTable => {
            case.table = bytes_of(&tables::numbers(r)[..16]);
            case.room = size(r, 32);
        }
        Call::WriteGroupTable => {
            case.table = bytes_of(&tables::numbers(r));
            case.room = size(r, 40);
        }
        Call::ReadTransaction | Call::ReadLater => {
            // For 16 banks and with refresh.
            case.lend(&[lists::one(r, &whole(&GREATEST))]);
            if r.one_in(4) {
                case.bytes.resize(r.below(12), 1);
            }
        }
        Call::WriteTransaction | Call::WriteLater => {
            let x = lists::one(r, &whole(&GREATEST));
            let [kind, start, bi, bc] = [x[0], x[1], x[2], x[3]].map(u32::from);
            let arrival = match case.call {
                Call::WriteLater => arrival(&x),
                _ => 0,
            };
            case.values = [kind, start, bi, bc, arrival];
            case.room = size(r, case.call.of_record());
        }
        Call::ReadCommand => case.bytes = record(r, 8),
        Call::WriteCommand => {
            case.values = [r.edge(), r.u8().into(), r.u8().into(), r.u32() & 0xffff, 0];
            case.room = room(r, 8);
        }
        Call::ReadCaptureRecord => case.bytes = record(r, 4),
        Call::WriteCaptureRecord => {
            case.values = [r.u32() & 0xffff, r.u8().into(), r.u8().into(), 0, 0];
            case.room = room(r, 4);
        }
        Call::ReadTransactions | Call::ReadLaterTransactions => {
            let table = tables::some(r, &mut case);
            lists::some(r, &table, &mut case);
            case.slots = slots(r, case.list().len());
        }
        Call::Schedule | Call::ScheduleBytes | Call::ScheduleLaterBytes => {
            let table = tables::some(r, &mut case);
            lists::some(r, &table, &mut case);
            case.room = room(r, room_for(&case.list()));
            case.slots = slots(r, case.list().len());
        }
        Call::Judge => {
            let table = tables::for_judges(r, &mut case);
            case.bytes = schedules::some(r, &table);
        }
        Call::JudgePattern => {
            let table = tables::for_judges(r, &mut case);
            schedules::pattern(r, &table, &mut case);
        }
        Call::JudgeCapture => {
            let table = tables::for_judges(r, &mut case);
            case.bytes = captures::some(r, &table);
            case.room = room(r, 8 * case.call.room_in_commands(&case.bytes));
        }
        Call::Serves | Call::ServesBytes | Call::ServesLaterBytes => {
            let table = tables::some(r, &mut case);
            lists::some(r, &table, &mut case);
            serving::schedule(r, &table, &mut case);
        }
        Call::ShortestPattern => patterns::some(r, &mut case),
        Call::Bound => {
            tables::some(r, &mut case);
            let number = |r: &mut Random| match r.below(8) {
                0 => r.u8().into(),
                1 => r.of_these(&[0, 16, 17, 255]),
                _ => r.range(1, 16),
            };
            case.values = [number(r), number(r), 0, 0, 0];
        }
        Call::Start => {
            tables::some(r, &mut case);
        }
        Call::Run | Call::Step | Call::RunBytes | Call::RunLaterBytes => {
            let table = tables::some(r, &mut case);
            lists::some(r, &table, &mut case);
            states::run(r, &table, &mut case);
        }
    }
    case
}

/// Any bytes of about that size.
fn record(r: &mut Random, right: usize) -> Vec<u8> {
    let size = if r.one_in(4) { r.below(12) } else { right };
    (0..size).map(|_| r.u8()).collect()
}

/// The size of a buffer that must have just that size.
fn size(r: &mut Random, right: usize) -> usize {
    match r.below(6) {
        0 => right - 1,
        1 => right + 1,
        2 => r.below(3 * right),
        _ => right,
    }
}

/// Room for so many bytes: just enough, one short, a record short, or more.
fn room(r: &mut Random, due: usize) -> usize {
    let due = due.min(8 * 69_632);
    match r.below(10) {
        0 => due.saturating_sub(1),
        1 => due.saturating_sub(8),
        2 => r.below(due + 1),
        3 => due + 1,
        4 => due + 7 + r.below(30),
        5 if r.one_in(4) => 0,
        _ => due,
    }
}

fn slots(r: &mut Random, due: usize) -> usize {
    let due = due.min(380);
    match r.below(10) {
        0 => due.saturating_sub(1),
        1 => due + 1 + r.below(5),
        2 if r.one_in(4) => 0,
        _ => due,
    }
}

/// Cases that random ones seldom meet or may miss: the greatest sizes, a run that idles from the first cycle to the last, lists from every
/// start, many refreshes, captures up to the last cycle, every count of groups, the last arrivals and pieces cut at every place, long
/// lists that are served, the shortest patterns of the house tables, and every refusal of every call.
pub fn last() -> Vec<Case> {
    let table = |t: &model::desk::Table| bytes_of(t);
    let mut cases = Vec::new();
    let mut sixteen = TABLE_A;
    sixteen[1] = 16;
    for (call, n, more) in [
        (Call::Schedule, 256, 0),
        (Call::ScheduleBytes, 256, 0),
        (Call::ScheduleLaterBytes, 256, 0),
        (Call::Schedule, 256, 1),
        (Call::Schedule, 257, 0),
        (Call::ScheduleBytes, 257, 0),
        (Call::ScheduleLaterBytes, 257, 0),
        (Call::Run, 256, 0),
        (Call::RunBytes, 257, 0),
        (Call::RunLaterBytes, 257, 0),
    ] {
        let mut case = Case::new(call);
        case.table = table(&sixteen);
        let list: Vec<[u8; 4]> = (0..n)
            .map(|i| [(i % 3 == 1) as u8, (i % 16) as u8, 16, 16])
            .collect();
        case.lend(&at_once(&list));
        case.values[0] = u32::MAX;
        case.room = 8 * 69_632 - more;
        case.slots = n;
        cases.push(case);
    }
    for records in [69_632, 69_633] {
        for (call, length) in [
            (Call::Judge, 0),
            (Call::JudgePattern, 0),
            (Call::JudgePattern, 9),
        ] {
            let mut case = Case::new(call);
            case.table = table(&TABLE_A);
            case.bytes = vec![0; 8 * records];
            case.values[0] = length;
            cases.push(case);
        }
    }
    // Each again with another edition expected: that is told before any size.
    for at in 0..cases.len() {
        let mut case = cases[at].clone();
        case.expected = case.expected.swap_bytes();
        cases.push(case);
    }
    let mut idles = Case::new(Call::Run);
    idles.table = table(&TABLE_A);
    idles.lend(&at_once(&[[0, 0, 1, 1]]));
    idles.values[0] = u32::MAX;
    idles.room = 16;
    idles.state[BANKS] = 1;
    cases.push(idles);
    cases.extend(over_the_last_bank());
    cases.extend(refreshes::all());
    cases.extend(captures::last());
    cases.extend(groups::all());
    cases.extend(arrivals::all());
    cases.extend(serving::last());
    cases.extend(patterns::all());
    cases.extend(refusals::all());
    cases
}

/// For each number of banks every start with every BI; then the same with the last start, and with the greatest BI, one beyond its limit.
fn over_the_last_bank() -> Vec<Case> {
    let mut cases = Vec::new();
    for banks in 1..=16 {
        let mut table = TABLE_A;
        table[1] = banks.into();
        for (start, bi) in [(0, 0), (1, 0), (0, 1)] {
            let mut list = lists::every_start(banks);
            if let Some(last) = list.last_mut() {
                last[1] += start;
                last[2] += bi;
            }
            for call in [Call::ReadTransactions, Call::Schedule, Call::RunBytes] {
                let mut case = Case::new(call);
                case.table = bytes_of(&table);
                case.lend(&at_once(&list));
                case.values[0] = u32::MAX;
                case.room = room_for(&list);
                case.slots = list.len();
                cases.push(case);
            }
        }
    }
    cases
}
