//! Lists and schedules of 100,000,000 entries in memory that may not be touched. A refusal that no entry decides comes at once, and reads none.

use std::time::{Duration, Instant};

use model::house::{bytes_of, TABLE_A};
use skvorzhan::raw::*;

use super::flat::{captured, controller, numbers, served, verdict};
use super::{engine, Archive};
use crate::case::{fresh, Call, Case};
use crate::lent::untouchable;
use crate::trap;

pub const ENTRIES: usize = 100_000_000;

/// A loop over the list, even one that reads nothing, would take longer.
const AT_ONCE: Duration = Duration::from_millis(10);

/// Each call that is lent a list, with the number that its length is refused by. Those that are lent a schedule beside it come again, with that
/// for the long one and no list; those that build and run come again by the second engine.
const LENT_A_LIST: [(Call, usize); 18] = [
    (Call::ReadTransactions, 3),
    (Call::ReadLaterTransactions, 3),
    (Call::Schedule, 3),
    (Call::ScheduleBytes, 3),
    (Call::ScheduleLaterBytes, 3),
    (Call::Judge, 7),
    (Call::JudgePattern, 7),
    (Call::JudgeCapture, 7),
    (Call::Serves, 3),
    (Call::ServesBytes, 3),
    (Call::ServesLaterBytes, 3),
    (Call::Serves, 7),
    (Call::ServesBytes, 7),
    (Call::ServesLaterBytes, 7),
    (Call::Run, 3),
    (Call::Step, 3),
    (Call::RunBytes, 3),
    (Call::RunLaterBytes, 3),
];

impl Archive {
    /// How many calls were made, or what was wrong with one.
    pub fn long_lists(&mut self) -> Result<usize, String> {
        trap::at(trap::LONG);
        let list = untouchable(8 * ENTRIES);
        let right = bytes_of(&TABLE_A);
        let mut ccd_1 = right.clone();
        ccd_1[6] = 1;
        let mut calls = 0;
        let all = LENT_A_LIST.iter().flat_map(|&(call, by_length)| {
            let straight = call.in_straight().map(|_| true);
            let engines = [false].into_iter().chain(straight);
            engines.map(move |straight| (call, straight, by_length))
        });
        for (call, straight, by_length) in all {
            for (table, expected, number) in [
                (&right[..31], 7, 1),
                (&ccd_1, 7, 2),
                (&right, 8, 10),
                (&right, 7, by_length),
            ] {
                let mut case = Case::new(call).by(straight);
                trap::in_call(&case, number);
                case.table = table.to_vec();
                case.expected = expected;
                let mut least = Duration::MAX;
                for _ in 0..3 {
                    let (answer, took) = self.refused_unread(&case, list, by_length);
                    if answer[0] as usize != number {
                        let name = case.name();
                        return Err(format!(
                            "{name} with a list of {ENTRIES} entries: {answer:?}"
                        ));
                    }
                    least = least.min(took);
                    calls += 1;
                }
                if least > AT_ONCE {
                    let name = case.name();
                    return Err(format!(
                        "{name}, refused by {number}, took {least:?} for a list of {ENTRIES} entries"
                    ));
                }
            }
        }
        Ok(calls)
    }

    /// With everything else that is lent in read-only pages.
    fn refused_unread(
        &mut self,
        case: &Case,
        list: *const u8,
        by_length: usize,
    ) -> (Vec<u32>, Duration) {
        let noise = &self.noise;
        let (e, tn) = (case.expected, case.table.len());
        let t = self.table.hold(&case.table, 0, noise, 0);
        let (room, slots) = (
            self.room.fill(64, 0, noise, 0),
            self.slots.fill(64, 0, noise, 0),
        );
        let state: Vec<u8> = fresh(7).iter().flat_map(|n| n.to_le_bytes()).collect();
        let c = self.state.hold(&state, 0, noise, 0) as *mut Controller;
        for region in [
            &mut self.table,
            &mut self.room,
            &mut self.slots,
            &mut self.state,
        ] {
            region.only_reads();
        }
        let (xs, finishes) = (list as *const Transaction, slots as *mut u32);
        let places = slots as *mut Transaction;
        let (n, by_value) = (ENTRIES, controller(&fresh(7)));
        let bytes = case.call.record() * ENTRIES;
        // For a call that serves: the long list with a schedule of 64 bytes, or no list with the long schedule.
        let (lent, k, s, sn) = match by_length {
            3 => (list, n, room as *const u8, 64),
            _ => (t as *const u8, 0, list, 8 * n),
        };
        let (served_list, served_bytes) = (lent as *const Transaction, case.call.record() * k);
        let engine = engine(case);
        let began = Instant::now();
        let answer = unsafe {
            match case.call {
                Call::ReadTransactions => {
                    numbers(skv_read_transactions(e, t, tn, list, bytes, places, 8))
                }
                Call::ReadLaterTransactions => numbers(skv_read_later_transactions(
                    e, t, tn, list, bytes, places, 8,
                )),
                Call::Schedule => {
                    numbers((engine.schedule)(e, t, tn, xs, n, room, 64, finishes, 16))
                }
                Call::ScheduleBytes => numbers((engine.schedule_bytes)(
                    e, t, tn, list, bytes, room, 64, finishes, 16,
                )),
                Call::ScheduleLaterBytes => numbers((engine.schedule_later_bytes)(
                    e, t, tn, list, bytes, room, 64, finishes, 16,
                )),
                Call::Judge => verdict(skv_judge(e, t, tn, list, bytes)),
                Call::JudgePattern => verdict(skv_judge_pattern(e, t, tn, list, bytes, 9)),
                Call::JudgeCapture => captured(skv_judge_capture(e, t, tn, list, bytes, room, 64)),
                Call::Serves => served(skv_serves(e, t, tn, served_list, k, s, sn)),
                Call::ServesBytes => served(skv_serves_bytes(e, t, tn, lent, served_bytes, s, sn)),
                Call::ServesLaterBytes => {
                    served(skv_serves_later_bytes(e, t, tn, lent, served_bytes, s, sn))
                }
                Call::Run => numbers((engine.run)(c, e, t, tn, xs, n, 9, room, 64)),
                Call::Step => numbers((engine.step)(c, e, t, tn, xs, n, room, 64)),
                Call::RunLaterBytes => {
                    let a = (engine.run_later_bytes)(by_value, e, t, tn, list, bytes, 9, room, 64);
                    numbers(a.answer)
                }
                _ => {
                    numbers((engine.run_bytes)(by_value, e, t, tn, list, bytes, 9, room, 64).answer)
                }
            }
        };
        (answer, began.elapsed())
    }
}
