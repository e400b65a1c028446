//! A case put through the archive, in memory that shows what was touched.

mod flat;
mod long;

use flat::*;
pub use long::ENTRIES;
use skvorzhan::raw::engines::{Engine, PLAIN, STRAIGHT};
use skvorzhan::raw::*;
use std::mem::size_of;

use crate::case::{Call, Case, NUMBERS};
use crate::expected::Outcome;
use crate::numbers::Noise;

use crate::lent::Region;

pub const LONGEST_TABLE: usize = 400;
/// One record more than a schedule may have, and some bytes.
pub const LONGEST_BYTES: usize = 8 * 69_633 + 64;
pub const MOST_ROOM: usize = LONGEST_BYTES;
pub const MOST_SLOTS: usize = 400;

/// What is lent for each purpose.
pub struct Archive {
    table: Region,
    bytes: Region,
    schedule: Region,
    room: Region,
    slots: Region,
    state: Region,
    pub noise: Noise,
}

/// The engine that the call is made of.
fn engine(case: &Case) -> &'static Engine {
    match case.straight {
        true => &STRAIGHT,
        false => &PLAIN,
    }
}

impl Archive {
    pub fn new() -> Archive {
        assert_eq!(size_of::<Controller>(), 4 * NUMBERS);
        Archive {
            table: Region::new(LONGEST_TABLE),
            bytes: Region::new(LONGEST_BYTES),
            schedule: Region::new(LONGEST_BYTES),
            room: Region::new(MOST_ROOM),
            slots: Region::new(8 * MOST_SLOTS),
            state: Region::new(size_of::<Controller>()),
            noise: Noise::new(MOST_ROOM),
        }
    }

    /// The outcome, or what was touched that may not be. What is lent for reading lies in pages that trap where they are written to; and
    /// where the call must be refused, so may all that is lent, the controller too: "no buffer or state changes".
    pub fn call(&mut self, case: &Case, read_only: bool) -> Result<Outcome, String> {
        let (f, lies, noise) = (case.filling, case.lies, &self.noise);
        let whole = self.handed_over(case);
        let list = self.bytes.hold(&whole, lies, noise, f);
        let schedule = self.schedule.hold(&case.schedule, lies, noise, f);
        let t = self.table.hold(&case.table, lies, noise, f);
        let room = self.room.fill(case.room, lies, noise, f);
        let slots = self.slots.fill(case.bytes_of_slots(), lies, noise, f);
        let numbers_now: Vec<u8> = case.state.iter().flat_map(|n| n.to_le_bytes()).collect();
        let c = self.state.hold(&numbers_now, lies, noise, f) as *mut Controller;
        for region in [&mut self.bytes, &mut self.schedule, &mut self.table] {
            region.only_reads();
        }
        if read_only {
            for region in [&mut self.room, &mut self.slots, &mut self.state] {
                region.only_reads();
            }
        }
        let e = case.expected;
        let (tn, bn, rn, sn) = (case.table.len(), whole.len(), case.room, case.slots);
        let (xs, xn) = (list as *const Transaction, bn / 8);
        let (s, cn) = (schedule as *const u8, case.schedule.len());
        let (finishes, places) = (slots as *mut u32, slots as *mut Transaction);
        let [v0, v1, v2, v3, v4] = case.values;
        let four = [v0, v1, v2, v3].map(|n| n as u8);
        let engine = engine(case);
        let mut handed_back = None;
        let mut keep = |a: ControllerAnswer| {
            handed_back = Some(state(&a.controller));
            numbers(a.answer)
        };
        let answer = unsafe {
            match case.call {
                Call::ReadTable => {
                    let a = skv_read_table(t, tn);
                    let head = [a.refused, a.position, a.edition];
                    let numbers = a.numbers.map(u32::from);
                    head.iter().chain(&numbers).copied().collect()
                }
                Call::WriteTable => {
                    let numbers_ = Numbers {
                        numbers: case.sixteen(),
                    };
                    numbers(skv_write_table(numbers_, room, rn))
                }
                Call::WriteGroupTable => {
                    let numbers_ = GroupNumbers {
                        numbers: case.numbers(),
                    };
                    numbers(skv_write_group_table(numbers_, room, rn))
                }
                Call::ReadTransaction => transaction(skv_read_transaction(list, bn)),
                Call::WriteTransaction => {
                    let [kind, start, bi, bc] = four;
                    numbers(skv_write_transaction(kind, start, bi, bc, room, rn))
                }
                Call::ReadLater => transaction(skv_read_later(list, bn)),
                Call::WriteLater => {
                    let [kind, start, bi, bc] = four;
                    numbers(skv_write_later(kind, start, bi, bc, v4, room, rn))
                }
                Call::ReadCommand => {
                    let a = skv_read_command(list, bn);
                    let (kind, bank) = (a.kind.into(), a.bank.into());
                    let head = vec![a.refused, a.position, a.edition];
                    [head, vec![a.cycle, kind, bank, a.number.into()]].concat()
                }
                Call::WriteCommand => numbers(skv_write_command(
                    v0, v1 as u8, v2 as u8, v3 as u16, room, rn,
                )),
                Call::ReadCaptureRecord => {
                    let a = skv_read_capture_record(list, bn);
                    let (kind, bank) = (a.kind.into(), a.bank.into());
                    let head = vec![a.refused, a.position, a.edition];
                    [head, vec![a.stamp.into(), kind, bank]].concat()
                }
                Call::WriteCaptureRecord => numbers(skv_write_capture_record(
                    v0 as u16, v1 as u8, v2 as u8, room, rn,
                )),
                Call::ReadTransactions => {
                    numbers(skv_read_transactions(e, t, tn, list, bn, places, sn))
                }
                Call::ReadLaterTransactions => {
                    numbers(skv_read_later_transactions(e, t, tn, list, bn, places, sn))
                }
                Call::Schedule => {
                    numbers((engine.schedule)(e, t, tn, xs, xn, room, rn, finishes, sn))
                }
                Call::ScheduleBytes => numbers((engine.schedule_bytes)(
                    e, t, tn, list, bn, room, rn, finishes, sn,
                )),
                Call::ScheduleLaterBytes => numbers((engine.schedule_later_bytes)(
                    e, t, tn, list, bn, room, rn, finishes, sn,
                )),
                Call::Judge => verdict(skv_judge(e, t, tn, list, bn)),
                Call::JudgePattern => verdict(skv_judge_pattern(e, t, tn, list, bn, v0)),
                Call::JudgeCapture => captured(skv_judge_capture(e, t, tn, list, bn, room, rn)),
                Call::Serves => served(skv_serves(e, t, tn, xs, xn, s, cn)),
                Call::ServesBytes => served(skv_serves_bytes(e, t, tn, list, bn, s, cn)),
                Call::ServesLaterBytes => served(skv_serves_later_bytes(e, t, tn, list, bn, s, cn)),
                Call::ShortestPattern => {
                    let [kind, bi, bc, _] = four;
                    shortest(skv_shortest_pattern(e, t, tn, kind, bi, bc, v3, room, rn))
                }
                Call::Bound => numbers(skv_bound(e, t, tn, v0 as u8, v1 as u8)),
                Call::Start => keep(skv_start(e, t, tn)),
                Call::Run => numbers((engine.run)(c, e, t, tn, xs, xn, v0, room, rn)),
                Call::Step => numbers((engine.step)(c, e, t, tn, xs, xn, room, rn)),
                Call::RunBytes => {
                    let c = controller(&case.state);
                    keep((engine.run_bytes)(c, e, t, tn, list, bn, v0, room, rn))
                }
                Call::RunLaterBytes => {
                    let c = controller(&case.state);
                    keep((engine.run_later_bytes)(
                        c, e, t, tn, list, bn, v0, room, rn,
                    ))
                }
            }
        };
        self.untouched(case, &whole)?;
        let lent_state = matches!(case.call, Call::Run | Call::Step);
        Ok(Outcome {
            answer,
            room: self.room.now().to_vec(),
            slots: self.slots.now().to_vec(),
            state: handed_back.or_else(|| lent_state.then(|| state_now(self.state.now()))),
        })
    }

    /// Decoded transactions are handed over whole: in memory they are the bytes of the record of 8.
    fn handed_over(&self, case: &Case) -> Vec<u8> {
        match case.call.decoded() {
            true => case.list().concat(),
            false => case.bytes.clone(),
        }
    }

    fn untouched(&self, case: &Case, whole: &[u8]) -> Result<(), String> {
        for (name, region) in [
            ("the table", &self.table),
            ("the bytes", &self.bytes),
            ("the schedule", &self.schedule),
            ("the room", &self.room),
            ("the slots", &self.slots),
            ("the controller", &self.state),
        ] {
            if !region.beside_is_kept(&self.noise) {
                return Err(format!("bytes beside {name} were changed"));
            }
        }
        let kept = self.table.now() == &case.table[..] && self.schedule.now() == &case.schedule[..];
        if !kept || self.bytes.now() != whole {
            return Err("bytes that were lent for reading were changed".to_string());
        }
        Ok(())
    }
}
