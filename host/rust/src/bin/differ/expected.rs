//! What the model says of a case: every number of the answer, and what each buffer must then hold. A case of the second engine is put through
//! the model's own second one.

mod builds;

use model::desk::{self, Controller, PatternVerdict, Refusal, Served, Transaction, Verdict};
pub use model::house::transactions;

use crate::case::*;
use crate::numbers::Noise;
use builds::{PLAIN, STRAIGHT};

/// Buffers as bytes; those that the call isn't lent are empty.
#[derive(Debug, Clone, PartialEq, Eq)]
pub struct Outcome {
    /// In the order of the answer's fields.
    pub answer: Vec<u32>,
    pub room: Vec<u8>,
    pub slots: Vec<u8>,
    pub state: Option<State>,
}

controllers!(Controller, Controller::fresh(&[0]));

/// The answer of so many numbers beside the refusal and the edition: the edition with the numbers, or the refusal with 0 for each.
fn answer<const N: usize>(told: Result<(u16, [u32; N]), Refusal>) -> Vec<u32> {
    let (head, rest) = match told {
        Ok((edition, numbers)) => ([0, 0, edition.into()], numbers),
        Err(r) => ([r.number.into(), r.position, r.edition.into()], [0; N]),
    };
    head.iter().chain(&rest).copied().collect()
}

/// The refusal's number.
pub fn refused(answer: &[u32]) -> usize {
    answer[0] as usize
}

pub fn expected(case: &Case, noise: &Noise) -> Outcome {
    let (e, table, bytes) = (case.expected, &case.table[..], &case.bytes[..]);
    let [a, b, c, d, _] = case.values;
    let mut room = noise.lent(case.filling, case.room).to_vec();
    let slots = noise.lent(case.filling, case.bytes_of_slots());
    let mut finishes: Vec<u32> = words(slots);
    let mut places = transactions(&in_eight(slots, 8));
    let mut run = controller(&case.state);
    let mut fresh = None;
    let list = case.list();
    let written = Transaction::of(&case.written());
    let schedule_of = &case.schedule[..];
    let whole = |edition| (edition, [0, 0]);
    let decoded = |d: desk::Decoded| (d.edition, [d.transactions, 0]);
    let built = |s: desk::Scheduled| (s.edition, [s.commands, 0]);
    let ran = |r: desk::Ran| (r.edition, [r.commands, r.cycles]);
    let engine = match case.straight {
        true => &STRAIGHT,
        false => &PLAIN,
    };
    let answer = match case.call {
        Call::ReadTable => answer(desk::read_table(table).map(|t| (t[0], t.map(u32::from)))),
        Call::WriteTable => answer(desk::write_table(case.sixteen(), &mut room).map(whole)),
        Call::WriteGroupTable => {
            answer(desk::write_group_table(case.numbers(), &mut room).map(whole))
        }
        Call::ReadTransaction => answer(desk::read_transaction(bytes).map(five)),
        Call::WriteTransaction => {
            answer(desk::write_transaction(written.arriving(0), &mut room).map(whole))
        }
        Call::ReadLater => answer(desk::read_later(bytes).map(five)),
        Call::WriteLater => answer(desk::write_later(written, &mut room).map(whole)),
        Call::ReadCommand => answer(desk::read_command(bytes).map(|c| {
            let (kind, bank) = (c.kind.into(), c.bank.into());
            (0, [c.cycle, kind, bank, c.transaction.into()])
        })),
        Call::WriteCommand => {
            answer(desk::write_command(a, b as u8, c as u8, d as u16, &mut room).map(whole))
        }
        Call::ReadCaptureRecord => answer(
            desk::read_capture_record(bytes)
                .map(|r| (0, [r.stamp.into(), r.kind.into(), r.bank.into()])),
        ),
        Call::WriteCaptureRecord => {
            answer(desk::write_capture_record(a as u16, b as u8, c as u8, &mut room).map(whole))
        }
        Call::ReadTransactions => {
            answer(desk::read_transactions(e, table, bytes, &mut places).map(decoded))
        }
        Call::ReadLaterTransactions => {
            answer(desk::read_later_transactions(e, table, bytes, &mut places).map(decoded))
        }
        Call::ScheduleBytes if bytes.len() % 4 != 0 => {
            answer((engine.schedule_bytes)(e, table, bytes, &mut room, &mut finishes).map(built))
        }
        Call::ScheduleLaterBytes if bytes.len() % 8 != 0 => {
            let build = engine.schedule_later_bytes;
            answer(build(e, table, bytes, &mut room, &mut finishes).map(built))
        }
        Call::Schedule | Call::ScheduleBytes | Call::ScheduleLaterBytes => {
            answer(builds::schedule(engine, e, table, &list, &mut room, &mut finishes).map(built))
        }
        Call::Judge => answer(desk::judge(e, table, bytes).map(
            |(edition, verdict)| match verdict {
                Verdict::Accepted => (edition, [0; 3]),
                Verdict::Broken { rule, record } => (edition, [rule.into(), 0, record as u32]),
            },
        )),
        Call::JudgePattern => answer(desk::judge_pattern(e, table, bytes, a).map(
            |(edition, verdict)| match verdict {
                PatternVerdict::Accepted => (edition, [0; 3]),
                PatternVerdict::Broken { rule, copy, record } => {
                    (edition, [rule.into(), copy as u32, record as u32])
                }
            },
        )),
        Call::JudgeCapture => {
            let told = desk::judge_capture(e, table, bytes, &mut room);
            answer(told.map(|c| {
                let (rule, record) = match c.verdict {
                    Verdict::Accepted => (0, 0),
                    Verdict::Broken { rule, record } => (rule, record),
                };
                (c.edition, [c.commands, rule.into(), record as u32])
            }))
        }
        Call::Serves => {
            let list = transactions(&list);
            answer(desk::serves(e, table, &list, schedule_of).map(served))
        }
        Call::ServesBytes => answer(desk::serves_bytes(e, table, bytes, schedule_of).map(served)),
        Call::ServesLaterBytes => {
            answer(desk::serves_later_bytes(e, table, bytes, schedule_of).map(served))
        }
        Call::ShortestPattern => {
            let (kind, bi, bc) = (a as u8, b as u8, c as u8);
            let told = desk::shortest_pattern(e, table, kind, bi, bc, d, &mut room);
            answer(told.map(|s| (s.edition, [s.length, s.commands])))
        }
        Call::Bound => {
            let told = desk::bound(e, table, a as u8, b as u8);
            answer(told.map(|(edition, bound)| (edition, [bound as u32, 0])))
        }
        Call::Start => {
            let (told, c) = desk::start(e, table);
            fresh = Some(c);
            answer(told.map(whole))
        }
        Call::Run | Call::Step => {
            let list = transactions(&list);
            answer((engine.run)(&mut run, e, table, &list, case.count(), &mut room).map(ran))
        }
        Call::RunBytes => {
            answer((engine.run_bytes)(&mut run, e, table, bytes, a, &mut room).map(ran))
        }
        Call::RunLaterBytes => {
            answer((engine.run_later_bytes)(&mut run, e, table, bytes, a, &mut room).map(ran))
        }
    };
    Outcome {
        answer,
        room,
        slots: match case.call.decodes() {
            true => places.iter().flat_map(|x| x.eight()).collect(),
            false => finishes.iter().flat_map(|n| n.to_le_bytes()).collect(),
        },
        state: match fresh {
            Some(c) => Some(state(&c)),
            None if case.call.runs() => Some(state(&run)),
            None => None,
        },
    }
}

/// Whether it serves, the rule and the record, the transaction.
fn served((edition, served): (u16, Served)) -> (u16, [u32; 4]) {
    let numbers = match served {
        Served::Serves => [1, 0, 0, 0],
        Served::Broken { rule, record } => [0, rule.into(), record as u32, 0],
        Served::AtFault { transaction } => [0, 0, 0, transaction as u32],
    };
    (edition, numbers)
}

/// The numbers of a transaction that is read, and edition 0.
fn five(x: Transaction) -> (u16, [u32; 5]) {
    let [kind, start, bi, bc] = x.four().map(u32::from);
    (0, [kind, start, bi, bc, x.arrival])
}

fn words(bytes: &[u8]) -> Vec<u32> {
    let word = |x: &[u8]| u32::from_le_bytes([x[0], x[1], x[2], x[3]]);
    bytes.chunks_exact(4).map(word).collect()
}
