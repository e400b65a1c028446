//! What the program `calls` must write. Its cases stand in the program, and in `cases` once more.

mod cases;
mod engines;
mod told;

use crate::desk::*;
use crate::house::{transactions, with, RFC, TABLE_A};
use cases::{cases, Case, ASKED, BUILT, BUILT_FOR, CAPTURES};
use told::*;

pub fn lines() -> String {
    let mut out = Lines::default();
    for case in cases() {
        out.records(&case);
        out.captures(&case);
        out.lists(&case);
        out.schedules(&case);
        engines::runs(&mut out, &case);
    }
    for (list, bytes) in BUILT {
        out.built(&list, bytes);
    }
    for bytes in CAPTURES {
        out.capture(bytes);
    }
    for asked in ASKED {
        out.asked(asked);
    }
    out.0
}

impl Lines {
    fn records(&mut self, case: &Case) {
        let (name, written, table) = case.written();
        self.written(name, written, &table);
        let read = flat(
            read_table(&table),
            |t| (t[0], t.map(u32::from).to_vec()),
            20,
        );
        self.line("skv_read_table", &[read]);
        let read = flat(read_transaction(case.bytes), |x| (0, five(&x).to_vec()), 5);
        self.line("skv_read_transaction", &[read]);
        let read = flat(read_later(case.bytes), |x| (0, five(&x).to_vec()), 5);
        self.line("skv_read_later", &[read]);
        let four = |c: Command| {
            let numbers = [c.cycle, c.kind.into(), c.bank.into(), c.transaction.into()];
            (0, numbers.to_vec())
        };
        let read = flat(read_command(case.bytes), four, 4);
        self.line("skv_read_command", &[read]);
        let x = case.list[0];
        let mut room = [255; 4];
        let written = write_transaction(x.arriving(0), &mut room);
        self.written("skv_write_transaction", written, &room);
        let mut room = [255; 8];
        let written = write_later(x, &mut room);
        self.written("skv_write_later", written, &room);
        let mut room = [255; 9];
        let written = write_command(case.count, x.kind, x.start, x.bi.into(), &mut room);
        self.written("skv_write_command", written, &room);
    }

    fn captures(&mut self, case: &Case) {
        let three = |x: CaptureRecord| (0, vec![x.stamp.into(), x.kind.into(), x.bank.into()]);
        let read = flat(read_capture_record(case.bytes), three, 3);
        self.line("skv_read_capture_record", &[read]);
        let x = case.list[0];
        let mut room = [255; 5];
        let written = write_capture_record(case.expected, x.kind, x.start, &mut room);
        self.written("skv_write_capture_record", written, &room);
        self.judged(case.expected, &case.table(), case.bytes);
        let asked = (x.kind, x.bi, x.bc, case.count);
        self.found(case.expected, &case.table(), asked);
    }

    fn table_a(&mut self) -> [u8; 32] {
        let mut table = [0; 32];
        let written = write_table(TABLE_A, &mut table);
        self.written("skv_write_table", written, &table);
        table
    }

    fn capture(&mut self, bytes: &[u8]) {
        let table = self.table_a();
        self.judged(7, &table, bytes);
    }

    fn asked(&mut self, asked: (u8, u8, u8, u32)) {
        let table = self.table_a();
        self.found(7, &table, asked);
    }

    fn found(&mut self, expected: u16, table: &[u8], (kind, bi, bc, most): (u8, u8, u8, u32)) {
        let mut room = [9; 49];
        let answer = shortest_pattern(expected, table, kind, bi, bc, most, &mut room);
        let answer = flat(answer, |s| (s.edition, vec![s.length, s.commands]), 2);
        self.line("skv_shortest_pattern", &[answer, hex(&room)]);
    }

    fn judged(&mut self, expected: u16, table: &[u8], bytes: &[u8]) {
        let mut room = [9; 25];
        let answer = judge_capture(expected, table, bytes, &mut room);
        let told = |seen: Captured| match seen.verdict {
            Verdict::Accepted => (seen.edition, vec![seen.commands, 0, 0]),
            Verdict::Broken { rule, record } => (
                seen.edition,
                vec![seen.commands, rule.into(), record as u32],
            ),
        };
        let answer = flat(answer, told, 3);
        self.line("skv_judge_capture", &[answer, hex(&room)]);
    }

    fn lists(&mut self, case: &Case) {
        let mut places = case.list;
        let answer = read_transactions(case.expected, &case.table(), case.bytes, &mut places);
        self.decoded("read_transactions", answer, &places);
        let mut places = case.list;
        let answer = read_later_transactions(case.expected, &case.table(), case.bytes, &mut places);
        self.decoded("read_later_transactions", answer, &places);
    }

    fn decoded(&mut self, name: &str, answer: Result<Decoded, Refusal>, places: &[Transaction]) {
        let answer = answer.map(|d| (d.edition, d.transactions, 0));
        let place = |x: &Transaction| format!(" , {}", spaced(&five(x)));
        let places: String = places.iter().map(place).collect();
        self.line(name, &[desk(answer, 2) + &places]);
        self.line(&format!("skv_{name}"), &[host(answer) + &places]);
    }

    fn schedules(&mut self, case: &Case) {
        let (expected, table) = (case.expected, case.table());
        let (mut room, mut finishes) = ([0; 96], [9; 4]);
        let answer = schedule(expected, &table, &case.list, &mut room, &mut finishes);
        let answer = answer.map(|s| (s.edition, s.commands, 0));
        let rest = [spaced(&finishes), hex(&room)].join(" ");
        self.line("schedule", &[desk(answer, 2), rest]);
        let verdict = judge(expected, &table, &room).map(|(e, v)| match v {
            Verdict::Accepted => (e, vec![0, 0, 0]),
            Verdict::Broken { rule, record } => (e, vec![rule.into(), 0, record as u32]),
        });
        self.line("skv_judge", &[flat(verdict, |v| v, 3)]);
        let verdict = judge_pattern(expected, &table, &room, case.count);
        let verdict = verdict.map(|(e, v)| match v {
            PatternVerdict::Accepted => (e, vec![0, 0, 0]),
            PatternVerdict::Broken { rule, copy, record } => {
                (e, vec![rule.into(), copy as u32, record as u32])
            }
        });
        self.line("skv_judge_pattern", &[flat(verdict, |v| v, 3)]);
        engines::builds(self, case);
        self.serves(expected, &table, &case.list, case.bytes, case.bytes);
        let x = case.list[0];
        let answer = bound(expected, &table, x.bi, x.bc).map(|(e, cycles)| (e, cycles as u32, 0));
        self.line("skv_bound", &[host(answer)]);
    }

    /// Whether the schedule serves the list, and whether it serves the one in the bytes.
    fn serves(
        &mut self,
        expected: u16,
        table: &[u8],
        list: &[Transaction],
        bytes: &[u8],
        schedule: &[u8],
    ) {
        let answer = serves(expected, table, list, schedule);
        self.line("serves", &[desk_served(answer)]);
        let answers = [
            ("skv_serves", answer),
            (
                "skv_serves_bytes",
                serves_bytes(expected, table, bytes, schedule),
            ),
            (
                "skv_serves_later_bytes",
                serves_later_bytes(expected, table, bytes, schedule),
            ),
        ];
        for (name, answer) in answers {
            self.line(name, &[host_served(answer)]);
        }
    }

    /// A schedule that is built for one list, and others.
    fn built(&mut self, list: &[[u8; 4]], bytes: &[u8]) {
        let numbers = with(&[(RFC, 50)]);
        let expected = numbers[0];
        let mut table = [0; 32];
        let written = write_table(numbers, &mut table);
        self.written("skv_write_table", written, &table);
        let (mut room, mut finishes) = ([0; 40], [0; 3]);
        let answer = schedule(
            expected,
            &table,
            &transactions(&BUILT_FOR),
            &mut room,
            &mut finishes,
        );
        let answer = answer.map(|s| (s.edition, s.commands, 0));
        self.line("schedule", &[desk(answer, 2)]);
        self.serves(expected, &table, &transactions(list), bytes, &room);
    }
}
