//! The example captures: an expected edition, a table and a capture as the trace reads them.

use std::fmt::Write;

use super::text::{printed_text, Head};
use crate::capture::{read_capture_record, true_cycles};
use crate::rules::NAMES;
use crate::sent::{record, tick_record as tick};
use crate::trace::trace;

pub struct Captured {
    pub head: Head,
    capture: Vec<[u8; 4]>,
    /// What stands under the text that the trace prints.
    last: &'static str,
}

pub fn all() -> Vec<Captured> {
    vec![
        Captured {
            head: Head::of_refreshed(
                "trace-wrap",
                "a read, a refresh, writes and a read; the stamp runs round twice, and ticks stand between",
            ),
            capture: vec![
                tick(60_000),
                record(65_530, 0, 0),
                record(4, 2, 0),
                tick(5),
                record(32, 5, 0),
                record(82, 0, 1),
                record(92, 3, 1),
                record(96, 4, 1),
                tick(0),
                record(1, 0, 0),
                record(11, 2, 0),
            ],
            last: "Ticks are no commands: eight of the eleven records are written.\n",
        },
        Captured {
            head: Head::of_a(
                "trace-broken",
                "a read 9 cycles after its ACT, where RCD is 10, and a kind that has no name",
            ),
            capture: vec![record(65_533, 0, 3), record(6, 2, 3), record(64, 255, 1)],
            last: "The verdict counts the commands from 0, and names the first that breaks a rule. A kind that has no name is printed as its number.\n",
        },
    ]
}

impl Captured {
    /// The file itself.
    pub fn bytes(&self) -> Vec<u8> {
        self.head.bytes(&self.capture.concat())
    }

    pub fn text(&self) -> String {
        let bytes = self.bytes();
        let rest = [
            self.capture_text(),
            format!("The trace prints:\n\n{}", printed_text(&trace(&bytes))),
            self.last.to_string(),
        ];
        self.head.text(bytes.len(), &rest)
    }

    fn capture_text(&self) -> String {
        let (count, end) = (self.capture.len(), self.bytes().len() - 1);
        let records: Vec<_> = self
            .capture
            .iter()
            .map(|r| read_capture_record(r))
            .collect();
        let records: Vec<_> = records
            .into_iter()
            .map(|r| r.expect("four bytes"))
            .collect();
        let cycles = true_cycles(&records).expect("no number 11");
        let mut out = format!(
            "Bytes 34 to {end}, the capture, 4 bytes a record: {count}. A stamp has 16 bits, low byte first, and runs round from 65535 to 0.\n\n"
        );
        for (at, (r, cycle)) in records.iter().zip(cycles).enumerate() {
            let word = match NAMES.get(usize::from(r.kind)) {
                Some(name) => name,
                None if r.is_tick() => "a tick",
                None => "has no name",
            };
            let (stamp, kind, bank) = (r.stamp, r.kind, r.bank);
            writeln!(
                out,
                "    record {at}: stamp {stamp}, kind {kind} ({word}), bank {bank}; cycle {cycle}"
            )
            .expect("a string takes it");
        }
        out
    }
}

#[cfg(test)]
mod tests {
    use super::super::text::assert_stored;
    use super::*;

    /// The trace program is run on the first.
    #[test]
    fn the_first_is_stored_with_the_program() {
        let bytes = all()[0].bytes();
        assert_stored("trace", &bytes, &trace(&bytes));
    }
}
