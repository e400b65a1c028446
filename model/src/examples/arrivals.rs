//! The example of transactions that arrive later: an expected edition, a table and records of 8 bytes, for a host's calls.

use std::fmt::Write;

use super::text::{printed_text, Head, FINISHES};
use crate::desk::{run_later_bytes, start, Transaction};
use crate::house::*;
use crate::listing::{command_lines, listing, schedule_lines};
use crate::records::LATER;

pub const NAME: &str = "arrivals";

fn head() -> Head {
    Head::of_a(
        NAME,
        "three reads, of which the second arrives at cycle 8 and the third at 40",
    )
}

/// The second arrives while the first is at work, the third when both are done.
fn list() -> Vec<[u8; 8]> {
    arriving(&[[0, 0, 1, 1], [0, 1, 1, 1], [0, 0, 1, 1]], &[0, 8, 40])
}

/// How many of the list each run is lent, and its count of cycles.
const PIECES: [(usize, u32); 3] = [(2, 4), (2, 1000), (3, 1000)];

/// The file itself.
pub fn bytes() -> Vec<u8> {
    head().bytes(&list().concat())
}

pub fn text() -> String {
    let (bytes, list) = (bytes(), list());
    let last = bytes.len() - 1;
    let table = &bytes[2..34];
    let built = schedule_lines(LATER, 7, table, &bytes[34..], room_for(&list), list.len());
    let printed = listing(&bytes);
    let mut of_list = format!(
        "Bytes 34 to {last}, the transactions, 8 bytes each: {}. The arrival has 32 bits, low byte first.\n\n",
        list.len()
    );
    for (number, x) in list.iter().enumerate() {
        let Transaction {
            kind,
            start,
            bi,
            bc,
            arrival,
        } = Transaction::of(x);
        writeln!(
            of_list,
            "    transaction {number}: type {kind} (read), start bank {start}, BI {bi}, BC {bc}, arrival {arrival}"
        )
        .expect("a string takes it");
    }
    let rest = [
        of_list,
        format!(
            "The calls that build a schedule of such records, `schedule_later_bytes` and in C `skv_schedule_later_bytes`, give:\n\n{}",
            printed_text(&built.expect("it's accepted"))
        ),
        FINISHES.to_string(),
        format!(
            "A run is lent the whole list so far, `run_later_bytes` and in C `skv_run_later_bytes`. In pieces, from a fresh controller:\n\n{}",
            in_pieces(table, &list)
        ),
        format!(
            "The listing program keeps the record of 4 bytes, and takes the first arrival for a transaction:\n\n{}",
            printed_text(&printed)
        ),
    ];
    head().text(bytes.len(), &rest)
}

fn in_pieces(table: &[u8], list: &[[u8; 8]]) -> String {
    let (_, mut c) = start(7, table);
    let mut out = String::new();
    for (size, count) in PIECES {
        let lent = &list[..size];
        let (bytes, mut room) = (lent.concat(), vec![0; room_for(lent)]);
        let told = run_later_bytes(&mut c, 7, table, &bytes, count, &mut room);
        let told = told.expect("it's in time");
        let (commands, cycles) = (told.commands, told.cycles);
        out += &format!("    {size} transactions, {count} cycles: commands {commands} cycles {cycles}, and the controller's lent is {}\n", c.lent);
        for line in command_lines(&room, commands).lines() {
            out += &format!("        {line}\n");
        }
    }
    let cycle = c.cycle;
    let late = [list, &[later([0, 1, 1, 1], cycle - 1)]].concat();
    let (bytes, mut room) = (late.concat(), vec![0; room_for(&late)]);
    let told = run_later_bytes(&mut c, 7, table, &bytes, 1000, &mut room);
    let refusal = told.err().map_or(String::new(), |r| r.to_string());
    out + &format!(
        "    a fourth that arrives at {}, lent at cycle {cycle}: {refusal}\n",
        cycle - 1
    )
}

#[cfg(test)]
mod tests {
    use super::*;

    #[test]
    fn what_the_text_says() {
        let text = text();
        for line in [
            "    edition 7 commands 6\n    0 ACT 0 0\n    8 ACT 1 1\n    10 RDA 0 0\n    18 RDA 1 1\n    40 ACT 0 2\n    50 RDA 0 2\n",
            "    finish 0 24\n    finish 1 32\n    finish 2 64\n",
            "    2 transactions, 4 cycles: commands 1 cycles 4, and the controller's lent is 2\n        0 ACT 0 0\n",
            "    3 transactions, 1000 cycles: commands 2 cycles 32, and the controller's lent is 3\n",
            "    a fourth that arrives at 50, lent at cycle 51: refused 12 at 0 edition 7\n",
            "    refused 4 at 1 edition 7\n",
        ] {
            assert!(text.contains(line), "{line}");
        }
    }
}
