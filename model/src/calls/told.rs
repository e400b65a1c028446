//! Answers, lists and controllers as the program writes them.

use std::fmt::{Display, Write};

use crate::desk::*;

/// What is written so far.
#[derive(Default)]
pub struct Lines(pub String);

impl Lines {
    pub fn line<T: Display>(&mut self, name: &str, parts: &[T]) {
        let parts: String = parts.iter().map(|p| format!(" {p}")).collect();
        writeln!(self.0, "{name}{parts}").expect("a string takes it");
    }

    /// Of a call that writes a record.
    pub fn written(&mut self, name: &str, answer: Result<u16, Refusal>, room: &[u8]) {
        self.line(name, &[host(answer.map(|e| (e, 0, 0))), hex(room)]);
    }
}

/// An edition and two numbers.
pub type Told = Result<(u16, u32, u32), Refusal>;

/// The host's answer: the refusal's number, or 0, its position, the edition, and the two numbers.
pub fn host(answer: Told) -> String {
    match answer {
        Ok((edition, count, cycles)) => format!("0 0 {edition} {count} {cycles}"),
        Err(r) => format!("{} {} {} 0 0", r.number, r.position, r.edition),
    }
}

/// The desk's answer: the edition and as many numbers as it has.
pub fn desk(answer: Told, n: usize) -> String {
    match answer {
        Ok((edition, count, cycles)) => spaced(&[u32::from(edition), count, cycles][..n]),
        Err(r) => format!("refused {} {} {}", r.number, r.position, r.edition),
    }
}

/// The host's answer of n numbers, which are 0 where it refuses.
pub fn flat<T>(
    answer: Result<T, Refusal>,
    numbers: impl Fn(T) -> (u16, Vec<u32>),
    n: usize,
) -> String {
    let (head, numbers) = match answer.map(numbers) {
        Ok((edition, numbers)) => ([0, 0, edition.into()], numbers),
        Err(r) => ([r.number.into(), r.position, r.edition.into()], vec![0; n]),
    };
    [spaced(&head), spaced(&numbers)].join(" ")
}

/// An edition, and whether a schedule serves a list.
pub type ServedTold = Result<(u16, Served), Refusal>;

/// The desk's answer: the edition, and no number where the schedule serves the list, two of a verdict, one of a transaction.
pub fn desk_served(answer: ServedTold) -> String {
    match answer {
        Ok((edition, served)) => {
            let numbers = match served {
                Served::Serves => vec![],
                Served::Broken { rule, record } => vec![rule.into(), record as u32],
                Served::AtFault { transaction } => vec![transaction as u32],
            };
            spaced(&[&[edition.into()], &numbers[..]].concat())
        }
        Err(r) => desk(Err(r), 0),
    }
}

/// The host's: 1 or 0, the rule, the record and the transaction, 0 where it has none.
pub fn host_served(answer: ServedTold) -> String {
    let four = |(edition, served)| {
        let numbers = match served {
            Served::Serves => [1, 0, 0, 0],
            Served::Broken { rule, record } => [0, rule.into(), record as u32, 0],
            Served::AtFault { transaction } => [0, 0, 0, transaction as u32],
        };
        (edition, numbers.to_vec())
    };
    flat(answer, four, 4)
}

pub fn spaced(numbers: &[u32]) -> String {
    let each: Vec<String> = numbers.iter().map(u32::to_string).collect();
    each.join(" ")
}

/// The four numbers of its bytes, and its arrival.
pub fn five(x: &Transaction) -> [u32; 5] {
    let [kind, start, bi, bc] = x.four().map(u32::from);
    [kind, start, bi, bc, x.arrival]
}

pub fn hex(bytes: &[u8]) -> String {
    bytes.iter().map(|b| format!("{b:02x}")).collect()
}

pub fn state(s: &Controller) -> String {
    let head = spaced(&[s.edition, s.cycle, s.acts, s.datas]);
    let bank = |b: &Bank| format!(" , {}", spaced(&[b.opened, b.act, b.rd, b.wr]));
    let banks: String = s.banks.iter().map(bank).collect();
    let group = |g: &Group| format!(" , {}", spaced(&[g.act, g.rd, g.wr]));
    let groups: String = s.groups.iter().map(group).collect();
    let (last, end) = (spaced(&s.last), spaced(&[s.refresh, s.lent]));
    format!(", {head}{banks} , {last}{groups} , {end}")
}
