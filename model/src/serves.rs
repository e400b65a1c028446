//! Request 10, "Does it serve the list?": each of its sentences as it stands, over all records and all pairs of them.

#[cfg(test)]
mod tests;

use crate::records::{commands_of, Command, GroupTable, Refusal, Transaction};
use crate::rules::{judge, Verdict, ACT, RD, REF, WRA};
use crate::scheduler::{dues, Due};

/// "Otherwise the judge's verdict comes first, then the lowest transaction at fault. .. If none is, the list's length is given."
#[derive(Debug, Clone, Copy, PartialEq, Eq)]
pub enum Served {
    Serves,
    Broken { rule: u8, record: usize },
    AtFault { transaction: usize },
}

/// "A transaction is at fault when a command of its is missing, repeated or not its own, when the ACT before one of its data commands
/// carries another number, when a data command of its stands after one that the queue places later, or when its REF is misplaced."
#[derive(Debug, Clone, Copy, PartialEq, Eq, PartialOrd, Ord)]
pub enum Cause {
    Missing,
    Repeated,
    NotItsOwn,
    OtherNumber,
    OutOfOrder,
    Misplaced,
}

pub const CAUSES: [Cause; 6] = [
    Cause::Missing,
    Cause::Repeated,
    Cause::NotItsOwn,
    Cause::OtherNumber,
    Cause::OutOfOrder,
    Cause::Misplaced,
];

fn due_of(c: &Command) -> Due {
    (c.kind, c.bank, c.transaction)
}

fn is_data(kind: u8) -> bool {
    (RD..=WRA).contains(&kind)
}

fn count(all: &[Due], one: Due) -> usize {
    all.iter().filter(|&&d| d == one).count()
}

/// A list and the records that are to serve it.
pub struct Work {
    transactions: usize,
    /// What is due.
    all: Vec<Due>,
    records: Vec<Due>,
    /// The place of each record in the data queue, of alike ones that of the first.
    places: Vec<Option<usize>>,
}

impl Work {
    /// Of a list that the table accepts.
    pub fn of(table: &GroupTable, list: &[Transaction], records: &[Command]) -> Work {
        let [acts, datas] = dues(table, list);
        let records: Vec<Due> = records.iter().map(due_of).collect();
        let place = |r: &Due| datas.iter().position(|d| d == r);
        Work {
            transactions: list.len(),
            all: [&acts[..], &datas].concat(),
            places: records.iter().map(place).collect(),
            records,
        }
    }

    /// A command of a transaction is a record with its number, due or not.
    fn of_its(&self, x: u16) -> impl Iterator<Item = (usize, Due)> + '_ {
        let numbered = self.records.iter().copied().enumerate();
        numbered.filter(move |&(_, (.., number))| number == x)
    }

    fn due_under(&self, x: u16) -> impl Iterator<Item = Due> + '_ {
        let all = self.all.iter().copied();
        all.filter(move |&(.., number)| number == x)
    }

    /// The number that the latest ACT of the bank before a place carries.
    fn opened_by(&self, place: usize, bank: u8) -> Option<u16> {
        let opens = |&&(kind, b, _): &&Due| kind == ACT && b == bank;
        let act = self.records[..place].iter().rfind(opens);
        act.map(|&(.., number)| number)
    }

    /// A record that the queue places later than the one at `place` stands before it.
    fn stands_after_later(&self, place: usize) -> bool {
        let queued = self.places[place];
        let later = |&w: &Option<usize>| w > queued;
        queued.is_some() && self.places[..place].iter().any(later)
    }

    /// "After every command of earlier transactions and before every command of later ones." A record numbered outside the list belongs to
    /// none.
    fn is_misplaced(&self, place: usize, x: u16) -> bool {
        let in_list = |n: u16| usize::from(n) < self.transactions;
        let before = &self.records[..place];
        let after = &self.records[place + 1..];
        before.iter().any(|&(.., n)| n > x && in_list(n)) || after.iter().any(|&(.., n)| n < x)
    }

    fn has(&self, cause: Cause, x: u16) -> bool {
        let there = |d| count(&self.records, d);
        let due = |d| count(&self.all, d);
        match cause {
            Cause::Missing => self.due_under(x).any(|d| there(d) < due(d)),
            Cause::Repeated => self.due_under(x).any(|d| there(d) > due(d)),
            Cause::NotItsOwn => self.of_its(x).any(|(_, d)| due(d) == 0),
            Cause::OtherNumber => self.of_its(x).any(|(place, (kind, bank, _))| {
                let opened = self.opened_by(place, bank);
                is_data(kind) && opened.map_or(false, |y| y != x)
            }),
            Cause::OutOfOrder => self.of_its(x).any(|(i, _)| self.stands_after_later(i)),
            Cause::Misplaced => self
                .of_its(x)
                .any(|(place, (kind, ..))| kind == REF && self.is_misplaced(place, x)),
        }
    }

    /// All that puts a transaction at fault.
    pub fn causes(&self, x: usize) -> Vec<Cause> {
        let x = u16::try_from(x).expect("a transaction has a 16-bit number");
        let has = |&cause: &Cause| self.has(cause, x);
        CAUSES.into_iter().filter(has).collect()
    }

    /// The transactions at fault, each with its causes.
    pub fn faults(&self) -> Vec<(usize, Vec<Cause>)> {
        let each = (0..self.transactions).map(|x| (x, self.causes(x)));
        each.filter(|(_, causes)| !causes.is_empty()).collect()
    }

    pub fn has_outside(&self) -> bool {
        let outside = |&(.., number): &Due| usize::from(number) >= self.transactions;
        self.records.iter().any(outside)
    }
}

/// Number 7, and then the answer. "Arrivals aren't looked at."
pub fn serves(table: &GroupTable, list: &[Transaction], bytes: &[u8]) -> Result<Served, Refusal> {
    if let Verdict::Broken { rule, record } = judge(table, bytes)? {
        return Ok(Served::Broken { rule, record });
    }
    let work = Work::of(table, list, &commands_of(bytes));
    let at_fault = (0..list.len()).find(|&x| !work.causes(x).is_empty());
    let outside = work.has_outside().then(|| list.len());
    Ok(match at_fault.or(outside) {
        Some(transaction) => Served::AtFault { transaction },
        None => Served::Serves,
    })
}
