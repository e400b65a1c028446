//! Schedules that the judge accepts, looked for by what is at fault in them: each cause alone, each two of one transaction, and each two
//! of two transactions.

use std::collections::BTreeMap;

use crate::house::*;
use crate::records::{commands_of, whole};
use crate::rules::{judge, Verdict, ACT, REF, WRA};
use crate::scheduler::{dues, Due};
use crate::serves::{Cause, Work};

pub struct Fault {
    pub list: &'static [[u8; 4]],
    pub order: Vec<Due>,
    /// The transactions at fault, each with its causes.
    #[cfg_attr(not(test), allow(dead_code))]
    pub found: Vec<(usize, Vec<Cause>)>,
}

const LISTS: [&[[u8; 4]]; 4] = [
    &[[0, 0, 1, 2], [0, 0, 1, 1], REFRESH_BYTES, [1, 0, 1, 1]],
    &[REFRESH_BYTES, [1, 7, 2, 1], REFRESH_BYTES, [0, 7, 1, 2]],
    &[[0, 0, 1, 1], [1, 1, 1, 1], [0, 0, 1, 1]],
    &[[0, 0, 1, 2], REFRESH_BYTES, REFRESH_BYTES],
];

/// What is wanted of a schedule: one transaction at fault by a cause alone, one by two causes, whatever else, or two by one cause each, the
/// lower's first.
#[derive(Debug, Clone, Copy, PartialEq, Eq, PartialOrd, Ord)]
pub enum Wanted {
    Alone(Cause),
    Both(Cause, Cause),
    Two(Cause, Cause),
}

/// What these faults are wanted for.
pub fn shown(found: &[(usize, Vec<Cause>)]) -> Vec<Wanted> {
    match found {
        [(_, causes)] => {
            let mut all = Vec::new();
            for &a in causes {
                for &b in causes.iter().filter(|&&b| a < b) {
                    all.push(Wanted::Both(a, b));
                }
            }
            if let [cause] = causes[..] {
                all.push(Wanted::Alone(cause));
            }
            all
        }
        [(_, a), (_, b)] => match (&a[..], &b[..]) {
            (&[a], &[b]) => vec![Wanted::Two(a, b)],
            _ => Vec::new(),
        },
        _ => Vec::new(),
    }
}

/// A schedule for each that is wanted, with few causes and few records.
pub fn faults() -> Vec<Fault> {
    let mut best: BTreeMap<Wanted, Fault> = BTreeMap::new();
    let mut numbers = Numbers(1);
    let table = whole(&REFRESHED);
    for turn in 0..300_000 {
        let list = LISTS[turn % LISTS.len()];
        let transactions = transactions(list);
        let order = edited(&dues(&table, &transactions), list.len(), &mut numbers);
        let schedule = loose(&order);
        if judge(&table, &schedule) != Ok(Verdict::Accepted) {
            continue;
        }
        let records = commands_of(&schedule);
        let found = Work::of(&table, &transactions, &records).faults();
        for w in shown(&found) {
            let size = |f: &[(usize, Vec<Cause>)], o: &[Due]| {
                let causes: usize = f.iter().map(|(_, causes)| causes.len()).sum();
                (causes, o.len())
            };
            let fault = || Fault {
                list,
                order: order.clone(),
                found: found.clone(),
            };
            let old = best.entry(w).or_insert_with(fault);
            if size(&found, &order) < size(&old.found, &old.order) {
                *old = fault();
            }
        }
    }
    best.into_values().collect()
}

/// The list's commands, each bank's data behind its ACT, after some edits of whole visits and some of one command. Numbers go one past the
/// list.
fn edited(dues: &[Vec<Due>; 2], transactions: usize, numbers: &mut Numbers) -> Vec<Due> {
    let mut visits = visits_of(dues);
    for _ in 0..numbers.below(5) {
        let (at, to) = (numbers.below(visits.len()), numbers.below(visits.len()));
        let number = numbers.below(transactions + 1) as u16;
        match numbers.below(5) {
            0 => visits.swap(at, to),
            1 => visits.insert(to, visits[at].clone()),
            2 => {
                let bank = numbers.of(&[3, visits[at][0].1]);
                visits.insert(to, vec![(ACT, bank, number), (WRA, bank, number)]);
            }
            3 => visits.insert(to, vec![(REF, 0, number)]),
            _ => (visits[at][0].2, visits[to][0].2) = (visits[to][0].2, visits[at][0].2),
        }
    }
    let mut order = visits.concat();
    for _ in 0..numbers.below(3) {
        let (at, to) = (numbers.below(order.len()), numbers.below(order.len()));
        match numbers.below(4) {
            0 => order[at].2 = numbers.below(transactions + 1) as u16,
            1 => order.insert(at, order[to]),
            2 if order.len() > 1 => _ = order.remove(at),
            _ => (order[at].2, order[to].2) = (order[to].2, order[at].2),
        }
    }
    order
}

/// Each command of the ACT queue with the data commands that it opens the bank for.
pub fn visits_of([acts, datas]: &[Vec<Due>; 2]) -> Vec<Vec<Due>> {
    let visit = |act: &Due| {
        let own = |d: &&Due| (d.1, d.2) == (act.1, act.2);
        let opened = datas.iter().filter(own);
        [*act].into_iter().chain(opened.copied()).collect()
    };
    acts.iter().map(visit).collect()
}
