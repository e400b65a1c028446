//! How often each call was made, and with what answers.

mod engines;

use std::ops::RangeInclusive;

use crate::case::{Call, Case, CALLS, COUNT, CYCLE};
use crate::expected::{refused, Outcome};
use crate::groups::broken_by;
use engines::Engines;

#[derive(Default)]
pub struct Tally {
    calls: [u64; COUNT],
    /// By the refusal's number; 0 is accepted.
    refused: [[u64; 14]; COUNT],
    /// With another edition expected than the table's: those refused by what goes before it, 1 and 2, and in place of 10 what would be told
    /// with the table's own; 0 is nothing.
    others: [[u64; 14]; COUNT],
    /// Not refused, with a transaction that goes over the last bank; of these, with one that takes all banks.
    over: [[u64; 2]; COUNT],
    /// Not refused, with a refresh.
    refreshes: [u64; COUNT],
    /// Not refused, with a transaction that arrives after cycle 0.
    arrivals: [u64; COUNT],
    /// Runs not refused, of a controller past cycle 0, that are lent more than before.
    pieces: [u64; COUNT],
    /// Not refused, with a table of 40 bytes; of these, with several groups.
    groups: [[u64; 2]; COUNT],
    /// Schedules under a table of several groups that break rule 6, and rule 9: by a command of the own group alone, by one of another group
    /// alone, by both, and by one that a command of another group hides.
    by_groups: [[u64; 4]; 2],
    /// By the broken rule; 0 is an accepted schedule, pattern or capture.
    rules: [[u64; 13]; 3],
    /// Broken patterns, by the copy from 1; the last place has all later ones.
    copies: [u64; 6],
    /// Captures not refused: with a tick, whose stamp goes round, and with a true cycle past 4,000,000,000.
    captures: [u64; 3],
    /// Whether a schedule serves a list: it does, the judge's verdict, a transaction at fault, the list's length.
    served: [[u64; 4]; COUNT],
    /// Shortest patterns, by how many commands they have.
    shortest: [u64; 7],
    /// Schedules, patterns and captures whose bursts were looked at on the pins.
    pub pins: u64,
    /// The second engine's calls.
    pub engines: Engines,
}

fn by_number(counts: &[u64; 14], numbers: RangeInclusive<usize>) -> String {
    let by: Vec<String> = numbers
        .filter(|&number| counts[number] > 0)
        .map(|number| format!("{number}: {}", counts[number]))
        .collect();
    by.join(", ")
}

impl Tally {
    /// `agreeing` is what the model says with the table's own edition expected, where the case expects another.
    pub fn add(&mut self, case: &Case, told: &Outcome, agreeing: Option<&Outcome>) {
        let call = case.call;
        let number = refused(&told.answer);
        self.calls[call as usize] += 1;
        self.refused[call as usize][number] += 1;
        if let Some(agreeing) = agreeing {
            self.others[call as usize][refused(&agreeing.answer)] += 1;
        }
        if number == 0 {
            let wraps = case.wraps();
            self.over[call as usize][0] += u64::from(!wraps.is_empty());
            self.over[call as usize][1] += u64::from(wraps.contains(&true));
            self.refreshes[call as usize] += u64::from(case.refreshes());
            self.arrivals[call as usize] += u64::from(case.arrives());
            let goes_on = case.state[CYCLE] > 0 && case.lends_more();
            self.pieces[call as usize] += u64::from(goes_on);
            let long = call.expects() && case.table.len() == 40;
            self.groups[call as usize][0] += u64::from(long);
            self.groups[call as usize][1] += u64::from(long && case.numbers()[16] > 1);
        }
        if number > 0 {
            return;
        }
        match call {
            Call::Judge => {
                let [rule, record] = [told.answer[3], told.answer[5]].map(|n| n as usize);
                self.rules[0][rule] += 1;
                if let (6 | 9, Some(by)) = (rule, broken_by(case, record)) {
                    let counts = &mut self.by_groups[usize::from(rule == 9)];
                    counts[0] += u64::from(by.within && !by.across);
                    counts[1] += u64::from(by.across && !by.within);
                    counts[2] += u64::from(by.within && by.across);
                    counts[3] += u64::from(by.hidden);
                }
            }
            Call::JudgePattern => {
                self.rules[1][told.answer[3] as usize] += 1;
                let copy = told.answer[4] as usize;
                if copy > 0 {
                    self.copies[copy.min(6) - 1] += 1;
                }
            }
            Call::JudgeCapture => {
                self.rules[2][told.answer[4] as usize] += 1;
                let (ticks, wraps) = case.ticks_and_wraps();
                for (count, met) in self.captures.iter_mut().zip([
                    ticks > 0,
                    wraps > 0,
                    wraps * 65_536 > 4_000_000_000,
                ]) {
                    *count += u64::from(met);
                }
            }
            call if call.serves() => {
                let told = &told.answer[3..];
                let length = told[3] as usize == case.list().len();
                let kind = match (told[0], told[1]) {
                    (1, _) => 0,
                    (_, 0) => 2 + usize::from(length),
                    _ => 1,
                };
                self.served[call as usize][kind] += 1;
            }
            Call::ShortestPattern => self.shortest[told.answer[4] as usize] += 1,
            _ => (),
        }
    }

    /// The refusals that were not met, and verdicts by groups, in words.
    pub fn not_met(&self) -> Vec<String> {
        let mut all = self.engines.not_met();
        if self.pins == 0 {
            all.push("a schedule on the data pins".to_owned());
        }
        if self.shortest[2..].contains(&0) {
            all.push(format!(
                "shortest patterns of 2 to 6 commands: {:?}",
                &self.shortest[2..]
            ));
        }
        for (rule, counts) in [6, 9].iter().zip(&self.by_groups) {
            if counts.contains(&0) {
                all.push(format!("rule {rule} in each way by groups: {counts:?}"));
            }
        }
        for (at, (call, name)) in CALLS.iter().enumerate() {
            if call.serves() && self.served[at].contains(&0) {
                all.push(format!("{name} with each answer: {:?}", self.served[at]));
            }
            if call.runs() && call.of_record() == 8 && self.pieces[at] == 0 {
                all.push(format!("{name} with a new piece, in time"));
            }
            for &number in call.refusals() {
                if self.refused[at][number] == 0 {
                    all.push(format!("{name} by {number}"));
                }
            }
        }
        all
    }

    pub fn total(&self) -> u64 {
        self.with_the_model() + self.engines.total()
    }

    fn with_the_model(&self) -> u64 {
        self.calls.iter().sum()
    }

    /// How many of both kinds, in words.
    pub fn compared(&self) -> String {
        let (first, second) = (self.with_the_model(), self.engines.total());
        format!("{first} calls compared with the model, {second} of the second engine with the plain one's")
    }

    pub fn print(&self) {
        println!(
            "{:34}{:>9}{:>9}  refused, by number; each again with all that is lent in read-only pages",
            "", "calls", "not ref."
        );
        for (at, (_, name)) in CALLS.iter().enumerate() {
            let by = by_number(&self.refused[at], 1..=13);
            let (calls, accepted) = (self.calls[at], self.refused[at][0]);
            println!("{name:34}{calls:>9}{accepted:>9}  {by}");
        }
        self.engines.print();
        println!("with another edition expected: refused as 1 and 2; as 10, by what else there was to refuse");
        for (at, (call, name)) in CALLS.iter().enumerate() {
            if call.expects() {
                let [nothing, first, second, ..] = self.others[at];
                let rest = by_number(&self.others[at], 3..=13);
                println!("{name:34}  1: {first}, 2: {second}; 10 with nothing: {nothing}  {rest}");
            }
        }
        println!("not refused, with a transaction that goes over the last bank; of these, with one that takes all banks");
        for (at, (_, name)) in CALLS.iter().enumerate() {
            let [some, all] = self.over[at];
            if some > 0 {
                println!("{name:34}{some:>9}{all:>9}");
            }
        }
        for (what, counts) in [
            ("not refused, with a refresh", &self.refreshes),
            (
                "not refused, with a transaction that arrives later",
                &self.arrivals,
            ),
            (
                "not refused past cycle 0, and lent more than before",
                &self.pieces,
            ),
        ] {
            let by: Vec<String> = (0..COUNT)
                .filter(|&at| counts[at] > 0)
                .map(|at| format!("{}: {}", CALLS[at].1, counts[at]))
                .collect();
            println!("{what}: {}", by.join(", "));
        }
        println!("not refused, by a table of 40 bytes; of these, with several groups");
        for (at, (_, name)) in CALLS.iter().enumerate() {
            let [some, several] = self.groups[at];
            if some > 0 {
                println!("{name:34}{some:>9}{several:>9}");
            }
        }
        for (name, rules) in ["schedules", "patterns", "captures"]
            .iter()
            .zip(&self.rules)
        {
            let by: Vec<String> = (1..=12)
                .map(|rule| format!("{rule}: {}", rules[rule]))
                .collect();
            println!(
                "{name}: {} accepted; broken, by rule: {}",
                rules[0],
                by.join(", ")
            );
        }
        let [first, second, third, fourth, fifth, later] = self.copies;
        println!(
            "patterns broken, by copy: 1: {first}, 2: {second}, 3: {third}, 4: {fourth}, 5: {fifth}, later: {later}"
        );
        for (rule, [within, across, both, hidden]) in [6, 9].iter().zip(&self.by_groups) {
            println!("schedules of several groups that break rule {rule}: within a group {within}, across {across}, both {both}; by a hidden command {hidden}");
        }
        for (at, (call, name)) in CALLS.iter().enumerate() {
            if call.serves() {
                let [serves, against, fault, length] = self.served[at];
                println!("{name:34}serves: {serves}, the judge's verdict: {against}, a transaction at fault: {fault}, the list's length: {length}");
            }
        }
        let [ticks, wraps, late] = self.captures;
        println!("captures not refused, with ticks: {ticks}, with stamps that go round: {wraps}, past cycle 4,000,000,000: {late}");
        let [_, _, two, three, four, five, six] = self.shortest;
        println!(
            "shortest patterns, by commands: 2: {two}, 3: {three}, 4: {four}, 5: {five}, 6: {six}"
        );
        println!(
            "accepted, built or found, and looked at on the data pins, patterns in three copies: {}",
            self.pins
        );
    }
}
