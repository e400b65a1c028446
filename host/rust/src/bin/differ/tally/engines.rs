//! The second engine's calls, each of which was held against the plain one's.

use super::by_number;
use crate::case::{Case, CYCLE, STRAIGHT};
use crate::compare::By;
use crate::expected::{refused, Outcome};

const LAST_CYCLE: u32 = 100_000_000;

#[derive(Default)]
pub struct Engines {
    /// By the refusal's number; 0 is accepted.
    refused: [[u64; 14]; STRAIGHT.len()],
    /// Runs that are not refused, by what ended them: the list was served, the count, the last cycle.
    ended: [u64; 3],
    /// Runs of one cycle at least in which no command left.
    idle: u64,
    /// The cycles of all runs at which none did.
    passed_over: u64,
    /// Held against the model's second engine, since the plain one would have walked for long.
    by_model: u64,
}

impl Engines {
    pub fn add(&mut self, case: &Case, told: &Outcome, by: By) {
        let at = case.call.in_straight().expect("it has both engines");
        let number = refused(&told.answer);
        self.refused[at][number] += 1;
        self.by_model += u64::from(by == By::Model);
        let state = match &told.state {
            Some(state) if number == 0 => state,
            _ => return,
        };
        let [commands, cycles] = [told.answer[3], told.answer[4]];
        let end = match (state[CYCLE], cycles) {
            (LAST_CYCLE, _) => 2,
            (_, cycles) if cycles == case.count() => 1,
            _ => 0,
        };
        self.ended[end] += 1;
        self.idle += u64::from(cycles > 0 && commands == 0);
        self.passed_over += u64::from(cycles - commands);
    }

    pub fn total(&self) -> u64 {
        self.refused.iter().flatten().sum()
    }

    /// In words.
    pub fn not_met(&self) -> Vec<String> {
        let mut all = Vec::new();
        let counts = [&self.ended[..], &[self.idle]].concat();
        if counts.contains(&0) {
            all.push(format!("runs of the second engine in each way: {counts:?}"));
        }
        for ((call, name), counts) in STRAIGHT.iter().zip(&self.refused) {
            let missed = call.refusals().iter().filter(|&&n| counts[n] == 0);
            all.extend(missed.map(|number| format!("{name} by {number}")));
        }
        all
    }

    /// As the rows of the plain calls.
    pub fn print(&self) {
        for ((_, name), counts) in STRAIGHT.iter().zip(&self.refused) {
            let (calls, accepted) = (counts.iter().sum::<u64>(), counts[0]);
            let by = by_number(counts, 1..=13);
            println!("{name:34}{calls:>9}{accepted:>9}  {by}");
        }
        let [served, count, last] = self.ended;
        println!("runs of the second engine, not refused, by what ended them: the list served: {served}, the count: {count}, cycle 100,000,000: {last}");
        let (idle, cycles, by_model) = (self.idle, self.passed_over, self.by_model);
        println!("in which no command left: {idle}; cycles passed over in all: {cycles}; held against the model's second engine, where the plain one would walk for long: {by_model}");
    }
}
