//! Figures: the archive's calls beside ordinary Rust on the same input in the same run, and beside an archive from before a change where
//! SKVORZHAN_BEFORE named one when this was built.
//!
//!     figures [--emulated]
//!     figures climb SEED SECONDS
//!
//! Emulated, the times are said to be no figures, and the longest of all is left out. A climb looks for the costliest search for a shortest
//! pattern.

mod archives;
mod builds;
mod captures;
mod climb;
mod engines;
mod judgements;
mod ordinary;
mod patterns;
mod serving;
mod steps;
mod waits;

use std::time::Instant;

use model::desk;
use model::house::TABLE_A;
use skvorzhan::Transaction;

/// Table A's edition.
const EDITION: u16 = TABLE_A[0];

/// What is measured beside what.
struct Side<'a> {
    name: String,
    call: Box<dyn FnMut() + 'a>,
}

/// Median, least and greatest.
fn spread(times: &[f64]) -> (f64, f64, f64) {
    let mut sorted = times.to_vec();
    sorted.sort_by(|a, b| a.partial_cmp(b).expect("times are numbers"));
    (
        sorted[sorted.len() / 2],
        sorted[0],
        sorted[sorted.len() - 1],
    )
}

fn in_units(seconds: f64) -> String {
    match seconds {
        s if s < 1e-5 => format!("{:.0} ns", s * 1e9),
        s if s < 1e-3 => format!("{:.1} us", s * 1e6),
        s if s < 1.0 => format!("{:.2} ms", s * 1e3),
        s => format!("{s:.2} s"),
    }
}

fn ratio(of: f64, to: f64) -> String {
    match of / to {
        r if r < 0.001 => format!("{r:.1e}"),
        r if r < 0.1 => format!("{r:.4}"),
        r => format!("{r:.2}"),
    }
}

/// The time of one call, in seconds, by as many as fill a hundredth of a second, but by twenty at most.
fn timed(call: &mut dyn FnMut()) -> f64 {
    let began = Instant::now();
    let mut calls = 0;
    loop {
        call();
        calls += 1;
        let seconds = began.elapsed().as_secs_f64();
        if calls == 20 || seconds > 0.01 {
            return seconds / f64::from(calls);
        }
    }
}

/// One after the other in each repeat, so that all meet the same hindrances. A call of a side does what is measured so many times. Prints the
/// times of each, and the first's as ratios.
fn beside(title: &str, repeats: usize, times_in_call: usize, mut sides: Vec<Side>) {
    let mut times = vec![Vec::new(); sides.len()];
    for _ in 0..repeats {
        for (side, times) in sides.iter_mut().zip(&mut times) {
            times.push(timed(&mut side.call) / times_in_call as f64);
        }
    }
    println!("{title} ({repeats} repeats)");
    let spreads: Vec<_> = times.iter().map(|times| spread(times)).collect();
    let width = sides.iter().map(|side| side.name.len()).max().unwrap_or(0);
    for (side, &(median, least, most)) in sides.iter().zip(&spreads) {
        let name = &side.name;
        let of_medians = ratio(spreads[0].0, median);
        let of_least = ratio(spreads[0].1, least);
        let (median, least, most) = (in_units(median), in_units(least), in_units(most));
        print!("  {name:width$}  median {median:>9}, least {least:>9}, greatest {most:>9}");
        println!("; the first's to it: of the medians {of_medians}, of the least {of_least}");
    }
}

fn due(list: &[Transaction]) -> usize {
    let one = |x: &Transaction| match x.kind {
        2 => 1,
        _ => usize::from(x.bi) * (1 + usize::from(x.bc)),
    };
    list.iter().map(one).sum()
}

fn for_model(list: &[Transaction]) -> Vec<desk::Transaction> {
    let one = |x: &Transaction| desk::Transaction {
        kind: x.kind,
        start: x.start,
        bi: x.bi,
        bc: x.bc,
        arrival: x.arrival,
    };
    list.iter().map(one).collect()
}

fn machine(emulated: bool) {
    let told = std::fs::read_to_string("/proc/cpuinfo").unwrap_or_default();
    let name = told.lines().find(|line| line.starts_with("model name"));
    let name = name
        .and_then(|line| line.split(':').nth(1))
        .unwrap_or(" not told");
    let cores = std::thread::available_parallelism().map_or(0, |n| n.get());
    let how = if emulated {
        "emulated: the times are no figures, only the ratios"
    } else {
        "not emulated"
    };
    println!("machine: {cores} processors,{name}; {how}; both sides built for release");
}

fn main() {
    let args: Vec<String> = std::env::args().skip(1).collect();
    if let [word, seed, seconds] = &args[..] {
        assert_eq!(word, "climb", "figures climb SEED SECONDS");
        let number = |text: &str| text.parse().expect("a number");
        return climb::climb(number(seed), number(seconds));
    }
    let emulated = args.iter().any(|word| word == "--emulated");
    machine(emulated);
    builds::measure();
    engines::measure(emulated);
    steps::measure(emulated);
    judgements::measure(emulated);
    captures::measure(emulated);
    serving::measure(emulated);
    patterns::measure(emulated);
    waits::measure(emulated);
}
