//! Puts random and hostile calls through the archive and through the model, and compares every number and every byte; and puts those of the
//! second engine beside the plain one's.
//!
//!     differ [COUNT] [--seed SEED] [--from INDEX]             COUNT calls, by default 1,000,000, and as many of the second engine; the seed is printed
//!     differ engines [COUNT] [--seed SEED] [--from INDEX]     those of the second engine that are drawn for the two engines alone
//!     differ again 'CASE'                                     one call, as a difference prints it
//!
//! Exit status 0 for no difference, 1 for one, which is made small and printed.

mod archive;
mod case;
mod compare;
mod engines;
mod expected;
mod groups;
mod lent;
mod make;
mod numbers;
mod pins;
mod shrink;
mod tally;
mod trap;

use std::process::ExitCode;
use std::time::{Instant, SystemTime, UNIX_EPOCH};

use archive::Archive;
use case::Case;
use compare::{against, difference, report, By};
use expected::{expected, refused};
use tally::Tally;

const USAGE: &str =
    "usage: differ [engines] [COUNT] [--seed SEED] [--from INDEX] | differ again 'CASE'";

struct Asked {
    count: u64,
    seed: u64,
    from: Option<u64>,
    /// The two engines alone.
    engines: bool,
}

fn asked(args: &[String]) -> Option<Asked> {
    let clock = SystemTime::now().duration_since(UNIX_EPOCH).ok()?;
    let mut asked = Asked {
        count: 1_000_000,
        seed: clock.as_micros() as u64 % 1_000_000_000,
        from: None,
        engines: false,
    };
    let mut args = args.iter();
    while let Some(word) = args.next() {
        match word.as_str() {
            "--seed" => asked.seed = args.next()?.parse().ok()?,
            "--from" => asked.from = Some(args.next()?.parse().ok()?),
            "engines" => asked.engines = true,
            count => asked.count = count.parse().ok()?,
        }
    }
    Some(asked)
}

fn main() -> ExitCode {
    let args: Vec<String> = std::env::args().skip(1).collect();
    if let [word, text] = &args[..] {
        if word == "again" {
            return again(text);
        }
    }
    match asked(&args) {
        Some(asked) => run(&asked),
        None => {
            eprintln!("{USAGE}");
            ExitCode::from(2)
        }
    }
}

fn again(text: &str) -> ExitCode {
    let case: Case = match text.parse() {
        Ok(case) => case,
        Err(e) => {
            eprintln!("differ: {e}");
            return ExitCode::from(2);
        }
    };
    trap::set(0);
    trap::at(trap::AGAIN);
    match difference(&mut Archive::new(), &case) {
        Ok((right, _)) => {
            println!("no difference; answer {:?}", right.answer);
            ExitCode::SUCCESS
        }
        Err(wrong) => {
            println!("{case}\n{wrong}");
            ExitCode::FAILURE
        }
    }
}

/// A case, and how it differs.
type Found = (Case, String);

/// The calls that are drawn, or those from an index on, and those that random ones seldom meet, through the archive and the model; each that the
/// second engine has once more by that. Answers what two bursts do on the pins that none may.
fn with_the_model(
    asked: &Asked,
    archive: &mut Archive,
    tally: &mut Tally,
) -> Result<Vec<String>, Found> {
    let Asked { count, seed, .. } = *asked;
    let mut wrong_pins = Vec::new();
    // Those that random ones seldom meet come last, and not where the run starts within.
    let last = match asked.from {
        None => make::last(),
        Some(_) => Vec::new(),
    };
    let from = asked.from.unwrap_or(0);
    let drawn = (from..from + count.saturating_sub(last.len() as u64)).map(|index| {
        trap::at(index);
        make::case(seed, index)
    });
    let last = last.into_iter().inspect(|_| trap::at(trap::LAST));
    for case in drawn.chain(last) {
        let (right, _) = difference(archive, &case).map_err(|wrong| (case.clone(), wrong))?;
        let other = case.call.expects() && case.expected != case.edition();
        let agreeing = other.then(|| expected(&case.agreeing(), &archive.noise));
        tally.add(&case, &right, agreeing.as_ref());
        if case.call.in_straight().is_some() {
            let second = case.by(true);
            if let Some(wrong) = against(archive, &second, &right, By::PlainEngine) {
                return Err((second, wrong));
            }
            tally.engines.add(&second, &right, By::PlainEngine);
        }
        if refused(&right.answer) == 0 {
            let (looked_at, clash) = pins::looked_at(&case, &right);
            tally.pins += u64::from(looked_at);
            wrong_pins.extend(clash.map(|clash| format!("{clash:?} on the pins: {case}")));
        }
    }
    Ok(wrong_pins)
}

/// States for the two engines alone, until as many are compared as were asked for.
fn engines_alone(asked: &Asked, archive: &mut Archive, tally: &mut Tally) -> Result<(), Found> {
    trap::of_engines();
    let set = match asked.from {
        None => make::for_engines(),
        Some(_) => Vec::new(),
    };
    let set = set.into_iter().inspect(|_| trap::at(trap::LAST));
    let drawn = (asked.from.unwrap_or(0)..).map(|index| {
        trap::at(index);
        make::case_for_engines(asked.seed, index)
    });
    for case in set.chain(drawn) {
        if tally.engines.total() >= asked.count {
            break;
        }
        let (right, by) = difference(archive, &case).map_err(|wrong| (case.clone(), wrong))?;
        tally.engines.add(&case, &right, by);
    }
    Ok(())
}

fn run(asked: &Asked) -> ExitCode {
    let Asked { count, seed, .. } = *asked;
    println!("{count} calls, seed {seed}");
    let mut archive = Archive::new();
    let mut tally = Tally::default();
    let began = Instant::now();
    trap::set(seed);
    let whole = asked.from.is_none() && !asked.engines;
    let mut compared = match asked.engines {
        true => Ok(Vec::new()),
        false => with_the_model(asked, &mut archive, &mut tally),
    };
    if compared.is_ok() && (whole || asked.engines) {
        let alone = engines_alone(asked, &mut archive, &mut tally);
        compared = compared.and_then(|wrong| alone.map(|()| wrong));
    }
    let mut wrong = match compared {
        Ok(wrong_pins) => wrong_pins,
        Err((case, wrong)) => {
            report(&mut archive, &case, &wrong);
            println!("{}, 1 difference (seed {seed})", tally.compared());
            return ExitCode::FAILURE;
        }
    };
    match asked.engines {
        true => tally.engines.print(),
        false => tally.print(),
    }
    if whole {
        let not_met = tally.not_met().into_iter();
        wrong.extend(not_met.map(|refusal| format!("not met: {refusal}")));
        match archive.long_lists() {
            Ok(calls) => println!(
                "{calls} calls with a list of {} entries that may not be touched, refused at once",
                archive::ENTRIES
            ),
            Err(told) => wrong.push(told),
        }
    }
    let seconds = began.elapsed().as_secs_f64();
    println!(
        "{seconds:.1} s, {:.0} calls a second, seed {seed}",
        tally.total() as f64 / seconds
    );
    for told in &wrong {
        println!("{told}");
    }
    let compared = tally.compared();
    if !wrong.is_empty() {
        println!("{compared}, 0 differences, and what stands above");
        return ExitCode::FAILURE;
    }
    println!("{compared}, 0 differences");
    ExitCode::SUCCESS
}
