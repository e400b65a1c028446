//! `model vectors ROOT` writes what the programs `hostile`, `verdicts`, `served`, `runs`, `listings`, `traces` and `patterns` are run on and what
//! they and `calls` must write.
//! `model listing` is the listing program: standard input, standard output; `model trace` is the program `trace`, `model pattern` the program
//! `pattern`.
//! `model examples ROOT` writes the example files with their texts.
//! `model hostile-listing FOLDER` writes inputs of the listing program and what it must print for each, `model hostile-trace FOLDER` those of
//! `trace`, `model hostile-pattern FOLDER` those of `pattern`.

use std::io::{self, Read, Write};
use std::path::Path;
use std::process::ExitCode;

use model::{
    examples, hostile_listing, hostile_pattern, hostile_trace, listing, pattern, trace, vectors,
};

const USAGE: &str = "usage: model vectors ROOT | listing | trace | pattern | examples ROOT
       | hostile-listing FOLDER | hostile-trace FOLDER | hostile-pattern FOLDER";

fn main() -> ExitCode {
    let args: Vec<String> = std::env::args().skip(1).collect();
    let done = match args.iter().map(String::as_str).collect::<Vec<_>>()[..] {
        ["vectors", root] => vectors::write(Path::new(root)),
        ["listing"] => filter(listing::listing),
        ["trace"] => filter(trace::trace),
        ["pattern"] => filter(pattern::pattern),
        ["examples", root] => examples::write(Path::new(root)),
        ["hostile-listing", folder] => hostile_listing::write(Path::new(folder)),
        ["hostile-trace", folder] => hostile_trace::write(Path::new(folder)),
        ["hostile-pattern", folder] => hostile_pattern::write(Path::new(folder)),
        _ => {
            eprintln!("{USAGE}");
            return ExitCode::from(2);
        }
    };
    match done {
        Ok(()) => ExitCode::SUCCESS,
        Err(e) => {
            eprintln!("model: {e}");
            ExitCode::FAILURE
        }
    }
}

fn filter(program: fn(&[u8]) -> String) -> io::Result<()> {
    let mut input = Vec::new();
    io::stdin().read_to_end(&mut input)?;
    io::stdout().write_all(program(&input).as_bytes())
}
