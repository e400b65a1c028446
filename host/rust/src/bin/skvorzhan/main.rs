//! `skvorzhan`: the desk's answers on the command line, each from the proved calls. `skvorzhan --help` says what there is.

mod answer;
mod arguments;
mod bad;
mod building;
mod capture_text;
mod command_text;
mod convert;
mod copies;
mod csv;
mod desk;
mod draw;
mod explain;
mod files;
mod help;
mod json;
mod judging;
mod list_text;
mod near;
mod picture;
mod promise;
mod refusals;
mod rules;
mod say;
mod table_text;
mod text;
mod wrote;

#[cfg(test)]
mod tests;

use answer::{Answer, Status};
use arguments::Given;
use bad::{shown, Bad};
use std::process::ExitCode;

fn main() -> ExitCode {
    let given = std::env::args_os().skip(1);
    let given: Result<Vec<String>, _> = given.map(|argument| argument.into_string()).collect();
    let status = match given {
        Ok(given) => run(&given),
        Err(_) => stop(&Bad::usage("expected arguments in UTF-8"), false),
    };
    ExitCode::from(status as u8)
}

/// What a command leaves to be printed.
enum Told {
    Answer(Answer),
    Help(String),
    /// It has gone where it belongs.
    Nothing(Status),
}

fn run(arguments: &[String]) -> Status {
    let json = arguments.iter().any(|argument| argument == "--json");
    let (text, status) = match told(arguments) {
        Ok(Told::Answer(answer)) if json => (answer.json(), answer.status),
        Ok(Told::Answer(answer)) => (answer.text(), answer.status),
        Ok(Told::Help(text)) => (text, Status::Yes),
        Ok(Told::Nothing(status)) => return status,
        Err(bad) => return stop(&bad, json),
    };
    match files::print(text.as_bytes()) {
        Ok(()) => status,
        Err(bad) => stop(&bad, false),
    }
}

/// Programs find it where the answers are, people beside them.
fn stop(bad: &Bad, json: bool) -> Status {
    let answer = Answer::bad(bad);
    if !json || files::print(answer.json().as_bytes()).is_err() {
        files::complain(&answer.text());
    }
    answer.status
}

fn told(arguments: &[String]) -> Result<Told, Bad> {
    let (name, rest) = match arguments {
        [] => {
            return Err(Bad::usage(
                "expected a command; `skvorzhan --help` names them",
            ))
        }
        [name, rest @ ..] => (name.as_str(), rest),
    };
    let command = match (name, rest) {
        ("--help" | "-h" | "help", []) => return Ok(Told::Help(help::of_all())),
        ("help", [name]) => return known(name).map(|command| Told::Help(help::of(command))),
        _ => known(name)?,
    };
    if rest
        .iter()
        .any(|argument| argument == "--help" || argument == "-h")
    {
        return Ok(Told::Help(help::of(command)));
    }
    let given = Given::parse(command, rest)?;
    let answer = match command.name {
        "judge" => judging::judge(&given)?,
        "pattern" => judging::pattern(&given)?,
        "trace" => judging::trace(&given)?,
        "serves" => judging::serves(&given)?,
        "schedule" => building::schedule(&given)?,
        "bound" => building::bound(&given)?,
        "shortest" => building::shortest(&given)?,
        "explain" => explain::explain(&given)?,
        "picture" => return draw::picture(&given),
        _ => return convert::convert(&given),
    };
    Ok(Told::Answer(answer))
}

fn known(name: &str) -> Result<&'static help::Command, Bad> {
    help::find(name).ok_or_else(|| {
        let all: Vec<&str> = help::COMMANDS.iter().map(|command| command.name).collect();
        let (all, found) = (all.join(", "), shown(name));
        Bad::usage(format!("expected a command, {all} or help, not {found}"))
    })
}
