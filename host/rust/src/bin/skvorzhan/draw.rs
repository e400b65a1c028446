//! The command `picture`: what the drawing shows is gathered here, from the calls and the files.

use crate::arguments::Given;
use crate::bad::Bad;
use crate::building::{build, Built};
use crate::command_text::Commands;
use crate::desk::{self, Table};
use crate::files::print;
use crate::judging::{refused_list, verdict};
use crate::list_text::List;
use crate::near::why;
use crate::picture::{svg, Broken, Finish, Scene};
use crate::rules::sentence;
use crate::say;
use crate::wrote;
use crate::Told;
use skvorzhan::{Command, Refusal, Verdict};

/// The picture goes to `-o`, and the verdict is told; without it the picture goes to standard output, and the verdict is the status alone.
pub fn picture(given: &Given) -> Result<Told, Bad> {
    let [place] = given.places(&["SCHEDULE"])?;
    let table = given.table()?;
    let later = given.flag("--later");
    let list = given.place("--list").map(|place| desk::list(&place, later));
    let list = list.transpose()?;
    let (read, bytes) = desk::commands(&place)?;
    let told = table
        .judge_bytes(&bytes)
        .and_then(|told| Ok((told, table.numbers()?)));
    let ((edition, told), numbers) = match told {
        Ok(told) => told,
        Err(refusal) => return Ok(Told::Answer(say::refused(refusal))),
    };
    let mut answer = verdict(&table, edition, &read, told);
    let finishes = match list {
        None => Vec::new(),
        Some(list) => match finishes(&table, &list, &read) {
            Ok(finishes) => finishes,
            Err(refusal) => return Ok(Told::Answer(refused_list(refusal, &list))),
        },
    };
    let scene = Scene {
        title: place.name().to_string(),
        edition,
        table: numbers,
        broken: broken(&table, &read, told),
        commands: read.commands,
        finishes,
    };
    let picture = svg(&scene);
    match given.place("-o") {
        Some(place) if !place.is_standard() => {
            wrote::to_file(&mut answer, &place, picture.as_bytes(), "the picture is in")?;
            Ok(Told::Answer(answer))
        }
        _ => {
            print(picture.as_bytes())?;
            Ok(Told::Nothing(answer.status))
        }
    }
}

fn broken(table: &Table, read: &Commands, told: Verdict) -> Option<Broken> {
    let (rule, record) = match told {
        Verdict::Accepted => return None,
        Verdict::Broken { rule, record, .. } => (rule, record as usize),
    };
    let why = why(table, &read.commands, rule, record);
    Some(Broken {
        record,
        rule,
        sentence: sentence(rule).to_string(),
        near: why.near,
        legal: why.legal,
    })
}

/// Of each transaction that the schedule has a last command of: where it finishes there, and by when the schedule that the library builds for this
/// list is promised to have finished it.
fn finishes(table: &Table, list: &List, read: &Commands) -> Result<Vec<Finish>, Refusal> {
    let built = build(table, list)?;
    let count = built.transactions.len();
    let found = (0..count).filter_map(|k| {
        let x = &built.transactions[k];
        let finish = finish_in(&built, k, &read.commands)?;
        Some(Finish {
            transaction: k,
            kind: x.kind,
            arrival: x.arrival,
            finish,
            promised: built.promised[k],
        })
    });
    Ok(found.collect())
}

/// From a transaction's last command to its finish it is as far as in the built schedule.
fn finish_in(built: &Built, transaction: usize, commands: &[Command]) -> Option<u32> {
    let last = |commands: &[Command]| {
        let own = |c: &&Command| usize::from(c.number) == transaction && c.kind != 0;
        commands.iter().rev().find(own).map(|c| c.cycle)
    };
    let tail = built.finishes[transaction].checked_sub(last(&built.commands)?)?;
    last(commands)?.checked_add(tail)
}
