//! The commands that make something: schedule, bound, shortest.

use crate::answer::{Answer, Status};
use crate::arguments::Given;
use crate::bad::Bad;
use crate::command_text;
use crate::desk::{self, Table, MOST_RECORDS};
use crate::json::Value;
use crate::judging::{decoded, refused_list};
use crate::list_text::List;
use crate::promise::{promised, read_tail};
use crate::say;
use crate::wrote;
use skvorzhan::{Command, Refusal, Transaction};

pub struct Built {
    pub edition: u32,
    pub commands: Vec<Command>,
    pub transactions: Vec<Transaction>,
    pub finishes: Vec<u32>,
    pub promised: Vec<u32>,
}

pub fn build(table: &Table, list: &List) -> Result<Built, Refusal> {
    let mut room = vec![0; 8 * MOST_RECORDS];
    let mut finishes = vec![0; 256];
    let call = match list.later {
        true => skvorzhan::schedule_straight_later_bytes,
        false => skvorzhan::schedule_straight_bytes,
    };
    let (expected, bytes) = (table.expected, &table.bytes);
    let told = call(expected, bytes, &list.bytes, &mut room, &mut finishes)?;
    room.truncate(8 * told.commands as usize);
    let (edition, transactions) = decoded(table, list)?;
    finishes.truncate(transactions.len());
    let promised = promised(table, &transactions, &finishes)?;
    Ok(Built {
        edition,
        commands: desk::commands_of(&room),
        transactions,
        finishes,
        promised,
    })
}

pub fn schedule(given: &Given) -> Result<Answer, Bad> {
    let [place] = given.places(&["LIST"])?;
    let table = given.table()?;
    let list = desk::list(&place, given.flag("--later"))?;
    let built = match build(&table, &list) {
        Ok(built) => built,
        Err(refusal) => return Ok(refused_list(refusal, &list)),
    };
    let first = format!(
        "edition {} commands {}",
        built.edition,
        built.commands.len()
    );
    let mut answer = Answer::of_edition_as(Status::Yes, built.edition, first.clone());
    answer.add_silent("answer", "built");
    listed(&mut answer, &built.commands);
    finishes(&mut answer, &built);
    wrote::commands(given, &mut answer, &built.commands, Some(first))?;
    Ok(answer)
}

fn listed(answer: &mut Answer, commands: &[Command]) {
    let values: Vec<Value> = commands
        .iter()
        .enumerate()
        .map(|(k, c)| say::command_value(k, None, c))
        .collect();
    if commands.is_empty() {
        return answer.add_silent("commands", values);
    }
    let lines = command_text::write(commands);
    answer.add("commands", values, lines.trim_end());
}

/// The listing's lines, with the promise in a comment, so that the whole can be read as a schedule again.
fn finishes(answer: &mut Answer, built: &Built) {
    let both = built.finishes.iter().zip(&built.promised).enumerate();
    let value = |(k, (finish, promised)): (usize, (&u32, &u32))| {
        Value::Object(vec![
            ("transaction", k.into()),
            ("finish", (*finish).into()),
            ("promised", (*promised).into()),
        ])
    };
    let values: Vec<Value> = both.clone().map(value).collect();
    if values.is_empty() {
        return answer.add_silent("finishes", values);
    }
    let lines =
        both.map(|(k, (finish, promised))| format!("finish {k} {finish} # promised by {promised}"));
    let lines: Vec<String> = lines.collect();
    answer.add("finishes", values, lines.join("\n"));
}

pub fn bound(given: &Given) -> Result<Answer, Bad> {
    let [] = given.places(&[])?;
    let (bi, bc) = (given.byte("--bi")?, given.byte("--bc")?);
    let from = given.number("--from", u32::MAX)?;
    let table = given.table()?;
    let told = skvorzhan::bound(table.expected, &table.bytes, bi, bc);
    let told = told.and_then(|told| Ok((told, table.numbers()?)));
    let ((edition, bound), numbers) = match told {
        Ok(told) => told,
        Err(refusal) => return Ok(say::refused(refusal)),
    };
    let tail = read_tail(&numbers);
    let mut answer = Answer::of_edition(Status::Yes, edition);
    let words = format!("the bound for BI {bi}, BC {bc} is {bound} cycles");
    answer.add("answer", "bound", words);
    answer.add_silent("bound", bound);
    let read = bound + tail;
    match from {
        None => {
            answer.add("write_within", bound, format!(
                "the last data command comes at most {bound} cycles after the count starts, and a write has then finished"
            ));
            answer.add(
                "read_within",
                read,
                format!("a read has finished at most {read} cycles after it: RL + B is {tail}"),
            );
        }
        Some(from) => {
            let at = |within: u32| u64::from(from) + u64::from(within);
            let (write_by, read_by) = (at(bound), at(read));
            answer.add_silent("from", from);
            answer.add("write_by", write_by, format!(
                "counted from cycle {from}, the last data command comes by cycle {write_by}, and a write has then finished"
            ));
            answer.add(
                "read_by",
                read_by,
                format!("a read has finished by cycle {read_by}: RL + B is {tail}"),
            );
        }
    }
    answer.add("counted_from", COUNTED, COUNTED);
    Ok(answer)
}

const COUNTED: &str = "the count starts at the later of its arrival and the last command of the transaction before it (that one's finish, where it is a refresh); \
for the first, at its arrival";

pub fn shortest(given: &Given) -> Result<Answer, Bad> {
    let [] = given.places(&[])?;
    let kind = match (given.flag("--read"), given.flag("--write")) {
        (true, false) => 0,
        (false, true) => 1,
        _ => return Err(Bad::usage("expected one of --read and --write")),
    };
    let (bi, bc) = (given.byte("--bi")?, given.byte("--bc")?);
    let most = given.number("--up-to", u32::MAX)?.unwrap_or(128);
    let table = given.table()?;
    let mut room = [0; 8 * 6];
    let told =
        skvorzhan::shortest_pattern(table.expected, &table.bytes, kind, bi, bc, most, &mut room);
    let told = match told {
        Ok(told) => told,
        Err(refusal) => return Ok(say::refused(refusal)),
    };
    let commands = desk::commands_of(&room[..8 * told.commands as usize]);
    let (edition, length) = (told.edition, told.length);
    let first = format!(
        "edition {edition} length {length} commands {}",
        commands.len()
    );
    let mut answer = Answer::of_edition_as(Status::Yes, edition, first.clone());
    answer.add_silent("answer", "shortest");
    answer.add_silent("length", length);
    listed(&mut answer, &commands);
    wrote::commands(given, &mut answer, &commands, Some(first))?;
    Ok(answer)
}
