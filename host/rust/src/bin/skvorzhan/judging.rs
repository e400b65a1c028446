//! The commands that end with a verdict: judge, pattern, trace, serves.

use crate::answer::{Answer, Status};
use crate::arguments::Given;
use crate::bad::Bad;
use crate::command_text::Commands;
use crate::copies::{why_in_copy, Broken};
use crate::desk::{self, Table};
use crate::list_text::{transaction_text, List};
use crate::near::why;
use crate::say;
use crate::wrote;
use skvorzhan::{Refusal, Served, Transaction, Verdict};

pub fn judge(given: &Given) -> Result<Answer, Bad> {
    let [place] = given.places(&["SCHEDULE"])?;
    let table = given.table()?;
    let (read, bytes) = desk::commands(&place)?;
    Ok(match table.judge_bytes(&bytes) {
        Err(refusal) => say::refused(refusal),
        Ok((edition, told)) => verdict(&table, edition, &read, told),
    })
}

/// A verdict on a schedule.
pub fn verdict(table: &Table, edition: u32, read: &Commands, told: Verdict) -> Answer {
    let mut answer = match told {
        Verdict::Accepted => say::accepted(edition, read.commands.len()),
        Verdict::Broken { rule, record, .. } => {
            let record = record as usize;
            let why = why(table, &read.commands, rule, record);
            say::broken(edition, read, rule, record, &why)
        }
    };
    other_edition(&mut answer, edition, read);
    answer
}

/// A listing says by which table it was built.
fn other_edition(answer: &mut Answer, edition: u32, read: &Commands) {
    if let Some(said) = read.edition.filter(|said| *said != edition) {
        let words = format!("note: its own first line names edition {said}");
        answer.add("first_line_edition", said, words);
    }
}

pub fn pattern(given: &Given) -> Result<Answer, Bad> {
    let [place] = given.places(&["PATTERN"])?;
    let length = given.number("--length", u32::MAX)?;
    let table = given.table()?;
    let (read, bytes) = desk::commands(&place)?;
    let length = length.or(read.length);
    let length = length.ok_or_else(|| {
        Bad::usage("expected --length L: the pattern's first line does not give its length")
    })?;
    let told = skvorzhan::judge_pattern(table.expected, &table.bytes, &bytes, length);
    let mut answer = match told {
        Err(refusal) => return Ok(say::refused(refusal)),
        Ok((edition, Verdict::Accepted)) => {
            let mut answer = Answer::of_edition(Status::Yes, edition);
            let count = say::commands(read.commands.len());
            let words = format!("accepted: every number of copies of the {count}, {length} cycles apart, is a legal schedule");
            answer.add("answer", "accepted", words);
            answer.add_silent("count", read.commands.len());
            answer
        }
        Ok((edition, Verdict::Broken { rule, copy, record })) => {
            let record = record as usize;
            let broken = Broken { rule, copy, record };
            let why = why_in_copy(&table, &read.commands, length, broken);
            say::broken_copy(edition, &read, length, broken, why.as_ref())
        }
    };
    answer.add_silent("length", length);
    Ok(answer)
}

pub fn trace(given: &Given) -> Result<Answer, Bad> {
    let [place] = given.places(&["CAPTURE"])?;
    let columns = given.columns()?;
    let table = given.table()?;
    let (capture, bytes) = desk::capture(&place, &columns)?;
    let mut room = vec![0; 2 * bytes.len()];
    let told = skvorzhan::judge_capture(table.expected, &table.bytes, &bytes, &mut room);
    let told = match told {
        Ok(told) => told,
        Err(refusal) => return Ok(refused_capture(refusal, &capture.lines)),
    };
    room.truncate(8 * told.commands as usize);
    let is_tick = |place: usize| {
        let r = &capture.records[place];
        (r.kind, r.bank) == (255, 0)
    };
    let lines = capture.lines.iter().enumerate();
    let read = Commands {
        commands: desk::commands_of(&room),
        lines: lines
            .filter(|(k, _)| !is_tick(*k))
            .map(|(_, l)| *l)
            .collect(),
        ..Commands::default()
    };
    let mut answer = verdict(&table, told.edition, &read, told.verdict);
    let ticks = capture.records.len() - read.commands.len();
    let words = format!(
        "the capture has {} and {ticks} ticks",
        say::commands(read.commands.len())
    );
    answer.add("ticks", ticks, words);
    wrote::commands(given, &mut answer, &read.commands, None)?;
    Ok(answer)
}

fn refused_capture(refusal: Refusal, lines: &[usize]) -> Answer {
    let mut answer = say::refused(refusal);
    if refusal.number == 11 {
        if let Some(line) = lines.get(refusal.position as usize) {
            answer.add("line", *line, format!("that record is of line {line}"));
        }
    }
    answer
}

pub fn serves(given: &Given) -> Result<Answer, Bad> {
    let [list, schedule] = given.places(&["LIST", "SCHEDULE"])?;
    let table = given.table()?;
    let list = desk::list(&list, given.flag("--later"))?;
    let (read, bytes) = desk::commands(&schedule)?;
    let told = served(&table, &list, &bytes);
    let (edition, transactions) = match decoded(&table, &list) {
        Ok(found) => found,
        Err(refusal) => return Ok(refused_list(refusal, &list)),
    };
    let count = transactions.len();
    let mut answer = match told {
        Err(refusal) => return Ok(say::refused(refusal)),
        Ok((edition, Served::Broken { rule, record })) => {
            let copy = 0;
            let broken = Verdict::Broken { rule, copy, record };
            let mut answer = verdict(&table, edition, &read, broken);
            answer.add(
                "serves",
                false,
                "so it does not serve the list: mend that record first",
            );
            return Ok(answer);
        }
        Ok((edition, Served::Serves)) => {
            let mut answer = Answer::of_edition(Status::Yes, edition);
            let words = format!("serves: the schedule is legal and does the work of the list, transactions: {count}");
            answer.add("answer", "serves", words);
            answer
        }
        Ok((_, Served::AtFault { transaction })) => {
            at_fault(edition, &list, &transactions, &read, transaction as usize)
        }
    };
    answer.add_silent("serves", answer.status == Status::Yes);
    answer.add_silent("transactions", count);
    other_edition(&mut answer, edition, &read);
    Ok(answer)
}

fn served(table: &Table, list: &List, schedule: &[u8]) -> Result<(u32, Served), Refusal> {
    let call = match list.later {
        true => skvorzhan::serves_later_bytes,
        false => skvorzhan::serves_bytes,
    };
    call(table.expected, &table.bytes, &list.bytes, schedule)
}

/// The list as the calls read it, and the table's edition.
pub fn decoded(table: &Table, list: &List) -> Result<(u32, Vec<Transaction>), Refusal> {
    let none = Transaction {
        kind: 0,
        start: 0,
        bi: 0,
        bc: 0,
        arrival: 0,
    };
    let mut all = vec![none; 256];
    let call = match list.later {
        true => skvorzhan::read_later_transactions,
        false => skvorzhan::read_transactions,
    };
    let told = call(table.expected, &table.bytes, &list.bytes, &mut all)?;
    all.truncate(told.transactions as usize);
    Ok((told.edition, all))
}

/// With the line of the transaction that number 4 names.
pub fn refused_list(refusal: Refusal, list: &List) -> Answer {
    let mut answer = say::refused(refusal);
    if refusal.number == 4 {
        if let Some(line) = list.lines.get(refusal.position as usize) {
            let words = format!("transaction {} is of line {line}", refusal.position);
            answer.add("line", *line, words);
        }
    }
    answer
}

const FAULT: &str = "a command of its is missing, repeated or not its own, a bank that it reads or writes was opened last under another number, \
a data command of its stands behind one that the queue places later, or its REF does not stand between the commands before it and those after it";

fn at_fault(
    edition: u32,
    list: &List,
    transactions: &[Transaction],
    read: &Commands,
    fault: usize,
) -> Answer {
    let mut answer = Answer::of_edition(Status::Against, edition);
    let found = match transactions.get(fault) {
        None => return outside(answer, read, fault),
        Some(found) => found,
    };
    let words = format!("transaction {fault} is at fault, the lowest that is");
    answer.add("answer", "at fault", words);
    answer.add_silent("transaction", fault);
    let line = list.lines.get(fault);
    let shown = line.map_or(String::new(), |line| format!(" (line {line})"));
    let text = transaction_text(found);
    let words = format!("transaction {fault}{shown}: {text}");
    answer.add("at_fault", text, words);
    answer.add("cause", FAULT, format!("cause: {FAULT}"));
    answer
}

/// Every transaction is served, and a record carries a number that no transaction has.
fn outside(mut answer: Answer, read: &Commands, count: usize) -> Answer {
    let words = "every transaction is served, but a record's number is outside the list";
    answer.add("answer", "outside the list", words);
    let stray = |c: &skvorzhan::Command| usize::from(c.number) >= count;
    if let Some(place) = read.commands.iter().position(stray) {
        let line = read.lines.get(place).copied();
        let c = &read.commands[place];
        let words = format!("the first is {}", say::command_words(place, line, c));
        answer.add("outside", say::command_value(place, line, c), words);
    }
    answer
}
