//! What the answers have in common: a command, a refusal, a verdict, each as facts with their words.

use crate::answer::{Answer, Status};
use crate::command_text::Commands;
use crate::copies::{Broken, WhyInCopy};
use crate::json::Value;
use crate::near::Why;
use crate::refusals;
use crate::rules;
use crate::text::kind_text;
use skvorzhan::{Command, Refusal};

/// A record with its place in a file, and of a pattern its copy.
pub fn command_value(place: usize, line: Option<usize>, c: &Command) -> Value {
    let mut all = vec![("record", Value::from(place))];
    if line.is_some() {
        all.push(("line", line.into()));
    }
    all.extend([
        ("cycle", c.cycle.into()),
        ("kind", kind_text(c.kind).into()),
        ("bank", u32::from(c.bank).into()),
        ("transaction", u32::from(c.number).into()),
    ]);
    Value::Object(all)
}

pub fn command_words(place: usize, line: Option<usize>, c: &Command) -> String {
    let line = line.map_or(String::new(), |line| format!(" (line {line})"));
    let kind = kind_text(c.kind);
    format!(
        "record {place}{line}: cycle {}, {kind}, bank {}, transaction {}",
        c.cycle, c.bank, c.number
    )
}

pub fn refused(refusal: Refusal) -> Answer {
    let Refusal {
        number,
        position,
        edition,
    } = refusal;
    let mut answer = Answer::of_edition(Status::Refused, edition);
    answer.add(
        "answer",
        "refused",
        format!("refused {number} at {position}"),
    );
    answer.add_silent("refused", number);
    answer.add_silent("position", position);
    meaning(&mut answer, number);
    answer
}

/// Cause and cure.
pub fn meaning(answer: &mut Answer, number: u32) {
    if let Some(meaning) = refusals::of(number) {
        answer.add("cause", meaning.cause, format!("cause: {}", meaning.cause));
        answer.add(
            "position_is",
            meaning.position,
            format!("the position is {}", meaning.position),
        );
        answer.add("cure", meaning.cure, format!("cure: {}", meaning.cure));
        if !meaning.here.is_empty() {
            answer.add("here", meaning.here, meaning.here);
        }
    }
}

pub fn accepted(edition: u32, count: usize) -> Answer {
    let mut answer = Answer::of_edition(Status::Yes, edition);
    let words = format!(
        "accepted: every timing rule holds of the {}",
        commands(count)
    );
    answer.add("answer", "accepted", words);
    answer.add_silent("count", count);
    answer
}

pub fn commands(count: usize) -> String {
    match count {
        1 => "1 command".to_string(),
        n => format!("{n} commands"),
    }
}

/// A verdict against a schedule.
pub fn broken(edition: u32, read: &Commands, rule: u32, record: usize, why: &Why) -> Answer {
    let mut answer = Answer::of_edition(Status::Against, edition);
    let words = format!("record {record} breaks rule {rule}");
    the_rule(&mut answer, words, rule);
    let line = |place: usize| read.lines.get(place).copied();
    answer.add_silent("record", record);
    if let Some(c) = read.commands.get(record) {
        let value = command_value(record, line(record), c);
        answer.add("broken", value, command_words(record, line(record), c));
    }
    open_banks(&mut answer, &why.open);
    let near = why
        .near
        .and_then(|near| Some((near, read.commands.get(near)?)));
    if let Some((near, c)) = near {
        let words = format!(
            "{} {}",
            near_word(rule, &why.open),
            command_words(near, line(near), c)
        );
        answer.add("near", command_value(near, line(near), c), words);
    }
    least_legal(
        &mut answer,
        rule,
        why.kept.map(u64::from),
        why.legal.map(u64::from),
    );
    answer
}

/// A verdict against a pattern.
pub fn broken_copy(
    edition: u32,
    read: &Commands,
    length: u32,
    broken: Broken,
    why: Option<&WhyInCopy>,
) -> Answer {
    let Broken { rule, copy, record } = broken;
    let mut answer = Answer::of_edition(Status::Against, edition);
    let words = format!("copy {copy}, record {record} breaks rule {rule}");
    the_rule(&mut answer, words, rule);
    answer.add_silent("copy", copy);
    answer.add_silent("record", record);
    let line = |place: usize| read.lines.get(place).copied();
    let told = |copy: u32, place: usize, c: &Command| {
        let cycle = u64::from(length) * u64::from(copy - 1) + u64::from(c.cycle);
        let value = Value::Object(vec![
            ("copy", copy.into()),
            ("cycle_in_copies", cycle.into()),
            ("command", command_value(place, line(place), c)),
        ]);
        let words = command_words(place, line(place), c);
        (
            value,
            format!("copy {copy}, where it stands at cycle {cycle}, {words}"),
        )
    };
    if let Some(c) = read.commands.get(record) {
        let (value, words) = told(copy, record, c);
        answer.add("broken", value, words);
    }
    let why = match why {
        Some(why) => why,
        None => {
            let words =
                "so many copies are no schedule's size: what it is too near to was not asked";
            answer.add("not_asked", true, words);
            return answer;
        }
    };
    open_banks(&mut answer, &why.open);
    let near = why
        .near
        .and_then(|(copy, near)| Some((copy, near, read.commands.get(near)?)));
    if let Some((copy, near, c)) = near {
        let (value, words) = told(copy, near, c);
        answer.add(
            "near",
            value,
            format!("{} {words}", near_word(rule, &why.open)),
        );
    }
    least_legal(&mut answer, rule, why.kept, why.legal);
    answer
}

fn the_rule(answer: &mut Answer, words: String, rule: u32) {
    answer.add("answer", "broken", words);
    let sentence = rules::sentence(rule);
    answer.add_silent("rule", rule);
    answer.add("sentence", sentence, format!("rule {rule}: {sentence}"));
}

fn near_word(rule: u32, open: &[u8]) -> &'static str {
    match (rule, open) {
        (3, _) => "the bank's latest command before it is",
        (_, [_, ..]) => "the latest command to an open bank is",
        _ => "too near to",
    }
}

fn open_banks(answer: &mut Answer, open: &[u8]) {
    if open.is_empty() {
        return;
    }
    let banks: Vec<String> = open.iter().map(u8::to_string).collect();
    let words = format!("open: bank {}", banks.join(", bank "));
    let values: Vec<u32> = open.iter().map(|bank| u32::from(*bank)).collect();
    answer.add("open", values, words);
}

fn least_legal(answer: &mut Answer, rule: u32, kept: Option<u64>, legal: Option<u64>) {
    if let Some(cycle) = kept.filter(|_| kept != legal) {
        let words =
            format!("rule {rule} would be kept from cycle {cycle} on, and another then broken");
        answer.add("rule_kept", cycle, words);
    }
    let words = match legal {
        Some(cycle) => format!("the least cycle at which it would have been legal is {cycle}"),
        None if rule == 10 => return,
        None => "no cycle that a record can hold makes it legal there".to_string(),
    };
    answer.add("legal", legal, words);
}
