//! What a refusal's number means, and what a rule says.

use crate::answer::{Answer, Status};
use crate::arguments::Given;
use crate::bad::{shown, Bad};
use crate::refusals::{self, MEANINGS};
use crate::rules::RULES;
use crate::say;
use crate::text::number;

pub fn explain(given: &Given) -> Result<Answer, Bad> {
    let words: Vec<&str> = given.files.iter().map(String::as_str).collect();
    match words[..] {
        ["rule", word] => rule(word),
        [word] => refusal(word),
        _ => Err(Bad::usage(
            "expected a refusal's number, as `explain 4`, or a rule's, as `explain rule 7`",
        )),
    }
}

fn refusal(word: &str) -> Result<Answer, Bad> {
    let found = number(word, "", u32::MAX).ok();
    let found = found.and_then(refusals::of).ok_or_else(|| {
        let most = MEANINGS.len();
        let found = shown(word);
        Bad::usage(format!("expected the number of a refusal, 1 to {most}, not {found}; a verdict's rule is explained by `explain rule N`"))
    })?;
    let mut answer = Answer::plain(Status::Yes);
    let words = format!("refusal {}", found.number);
    answer.add("refused", found.number, words);
    say::meaning(&mut answer, found.number);
    Ok(answer)
}

fn rule(word: &str) -> Result<Answer, Bad> {
    let asked = number(word, "", u32::MAX).ok();
    let found = RULES.iter().find(|rule| Some(rule.number) == asked);
    let found = found.ok_or_else(|| {
        let (most, found) = (RULES.len(), shown(word));
        Bad::usage(format!(
            "expected the number of a rule, 1 to {most}, not {found}"
        ))
    })?;
    let mut answer = Answer::plain(Status::Yes);
    let number = found.number;
    answer.add_silent("rule", number);
    let words = format!("rule {number} is broken when: {}", found.sentence);
    answer.add("sentence", found.sentence, words);
    answer.add("more", found.more, found.more);
    Ok(answer)
}
