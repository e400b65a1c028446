//! What the cases hold.

use std::collections::BTreeMap;

use super::faults::{faults, shown, Wanted};
use super::told::{first_case, line};
use super::*;
use crate::serves::CAUSES;
use crate::stored;

/// The line of each case, without the edition.
fn all() -> Vec<String> {
    let input = cases();
    assert!(input.len() < 131_072, "{}", input.len());
    let (all, left) = stored::read(&input, first_case);
    assert_eq!(lines(left), "case\n");
    all.iter().map(line).collect()
}

fn wanted() -> Vec<Wanted> {
    let mut all = Vec::new();
    for a in CAUSES {
        all.push(Wanted::Alone(a));
        for b in CAUSES {
            if a < b {
                all.push(Wanted::Both(a, b));
            }
            all.push(Wanted::Two(a, b));
        }
    }
    all
}

#[test]
fn every_cause_alone_and_with_every_other() {
    let found = faults();
    let shown: Vec<_> = found.iter().flat_map(|f| shown(&f.found)).collect();
    let lacking: Vec<_> = wanted()
        .into_iter()
        .filter(|w| !shown.contains(w))
        .collect();
    assert!(lacking.is_empty(), "{lacking:?}");
}

#[test]
fn every_answer() {
    let mut seen: BTreeMap<String, usize> = BTreeMap::new();
    for line in all() {
        let words: Vec<&str> = line.split(' ').collect();
        let kind = match words[..] {
            ["edition", _, "serves"] => "serves".to_string(),
            ["edition", _, "rule", rule, ..] => format!("rule {rule}"),
            ["edition", _, "transaction", x] => format!("transaction {x}"),
            ["refused", number, ..] => format!("refused {number}"),
            _ => "case".to_string(),
        };
        *seen.entry(kind).or_default() += 1;
    }
    println!("{seen:?}");
    for kind in ["serves", "rule 3", "rule 10", "rule 11", "case"] {
        assert!(seen.contains_key(kind), "{kind}");
    }
    for number in [1, 2, 10, 3, 4, 7] {
        assert!(seen[&format!("refused {number}")] > 5, "{number}");
    }
    for x in [0, 1, 2, 3, 9, 254, 255, 256] {
        assert!(seen.contains_key(&format!("transaction {x}")), "{x}");
    }
}
