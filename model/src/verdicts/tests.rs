//! What the cases hold.

use std::collections::BTreeSet;

use super::told::{first_case, line, Case, JUDGE, JUDGE_PATTERN};
use super::*;
use crate::records::{read_table, EDITION};
use crate::stored;

/// Each case with its line.
fn all() -> Vec<(u8, usize, String)> {
    let input = cases();
    assert!(input.len() < 131_072);
    let (all, left) = stored::read(&input, first_case);
    assert_eq!(lines(left), "case\n");
    let told = |case: &Case| (case.call, case.bytes.len() / 8, line(case));
    all.iter().map(told).collect()
}

/// Exactly where the table is accepted and its edition is not the expected one.
#[test]
fn number_10() {
    let input = cases();
    let mut told = [0; 3];
    for case in stored::read(&input, first_case).0 {
        let edition = read_table(case.table).map_or(case.expected, |t| t[EDITION]);
        let differ = edition != case.expected;
        let end = format!(" refused 10 at {edition} edition {edition}");
        assert_eq!(line(&case).ends_with(&end), differ);
        if differ {
            told[usize::from(case.call)] += 1;
        }
    }
    assert!(told[0] == 0 && told[1] > 15 && told[2] > 15, "{told:?}");
}

/// The numbers in a line's words, the edition left out.
fn figures(line: &str) -> Vec<usize> {
    line.split(' ')
        .filter_map(|w| w.parse().ok())
        .skip(1)
        .collect()
}

#[test]
fn every_rule_at_every_place() {
    let mut seen = BTreeSet::new();
    for (_, count, line) in all().iter().filter(|(call, ..)| *call == JUDGE) {
        if let [rule, record] = figures(line)[..] {
            if line.contains("rule") {
                seen.insert((rule, "at", record));
                seen.insert((rule, "last", usize::from(record + 1 == *count)));
                seen.insert((
                    rule,
                    "middle",
                    usize::from(record > 0 && record + 1 < *count),
                ));
            }
        }
    }
    // The first record that can break each rule.
    let firsts = [
        (1, 0),
        (2, 1),
        (3, 0),
        (4, 2),
        (5, 2),
        (6, 1),
        (7, 4),
        (8, 1),
        (9, 2),
        (11, 1),
        (12, 1),
    ];
    for (rule, first) in firsts {
        assert!(seen.contains(&(rule, "at", first)), "rule {rule} first");
        assert!(seen.contains(&(rule, "last", 1)), "rule {rule} last");
        assert!(seen.contains(&(rule, "middle", 1)), "rule {rule} middle");
    }
    assert!(seen.contains(&(10, "at", 1)));
}

/// After the second copy only rule 7 is left: in the third with two or three ACTs in a copy, in the fifth with one.
#[test]
fn every_rule_in_every_copy() {
    let mut seen = BTreeSet::new();
    for (_, count, line) in all().iter().filter(|(call, ..)| *call == JUDGE_PATTERN) {
        if let [rule, copy, _] = figures(line)[..] {
            seen.insert((copy, rule));
            // With one record there is no bank to wait for: it's a REF.
            assert!(copy == 1 || *count > 1 || rule == 12);
        }
    }
    let first = (1..=12).map(|rule| (1, rule));
    let second = [2, 4, 5, 6, 7, 9, 11, 12].map(|rule| (2, rule));
    let later = [(3, 7), (5, 7)];
    assert!(seen.into_iter().eq(first.chain(second).chain(later)));
}
