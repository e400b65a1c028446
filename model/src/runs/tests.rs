//! What the cases meet.

mod engines;

use std::collections::{BTreeMap, BTreeSet};

use super::told::*;
use super::*;
use crate::desk::*;
use crate::house::*;
use crate::records::{EDITION, LATER, PLAIN};
use crate::stored;

/// What the paper prints for example 3, but for the last line, which request 4 gives.
#[test]
fn the_listing() {
    let head = [
        &[BUILD, 7, 0, 32][..],
        &[32, 0, 2, 0, 8, 0],
        &bytes_of(&TABLE_A),
    ]
    .concat();
    let lists = lines(&[&head[..], &[1, 0, 1, 1, 0, 0, 1, 1]].concat());
    let told = "build edition 7 commands 4\n0 ACT 0 0\n10 WRA 0 0\n44 ACT 0 1\n54 RDA 0 1\nfinish 0 10\nfinish 1 68\n";
    assert_eq!(lists, told);
    assert_eq!(lines(&head), "case\n");
    assert_eq!(lines(&[&[6], &head[..]].concat()), "case\n");
}

/// Exactly where the table is accepted and its edition is not the expected one.
#[test]
fn number_10() {
    let input = cases();
    let mut met: BTreeMap<&str, usize> = BTreeMap::new();
    for case in stored::read(&input, first_case).0 {
        let (name, answer) = told(&case);
        let edition = read_table(case.table).map_or(case.expected, |t| t[EDITION]);
        let differ = edition != case.expected;
        let refusal = Refusal {
            number: 10,
            position: edition.into(),
            edition,
        };
        assert_eq!(answer == Err(refusal), differ);
        *met.entry(name).or_default() += usize::from(differ);
    }
    assert!(met.len() == 5 && met.values().all(|&n| n > 1), "{met:?}");
}

/// All banks from every start are served, and a start or a BI one too great is refused, in builds and in runs.
#[test]
fn over_the_last_bank() {
    let input = cases();
    let (mut served, mut refused) = (BTreeSet::new(), BTreeSet::new());
    for case in stored::read(&input, first_case).0 {
        let (name, answer) = told(&case);
        let (list, of_record) = match case.asked {
            Asked::Build(b) => (b.list, b.of_record),
            Asked::Run(r) => (r.list, r.of_record),
            Asked::Bound(..) => continue,
        };
        let banks = case.table.get(2).copied().unwrap_or(0);
        let records = list.chunks_exact(of_record);
        let places = records.map(|x| (name, banks, x[1], x[2]));
        match answer {
            Ok(_) => served.extend(places),
            Err(r) if r.number == 4 => refused.extend(places.skip(r.position as usize).take(1)),
            Err(_) => (),
        }
    }
    for banks in [1, 2, 3, 5, 7, 8, 11, 13, 15, 16] {
        for start in 0..banks {
            assert!(served.contains(&("build", banks, start, banks)));
        }
        assert!(refused.contains(&("build", banks, banks, 1)));
        assert!(refused.contains(&("build", banks, 0, banks + 1)));
    }
    assert!(served.contains(&("run", 8, 3, 8)));
    assert!(refused.contains(&("run", 8, 8, 1)));
    assert!(refused.contains(&("run", 8, 7, 9)));
}

#[test]
fn every_refusal() {
    let input = cases();
    assert!(input.len() < 196_608);
    let told = lines(&input);
    assert!(told.ends_with("\ncase\n"));
    for (name, numbers) in [
        ("build", &[1, 2, 3, 4, 5, 6, 10][..]),
        ("build_later", &[1, 2, 3, 4, 5, 6, 10]),
        ("run", &[1, 2, 3, 4, 5, 9, 10, 12]),
        ("run_later", &[1, 2, 3, 4, 5, 9, 10, 12]),
        ("bound", &[1, 2, 4, 10]),
    ] {
        for number in 1..=12 {
            let start = format!("\n{name} refused {number} at ");
            assert_eq!(told.contains(&start), numbers.contains(&number), "{start}");
        }
    }
}

/// What the runs of the stored cases were asked and told.
struct Met {
    of_record: usize,
    count: u32,
    state: Controller,
    list: Vec<u8>,
    answer: Result<String, Refusal>,
}

fn runs() -> Vec<Met> {
    let input = cases();
    let mut met = Vec::new();
    for case in stored::read(&input, first_case).0 {
        let (_, answer) = told(&case);
        if let Asked::Run(r) = case.asked {
            met.push(Met {
                of_record: r.of_record,
                count: r.count,
                state: r.state,
                list: r.list.to_vec(),
                answer,
            });
        }
    }
    met
}

/// Late by one, in time by none, and empty, where some cycles are run and where none is; and the numbers that go before 12.
#[test]
fn pieces_in_time_and_late() {
    let mut met = BTreeSet::new();
    for run in runs() {
        let lent = run.state.lent as usize;
        let records: Vec<&[u8]> = run.list.chunks_exact(run.of_record).collect();
        let new = |x: &&[u8]| i64::from(Transaction::of(x).arrival) - i64::from(run.state.cycle);
        let number = run.answer.map_or_else(|r| r.number, |_| 0);
        // How long after the state's cycle the first new one arrives: none, for an empty piece.
        let after = records.get(lent).map(new);
        if run.list.len() % run.of_record == 0 && lent <= records.len() {
            assert!(number != 12 || after < Some(0) && after.is_some());
            met.insert((run.of_record, after, run.count > 0, number));
        }
    }
    for some in [false, true] {
        assert!(met.contains(&(LATER, Some(-1), some, 12)));
        for in_time in [Some(0), Some(1), None] {
            assert!(met.contains(&(LATER, in_time, some, 0)));
        }
    }
    assert!(met.contains(&(LATER, Some(-1), true, 9)));
    // "Numbers 3 and 4 are read over the whole list", also where nothing of it is new.
    assert!(met.contains(&(LATER, Some(-1), true, 4)) && met.contains(&(LATER, None, true, 4)));
    assert!(met.contains(&(PLAIN, Some(-1), true, 12)) && met.contains(&(PLAIN, Some(0), true, 0)));
}

/// Every run that is not refused, of no cycle too, leaves the list's length for what was lent before.
#[test]
fn what_was_lent() {
    let mut met = BTreeSet::new();
    for run in runs() {
        if let Ok(lines) = run.answer {
            let size = run.list.len() / run.of_record;
            assert!(lines.ends_with(&format!(" {size}\n")));
            met.insert((run.count > 0, size - run.state.lent as usize));
        }
    }
    for new in 0..=2 {
        assert!(met.contains(&(false, new)) && met.contains(&(true, new)));
    }
}
