//! What a broken record is too near to, and from when on it would be legal, for each rule.

use super::{commands, table, Random, A};
use crate::desk::Table;
use crate::near::{why, Why};
use skvorzhan::{Command, Verdict};

#[track_caller]
fn told(table: &Table, text: &str, rule: u32, near: Option<usize>, legal: Option<u32>) -> Why {
    let all = commands(text);
    let verdict = table.judge(&all).expect("it's judged").1;
    let record = all.len() as u32 - 1;
    let copy = 0;
    assert_eq!(verdict, Verdict::Broken { rule, copy, record }, "{text}");
    let found = why(table, &all, rule, record as usize);
    assert_eq!((found.near, found.legal), (near, legal), "{text}");
    found
}

fn with(changes: &[(usize, u16)]) -> Table {
    let mut numbers = A;
    for (place, number) in changes {
        numbers[*place] = *number;
    }
    table(numbers)
}

#[test]
fn of_one_bank() {
    let a = table(A);
    // RAS + RP, where RTP would allow 26; then RTP + RP, WL + B + WR + RP.
    told(
        &a,
        "0 ACT 0 0, 10 RDA 0 0, 30 ACT 0 0",
        4,
        Some(0),
        Some(38),
    );
    told(
        &a,
        "0 ACT 0 0, 10 RDA 0 0, 20 ACT 0 0",
        4,
        Some(0),
        Some(38),
    );
    told(
        &a,
        "0 ACT 0 0, 10 RD 0 0, 40 RDA 0 0, 50 ACT 0 0",
        4,
        Some(2),
        Some(56),
    );
    told(
        &a,
        "0 ACT 0 0, 10 WR 0 0, 28 RDA 0 0, 40 ACT 0 0",
        4,
        Some(2),
        Some(44),
    );
    let long_row = with(&[(7, 60)]);
    told(
        &long_row,
        "0 ACT 0 0, 10 RDA 0 0, 40 ACT 0 0",
        5,
        Some(0),
        Some(60),
    );
    // Rule 4 until 38, and rule 5 after it.
    let both = told(
        &long_row,
        "0 ACT 0 0, 10 RDA 0 0, 20 ACT 0 0",
        4,
        Some(0),
        Some(60),
    );
    assert_eq!(both.kept, Some(38));
    told(&a, "0 ACT 0 0, 9 RD 0 0", 8, Some(0), Some(10));
}

#[test]
fn of_several_banks() {
    let a = table(A);
    told(&a, "0 ACT 0 0, 5 ACT 1 0", 6, Some(0), Some(6));
    told(
        &a,
        "0 ACT 0 0, 6 ACT 1 0, 12 ACT 2 0, 18 ACT 3 0, 24 ACT 4 0",
        7,
        Some(0),
        Some(32),
    );
    told(
        &a,
        "0 ACT 0 0, 6 ACT 1 0, 10 RD 0 0, 16 WR 1 0",
        9,
        Some(2),
        Some(18),
    );
    told(
        &a,
        "0 ACT 0 0, 6 ACT 1 0, 10 WR 0 0, 20 RD 1 0",
        9,
        Some(2),
        Some(28),
    );
    told(&a, "0 ACT 0 0, 6 ACT 1 0, 6 ACT 2 0", 2, Some(1), Some(12));
    told(
        &a,
        "50 ACT 0 0, 60 ACT 1 0, 3 ACT 2 0",
        2,
        Some(1),
        Some(66),
    );
    // A neighbour in another group hides the older one of its own: 4 groups, long CCD 9, long RRD 20.
    let d = with(&[(16, 4), (17, 9), (18, 20), (19, 13)]);
    told(&d, "0 ACT 0 0, 6 ACT 1 0, 13 ACT 4 0", 6, Some(0), Some(20));
    told(
        &d,
        "0 ACT 0 0, 6 ACT 1 0, 20 RD 0 0, 24 RD 1 0, 28 RD 0 0",
        9,
        Some(2),
        Some(29),
    );
}

#[test]
fn of_refreshes() {
    let r = with(&[(15, 50)]);
    told(
        &r,
        "0 ACT 0 0, 10 RDA 0 0, 30 REF 0 0",
        11,
        Some(0),
        Some(38),
    );
    told(&r, "0 REF 0 0, 20 ACT 3 0", 12, Some(0), Some(50));
    told(&r, "0 REF 0 0, 49 REF 0 0", 12, Some(0), Some(50));
    let open = told(
        &r,
        "0 ACT 2 0, 6 ACT 5 0, 20 RDA 2 0, 200 REF 0 0",
        11,
        Some(1),
        None,
    );
    assert_eq!(open.open, [5]);
}

#[test]
fn that_no_cycle_makes_legal() {
    let a = table(A);
    told(&a, "0 6 0 0", 1, None, None);
    told(&a, "0 ACT 8 0", 1, None, None);
    told(&a, "0 REF 1 0", 1, None, None);
    told(&a, "0 RD 0 0", 3, None, None);
    told(&a, "0 ACT 0 0, 6 ACT 1 0, 20 ACT 0 0", 3, Some(0), None);
    told(&a, "0 ACT 0 0, 10 RDA 0 0, 20 RD 0 0", 3, Some(1), None);
    let all = commands("0 ACT 0 0, 6 ACT 1 0, 16 RDA 1 0");
    let found = why(&a, &all, 10, 3);
    let left = Why {
        near: Some(0),
        open: vec![0],
        ..Why::default()
    };
    assert_eq!(found, left);
}

#[test]
fn at_the_last_cycles() {
    let a = table(A);
    told(
        &a,
        "4294967290 ACT 0 0, 4294967294 RD 0 0",
        8,
        Some(0),
        None,
    );
    told(
        &a,
        "4294967285 ACT 0 0, 4294967294 RD 0 0",
        8,
        Some(0),
        Some(4_294_967_295),
    );
    told(
        &a,
        "0 ACT 0 0, 10 RDA 0 0, 4294967290 ACT 0 0, 4294967291 ACT 1 0",
        6,
        None,
        None,
    );
    told(
        &a,
        "4294967295 ACT 0 0, 4294967295 ACT 1 0",
        2,
        Some(0),
        None,
    );
}

/// The least legal cycle is the first that trying each in turn finds; and the one it is too near to is not later than the record before it.
#[test]
fn the_least_cycle_is_that_of_trying_each() {
    let mut random = Random(0x5eed_0011);
    let mut seen = [0; 13];
    for _ in 0..4000 {
        let numbers = any_table(&mut random);
        let table = table(numbers);
        let all = any_schedule(&mut random, numbers[1]);
        let (rule, record) = match table.judge(&all).expect("the table is in range").1 {
            Verdict::Broken { rule, record, .. } if rule != 10 => (rule, record as usize),
            _ => continue,
        };
        seen[rule as usize] += 1;
        let found = why(&table, &all, rule, record);
        let fine = |cycle: u32| {
            let mut part = all[..=record].to_vec();
            part[record].cycle = cycle;
            let told = table.judge(&part).expect("as before").1;
            !matches!(told, Verdict::Broken { record: r, .. } if r as usize == record)
        };
        let cycle = all[record].cycle;
        let first = (cycle..cycle + 600).find(|cycle| fine(*cycle));
        assert_eq!(found.legal, first, "rule {rule}");
        if (4..=9).contains(&rule) || rule == 12 {
            let near = found.near.expect("something is too near");
            assert!(near < record && all[near].cycle < cycle);
        }
    }
    for rule in [1, 2, 3, 4, 5, 6, 7, 8, 9, 11, 12] {
        assert!(seen[rule] > 0, "{seen:?}");
    }
}

fn any_table(random: &mut Random) -> [u16; 20] {
    let mut numbers = [0; 20];
    for number in &mut numbers {
        *number = 1 + random.below(40) as u16;
    }
    numbers[1] = 4 + random.below(5) as u16;
    numbers[2] = 1 + random.below(4) as u16;
    numbers[3] = 4;
    numbers[8] = 1 + random.below(6) as u16;
    numbers[9] = 1 + random.below(90) as u16;
    numbers[16] = 1 + random.below(4) as u16;
    for (long, short) in [(17, 3), (18, 8), (19, 14)] {
        numbers[long] = numbers[short] + random.below(8) as u16;
    }
    numbers
}

fn any_schedule(random: &mut Random, banks: u16) -> Vec<Command> {
    let mut cycle = 0;
    let step = 2 + random.below(60);
    let mut open = [false; 16];
    let one = |random: &mut Random| {
        let bank = random.below(banks.into()) as usize;
        let odd = random.below(40);
        let kind = match (odd, open[bank]) {
            (0, _) => random.below(8) as u8,
            (1 | 2 | 3, _) if !open.contains(&true) => 5,
            (_, true) => 1 + random.below(4) as u8,
            (_, false) => 0,
        };
        open[bank] = matches!(kind, 0 | 1 | 3);
        cycle += random.below(step) as u32 + u32::from(odd != 4);
        Command {
            cycle,
            kind,
            bank: if kind == 5 { 0 } else { bank as u8 },
            number: 0,
        }
    };
    std::iter::repeat_with({
        let mut one = one;
        move || one(random)
    })
    .take(24)
    .collect()
}
