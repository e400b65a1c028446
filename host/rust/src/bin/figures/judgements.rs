//! The judge of accepted schedules, beside ordinary judges of two kinds: by table A with 16 banks, and by table D, which has groups. An archive from
//! before a change is measured by the first alone.

use model::house::{bytes_of, TABLE_A, TABLE_D};
use skvorzhan::{schedule, Transaction};

use crate::archives::{self, Archive};
use crate::{beside, due, ordinary, Side, EDITION};

/// So many transactions of that BI and BC, none of which goes over the last of that many banks.
fn list(size: usize, bi: u8, bc: u8, banks: u8) -> Vec<Transaction> {
    let starts = usize::from(banks + 1 - bi.min(banks)).min(14);
    let one = |i: usize| Transaction {
        kind: (i % 3 == 1) as u8,
        start: if bi < 8 { (i * 5 % starts) as u8 } else { 0 },
        bi,
        bc,
        arrival: 0,
    };
    (0..size).map(one).collect()
}

/// Emulated, one judgement that looks back over all of the longest would take minutes: it's left out.
pub fn measure(emulated: bool) {
    // Table A with 16 banks, for the greatest list.
    let mut t = TABLE_A;
    t[1] = 16;
    let table = &bytes_of(&t)[..];
    for (records, size, bi, bc, repeats) in [
        (1_000, 125, 1, 7, 30),
        (8_000, 250, 2, 15, 10),
        (69_632, 256, 16, 16, if emulated { 1 } else { 3 }),
    ] {
        let title = format!("judge of {records} records, accepted");
        let looks_back = !emulated || records <= 8_000;
        let list = list(size, bi, bc, 16);
        assert_eq!(due(&list), records);
        one(&title, table, &list, repeats, archives::all(), looks_back);
    }
    let (table, list) = (bytes_of(&TABLE_D), list(250, 2, 15, 8));
    let title = "judge of 8000 records of table D, accepted";
    one(title, &table, &list, 10, archives::present(), true);
    println!("  ordinary Rust in two kinds: by the latest RD and WR of each group, and looking back over all earlier records for rule 9");
}

fn one(
    title: &str,
    table: &[u8],
    list: &[Transaction],
    repeats: usize,
    archives: Vec<Archive>,
    looks_back: bool,
) {
    let (mut room, mut finishes) = (vec![0; 8 * due(list)], vec![0; list.len()]);
    schedule(EDITION, table, list, &mut room, &mut finishes).expect("the list is accepted");
    let room = &room[..];
    let mut sides = Vec::new();
    for archive in archives {
        sides.push(Side {
            name: archive.name.to_string(),
            call: Box::new(move || assert!(archive.judge(EDITION, table, room))),
        });
    }
    for (back, name) in [
        (false, "ordinary, latest RD and WR"),
        (true, "ordinary, looking back"),
    ] {
        if back && !looks_back {
            continue;
        }
        sides.push(Side {
            name: name.to_string(),
            call: Box::new(move || {
                let told = ordinary::judge(EDITION, table, room, back);
                assert_eq!(told, Some(None));
            }),
        });
    }
    beside(title, repeats, 1, sides);
}
