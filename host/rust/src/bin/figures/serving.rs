//! Whether a built schedule of 69,632 records serves its list of 256 transactions, beside an ordinary check.

use model::desk::Served as ByModel;
use model::house::{bytes_of, TABLE_A};
use skvorzhan::{schedule, serves, serves_bytes, serves_later_bytes, Served, Transaction};

use crate::{beside, due, for_model, ordinary, Side, EDITION};

const RECORDS: usize = 69_632;

pub fn measure(emulated: bool) {
    // Table A with 16 banks, for the greatest list.
    let mut t = TABLE_A;
    t[1] = 16;
    let table = &bytes_of(&t)[..];
    let one = |i: usize| Transaction {
        kind: (i % 3 == 1) as u8,
        start: (i % 16) as u8,
        bi: 16,
        bc: 16,
        arrival: 0,
    };
    let list: Vec<Transaction> = (0..256).map(one).collect();
    let list = &list[..];
    assert_eq!(due(list), RECORDS);
    let plain = &for_model(list)[..];
    let (mut room, mut finishes) = (vec![0; 8 * RECORDS], vec![0; list.len()]);
    schedule(EDITION, table, list, &mut room, &mut finishes).expect("the list is accepted");
    let room = &room[..];
    let fours: Vec<u8> = plain.iter().flat_map(|x| x.four()).collect();
    let eights: Vec<u8> = plain.iter().flat_map(|x| x.eight()).collect();
    let yes = Ok((EDITION.into(), Served::Serves));
    let sides = vec![
        Side {
            name: "proved, lent list".to_string(),
            call: Box::new(move || assert_eq!(serves(EDITION, table, list, room), yes)),
        },
        Side {
            name: "proved, bytes".to_string(),
            call: Box::new(move || assert_eq!(serves_bytes(EDITION, table, &fours, room), yes)),
        },
        Side {
            name: "proved, bytes of 8".to_string(),
            call: Box::new(move || {
                assert_eq!(serves_later_bytes(EDITION, table, &eights, room), yes)
            }),
        },
        Side {
            name: "ordinary, lent list".to_string(),
            call: Box::new(move || {
                let told = ordinary::serves(EDITION, table, plain, room);
                assert_eq!(told, Some(ByModel::Serves));
            }),
        },
    ];
    let title = format!("whether a schedule of {RECORDS} records serves its 256 transactions, yes");
    beside(&title, if emulated { 1 } else { 30 }, 1, sides);
}
