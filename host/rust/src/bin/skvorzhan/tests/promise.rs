//! Promised finishes.

use super::{table, Random, A};
use crate::building::build;
use crate::list_text;
use crate::promise::promised;
use skvorzhan::Transaction;

const REFRESH: Transaction = Transaction {
    kind: 2,
    start: 0,
    bi: 0,
    bc: 0,
    arrival: 0,
};

fn any_table(random: &mut Random, most: u64) -> [u16; 20] {
    let mut t = [0; 20];
    for number in &mut t {
        *number = 1 + random.below(most) as u16;
    }
    t[1] = 1 + random.below(16) as u16;
    t[3] = t[3].max(t[2]).max(2);
    t[16] = 1 + random.below(u64::from(t[1]).min(8)) as u16;
    for (long, short) in [(17, 3), (18, 8), (19, 14)] {
        t[long] = t[long].max(t[short]);
    }
    t
}

/// Document 01's S, with the long RRD.
fn s(t: &[u16; 20]) -> u32 {
    let n = |place: usize| u32::from(t[place]);
    let less = |place: usize| n(place).saturating_sub(n(4));
    let all = [
        1,
        less(6) + n(5),
        less(7),
        n(12) + n(5),
        n(11) + n(2) + n(13) + n(5),
        less(18),
        less(9),
    ];
    all.into_iter().max().unwrap_or(0)
}

/// The first refresh's promise is S + RFC: what is asked of the bound is S for every table, also where X is above S + RCD.
#[test]
fn a_refresh_is_promised_within_s() {
    let mut random = Random(0x5eed_0021);
    for round in 0..20_000 {
        let most = [10, 100, 1023][round % 3];
        let numbers = any_table(&mut random, most);
        let told = promised(&table(numbers), &[REFRESH], &[0]);
        let right = s(&numbers) + u32::from(numbers[15]);
        assert_eq!(told, Ok(vec![right]), "{numbers:?}");
    }
    let mut last = [1023; 20];
    last[1] = 16;
    last[16] = 8;
    assert_eq!(
        promised(&table(last), &[REFRESH], &[0]),
        Ok(vec![s(&last) + 1023])
    );
}

/// Each transaction of a built schedule finishes by when it is promised, and some just then.
#[test]
fn what_is_built_keeps_its_promise() {
    let mut random = Random(0x5eed_0022);
    let mut met = 0;
    for _ in 0..400 {
        let numbers = any_table(&mut random, 30);
        let banks = u64::from(numbers[1]);
        let mut arrival = 0;
        let text: String = (0..1 + random.below(12))
            .map(|_| {
                arrival += random.below(2) * random.below(200);
                let (start, bi) = (random.below(banks), 1 + random.below(banks));
                match random.below(5) {
                    0 => format!("refresh at {arrival}\n"),
                    k => format!(
                        "{} {start} {bi} {} at {arrival}\n",
                        k % 2,
                        1 + random.below(3)
                    ),
                }
            })
            .collect();
        let list = list_text::read("", &text).expect("a list");
        let built = build(&table(numbers), &list).expect("it's in range");
        let both = built.finishes.iter().zip(&built.promised);
        for (finish, promised) in both {
            assert!(finish <= promised, "{numbers:?}\n{text}");
            met += u32::from(finish == promised);
        }
    }
    assert!(met > 0);
}

#[test]
fn example_3_meets_it_exactly() {
    let list = list_text::read("", "write 0 1 1\nread 0 1 1\n").expect("a list");
    let built = build(&table(A), &list).expect("it's in range");
    assert_eq!(built.finishes, [10, 68]);
    assert_eq!(built.promised, [44, 68]);
}
