//! The cases of the program `listings`, each an input of the listing program behind its length in two bytes, and the text of each behind a
//! line `case`.

use crate::examples;
use crate::house::*;
use crate::inputs::{self, input, own};
use crate::listing::listing;
use crate::records::{BANKS, CCD, EDITION, RFC};

const RCD: usize = 4;
const RP: usize = 5;
const RAS: usize = 6;

const REFRESH: [u8; 4] = REFRESH_BYTES;

/// Numbers about the powers of ten, which have one digit more or less than their neighbours.
const ABOUT_TENS: [u16; 10] = [9, 10, 99, 100, 999, 1000, 9999, 10000, 10001, 65535];

const CYCLES: [usize; 10] = [9, 10, 99, 100, 999, 1000, 9999, 10000, 99999, 100000];

pub fn lines(input: &[u8]) -> String {
    inputs::texts(input, listing)
}

pub fn cases() -> Vec<u8> {
    inputs::stored(&inputs())
}

fn inputs() -> Vec<Vec<u8>> {
    let mut inputs: Vec<Vec<u8>> = Vec::new();
    inputs.extend(examples::all().iter().map(|example| example.bytes()));
    inputs.push(examples::arrivals::bytes());
    inputs.extend(short());
    inputs.extend(refused());
    inputs.extend(accepted());
    inputs
}

/// "Fewer than two get number 1", whatever the bytes; so do two alone, and a table that is cut short.
fn short() -> Vec<Vec<u8>> {
    let whole = own(&TABLE_A, &[READ, READ]);
    let mut inputs: Vec<Vec<u8>> = [0, 1, 2, 3, 17, 33, 34, 35, 37, 38, 41]
        .map(|size| whole[..size].to_vec())
        .into();
    inputs.extend([vec![0], vec![255], vec![0, 0], vec![255, 255]]);
    inputs
}

/// Numbers 1, 2, 10, 3, 4 and 5. Number 6 cannot be met: there are 256 finishing cycles, and number 3 refuses a longer list.
fn refused() -> Vec<Vec<u8>> {
    let mut inputs = vec![
        own(&with(&[(RFC, 1024)]), &[READ]),
        own(&with(&[(CCD, 1)]), &[READ]),
        own(&with(&[(BANKS, 17)]), &[]),
        own(&with(&[(EDITION, 0)]), &[READ]),
        own(&TABLE_A, &[READ; 257]),
        [own(&TABLE_A, &[READ]), vec![0]].concat(),
        // 64 × 128 commands are the 64 KiB; one read more has no room.
        own(&TABLE_A, &[&[[0, 0, 8, 15]; 64][..], &[READ]].concat()),
        own(&GREATEST, &[[1, 0, 16, 16]; 256]),
        own(&TABLE_A, &[READ, REFRESH]),
        // Tables of 40 bytes: the last 8 are transactions, here and in what is accepted.
        own(&TABLE_D, &[READ]),
        own(&REFRESHED, &[REFRESH, [2, 0, 0, 1]]),
        // 8192 commands and a refresh more.
        own(&REFRESHED, &[&[[0, 0, 8, 15]; 64][..], &[REFRESH]].concat()),
    ];
    for edition in ABOUT_TENS {
        let table = with(&[(EDITION, edition)]);
        inputs.push(input(0, &table, &[READ]));
        inputs.push(input(edition - 1, &table, &[[2, 0, 1, 1]]));
    }
    for position in [0, 1, 9, 10, 99, 100, 255] {
        let mut list = vec![READ; 256];
        list[position] = [2, 0, 1, 1];
        inputs.push(own(&with(&[(EDITION, 100)]), &list));
    }
    inputs
}

/// Every kind of command; every number of digits in editions, counts, cycles, banks, transactions and finishes.
fn accepted() -> Vec<Vec<u8>> {
    let sixteen = with(&[(BANKS, 16)]);
    let mut inputs = vec![
        own(&TABLE_A, &[[0, 0, 1, 2], [1, 1, 1, 2]]),
        own(&sixteen, &[[1, 8, 4, 3], [0, 14, 3, 2]]),
        own(&LEAST, &[[0, 0, 16, 16], [1, 15, 16, 15]]),
        own(&TABLE_B, &[READ; 256]),
        own(&TWO_WRITES, &[READ]),
        own(&LEAST, &[[1, 3, 16, 15]; 32]),
        own(&REFRESHED, &[REFRESH, WRITE, REFRESH, REFRESH, READ]),
        own(&with(&[(RFC, 1023)]), &[REFRESH; 256]),
        own(
            &GREATEST,
            &[[1, 15, 16, 2], REFRESH, [0, 3, 2, 16], REFRESH],
        ),
    ];
    inputs.extend(ABOUT_TENS.map(|edition| own(&with(&[(EDITION, edition)]), &[])));
    for cycle in CYCLES {
        inputs.extend([reads_to(cycle), reads_to(cycle - 2)]);
    }
    inputs
}

/// Reads of one bank, 450 cycles apart, the last of which goes at this cycle. With RL and B 1 it finishes two cycles later.
fn reads_to(cycle: usize) -> Vec<u8> {
    let mut table = LEAST;
    table[RAS] = 225;
    table[RP] = 225;
    table[RCD] = (cycle % 450) as u16;
    own(&table, &vec![READ; cycle / 450 + 1])
}

#[cfg(test)]
mod tests {
    use super::*;
    use crate::rules::NAMES;

    #[test]
    fn they_meet_every_refusal_every_kind_and_every_number_of_digits() {
        assert!(cases().len() <= 65_536);
        let printed: String = inputs().iter().map(|input| listing(input)).collect();
        let met = |line: &dyn Fn(&str) -> bool| printed.lines().any(|l| line(l));
        for number in 1..=10 {
            let start = format!("refused {number} at ");
            assert_eq!(met(&|l| l.starts_with(&start)), number <= 5 || number == 10);
        }
        for kind in NAMES {
            let word = format!(" {kind} ");
            assert!(met(&|l| l.contains(&word)), "{kind}");
        }
        for cycle in CYCLES {
            let start = format!("{cycle} ");
            assert!(met(&|l| l.starts_with(&start)), "a command at {cycle}");
            let end = format!(" {cycle}");
            let finish = |l: &str| l.starts_with("finish ") && l.ends_with(&end);
            assert!(met(&finish), "a finish at {cycle}");
        }
        for position in ABOUT_TENS {
            let line = format!("refused 10 at {position} edition {position}");
            assert!(met(&|l| l == line), "{line}");
        }
        for line in ["edition 7 commands 0", "edition 1 commands 8192"] {
            assert!(met(&|l| l == line), "{line}");
        }
        for bank_and_number in [" 9 0", " 10 0", " 15 0", " 0 9", " 0 10", " 0 99", " 0 100"] {
            assert!(
                met(&|l| l.contains("A") && l.ends_with(bank_and_number)),
                "{bank_and_number}"
            );
        }
    }
}
