//! The cases of the program `patterns`, each an input of `pattern` behind its length in two bytes, and the text of each behind a line `case`.

use crate::house::*;
use crate::inputs::{self, input};
use crate::pattern::pattern;
use crate::records::{BANKS, CCD, EDITION};

pub fn lines(input: &[u8]) -> String {
    inputs::texts(input, pattern)
}

pub fn cases() -> Vec<u8> {
    inputs::stored(&inputs())
}

pub fn inputs() -> Vec<Vec<u8>> {
    let mut inputs = every_asked();
    inputs.extend(lengths());
    inputs.extend(limits());
    inputs.extend(hostile());
    inputs.extend(refused());
    inputs
}

fn own(table: &[u16], asked: [u8; 4]) -> Vec<u8> {
    inputs::own(table, &[asked])
}

/// Every type, BI and BC "with BI × (1 + BC) at most 6".
fn all_asked(most: u8) -> Vec<[u8; 4]> {
    let counts = (1..=6u8).flat_map(|bi| (1..=5u8).map(move |bc| (bi, bc)));
    let few: Vec<(u8, u8)> = counts.filter(|(bi, bc)| bi * (1 + bc) <= 6).collect();
    let of_kind = |kind| few.iter().map(move |&(bi, bc)| [kind, bi, bc, most]);
    of_kind(0).chain(of_kind(1)).collect()
}

/// On the house tables, the least and the greatest numbers, tables in which one stands out, and tables of groups.
fn every_asked() -> Vec<Vec<u8>> {
    let mut tables = [TABLE_A, TABLE_B, TABLE_C, TABLE_T, LEAST, GREATEST]
        .map(|t| t.to_vec())
        .to_vec();
    tables.extend(ODD.map(|t| t.to_vec()));
    tables.push(TABLE_D.to_vec());
    tables.extend(group_tables().iter().map(|t| t.to_vec()));
    let of = |t: &Vec<u16>| {
        all_asked(128)
            .into_iter()
            .map(|asked| own(t, asked))
            .collect::<Vec<_>>()
    };
    tables.iter().flat_map(of).collect()
}

/// The least length that the answer to such an input names.
fn least(input: &[u8]) -> Option<u8> {
    let told = pattern(input);
    let words: Vec<&str> = told.split(' ').collect();
    match words[..] {
        ["edition", _, "length", length, ..] => length.parse().ok(),
        _ => None,
    }
}

/// The least length as the greatest, and one less.
fn lengths() -> Vec<Vec<u8>> {
    let mut inputs = Vec::new();
    for table in [&TABLE_A[..], &TABLE_B, &TABLE_D] {
        for mut asked in all_asked(128) {
            if let Some(least) = least(&own(table, asked)) {
                for most in [least, least - 1] {
                    asked[3] = most;
                    inputs.push(own(table, asked));
                }
            }
        }
    }
    inputs
}

/// Number 4 at every limit.
fn limits() -> Vec<Vec<u8>> {
    let of_a = [
        [2, 1, 1, 128],
        [3, 1, 1, 128],
        [255, 1, 1, 128],
        [0, 0, 1, 128],
        [0, 1, 0, 128],
        [1, 0, 0, 128],
        [0, 1, 6, 128],
        [0, 2, 3, 128],
        [0, 3, 2, 128],
        [0, 4, 1, 128],
        [0, 7, 0, 128],
        [0, 16, 15, 128],
        [0, 255, 255, 128],
        [0, 128, 1, 128],
        [1, 1, 255, 128],
        [1, 1, 1, 0],
        [1, 1, 1, 129],
        [1, 1, 1, 255],
        [1, 1, 1, 1],
    ];
    let mut inputs: Vec<Vec<u8>> = of_a.iter().map(|&asked| own(&TABLE_A, asked)).collect();
    for banks in 1..=3 {
        let table = with(&[(BANKS, banks)]);
        inputs.extend((1..=3).map(|bi| own(&table, [0, bi, 1, 128])));
    }
    inputs
}

/// Tables of numbers that are small, great, or as great as 128 cycles bear, in every count of groups.
fn any_table(numbers: &mut Numbers) -> Vec<u16> {
    let most = numbers.of(&[3, 8, 20, 40]);
    let mut t = TABLE_A.map(|_| 1 + numbers.below(most) as u16);
    t[..3].copy_from_slice(&[
        500 + numbers.below(99) as u16,
        3 + numbers.below(14) as u16,
        1,
    ]);
    t[CCD] += 1;
    for _ in 0..numbers.below(3) {
        t[4 + numbers.below(11)] = numbers.of(&[60, 90, 127, 128, 255, 1023]);
    }
    let groups = 1 + numbers.below(usize::from(t[BANKS]).min(8)) as u16;
    let more = numbers.of(&[1, 4, 30]);
    let longs = LONGS.map(|(_, short)| (t[short] + numbers.below(more) as u16).min(1023));
    if numbers.below(4) == 0 {
        return t.to_vec();
    }
    grouped(&t, groups, longs).to_vec()
}

fn hostile() -> Vec<Vec<u8>> {
    let mut numbers = Numbers(1111);
    (0..240)
        .map(|_| {
            let table = any_table(&mut numbers);
            own(&table, numbers.of(&all_asked(128)))
        })
        .collect()
}

/// Numbers 1, 2 and 10: inputs of every length up to one byte too many, tables out of range, other editions.
fn refused() -> Vec<Vec<u8>> {
    let long = own(&TABLE_D, [0, 1, 1, 128]);
    let longer = [&long[..], &[0; 18]].concat();
    let mut inputs: Vec<Vec<u8>> = (0..=longer.len()).map(|n| longer[..n].to_vec()).collect();
    inputs.push(own(&with(&[(CCD, 1)]), [0, 1, 1, 128]));
    inputs.push(own(&with(&[(BANKS, 0)]), [0, 1, 1, 0]));
    inputs.push(own(&grouped(&TABLE_A, 9, [9; 3]), [0, 1, 1, 128]));
    inputs.push(own(&grouped(&TABLE_A, 2, [3, 9, 9]), [0, 1, 1, 128]));
    for (edition, expected) in OTHER_EDITIONS {
        let table = with(&[(EDITION, edition)]);
        inputs.push(input(expected, &table, &[[0, 1, 1, 128]]));
        inputs.push(input(expected, &table, &[[2, 1, 1, 128]]));
    }
    inputs
}

#[cfg(test)]
mod tests {
    use super::*;

    #[test]
    fn every_refusal_and_every_shape() {
        let inputs = inputs();
        assert!(cases().len() < 65_536);
        let printed: Vec<String> = inputs.iter().map(|input| pattern(input)).collect();
        let starting = |start: &str| printed.iter().filter(|out| out.starts_with(start)).count();
        for number in 1..=13 {
            let met = starting(&format!("refused {number} at "));
            assert_eq!(met > 3, [1, 2, 4, 10, 13].contains(&number), "{number}");
        }
        assert!(starting("edition") > 500);
        let holding = |part: &str| printed.iter().filter(|out| out.contains(part)).count();
        for part in [
            " length 128 ",
            " ACT 2 0\n",
            " WR 1 0\n",
            " RD 0 0\n",
            " commands 6\n",
        ] {
            assert!(holding(part) > 0, "{part}");
        }
        for count in [2, 3, 4, 5, 6] {
            assert!(holding(&format!(" commands {count}\n")) > 20, "{count}");
        }
    }
}
