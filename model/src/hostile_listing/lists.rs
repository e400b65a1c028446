//! Lists that the cases are made from.

use crate::house::{Numbers, READ, REFRESH_BYTES, WRITE};
use crate::records::{BANKS, RFC};

/// Examples 3 and 5 of document 01.
pub const EXAMPLE_3: [[u8; 4]; 2] = [WRITE, READ];
pub const EXAMPLE_5: [[u8; 4]; 1] = [[0, 0, 4, 2]];

/// A list of so many transactions that the table accepts, refreshes among them where it has any.
pub fn any_list(
    table: &[u16],
    size: usize,
    most: (usize, usize),
    numbers: &mut Numbers,
) -> Vec<[u8; 4]> {
    let banks = usize::from(table[BANKS]);
    let mut one = || {
        if table[RFC] != 0 && numbers.below(5) == 0 {
            return REFRESH_BYTES;
        }
        let bi = 1 + numbers.below(banks.min(most.0));
        let start = numbers.below(banks);
        let bc = 1 + numbers.below(most.1);
        [numbers.byte() % 2, start as u8, bi as u8, bc as u8]
    };
    (0..size).map(|_| one()).collect()
}
