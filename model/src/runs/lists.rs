//! Any lists, and runs of a list.

use crate::desk::{run_bytes, Command, Controller, Ran};
use crate::house::*;
use crate::records::{commands_of, BANKS, EDITION, RFC};

/// A list of so many transactions, of few banks and bursts each, with refreshes where the table has them.
pub fn any_list(table: &[u16], size: usize, numbers: &mut Numbers) -> Vec<[u8; 4]> {
    let banks = usize::from(table[BANKS]);
    let mut one = || {
        if table[RFC] != 0 && numbers.below(4) == 0 {
            return REFRESH_BYTES;
        }
        let bi = 1 + numbers.below(banks.min(5));
        let start = numbers.below(banks);
        let kind = numbers.byte() % 2;
        [kind, start as u8, bi as u8, 1 + numbers.byte() % 3]
    };
    (0..size).map(|_| one()).collect()
}

/// So many that never descend.
pub fn any_arrivals(size: usize, numbers: &mut Numbers) -> Vec<u32> {
    let mut arrival = 0;
    let next = |_| {
        let most = numbers.of(&[1, 1, 4, 30, 200]);
        arrival += numbers.below(most) as u32;
        arrival
    };
    (0..size).map(next).collect()
}

/// From a state and with a list that are not refused: what is told, the commands, and the state that is left.
pub fn ran(
    from: &Controller,
    table: &[u16],
    list: &[[u8; 4]],
    count: u32,
) -> (Ran, Vec<Command>, Controller) {
    let mut state = from.clone();
    let mut room = vec![0; room_for(list)];
    let (edition, table, list) = (table[EDITION], bytes_of(table), list.concat());
    let told =
        run_bytes(&mut state, edition, &table, &list, count, &mut room).expect("it's accepted");
    (
        told,
        commands_of(&room[..8 * told.commands as usize]),
        state,
    )
}
