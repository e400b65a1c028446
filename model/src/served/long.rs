//! As many transactions as there may be, and as many commands of one.

use super::faults::visits_of;
use super::put::Cases;
use crate::house::{self, *};
use crate::records::whole;
use crate::rules::{ACT, RD, RDA, REF};
use crate::scheduler::{dues, Due};

pub fn long(cases: &mut Cases) {
    transactions(cases);
    commands(cases);
}

/// The commands of a list, one bank's after another's.
fn in_turn(table: &[u16], list: &[[u8; 4]]) -> Vec<Due> {
    visits_of(&dues(&whole(table), &house::transactions(list))).concat()
}

/// Reads to 8 banks in turn, with a refresh here and there.
fn transactions(cases: &mut Cases) {
    let one = |x: usize| match x % 16 {
        9 => REFRESH_BYTES,
        _ => [(x / 3 % 2) as u8, (x % 8) as u8, 1, 1],
    };
    let list: Vec<[u8; 4]> = (0..256).map(one).collect();
    let order = in_turn(&REFRESHED, &list);
    cases.list(&REFRESHED, &list, &loose(&order));
    // The last two transactions' visits exchanged: the last but one is at fault.
    let mut turned = order.clone();
    turned.rotate_right(2);
    let last: Vec<Due> = turned.drain(..2).collect();
    let end = turned.len() - 2;
    turned.splice(end..end, last);
    cases.list(&REFRESHED, &list, &loose(&turned));
    // Number 255 taken for 256, by its data command and by the whole visit, with 255 transactions too.
    let mut past = order.clone();
    let end = past.len();
    past[end - 1].2 = 256;
    cases.list(&REFRESHED, &list, &loose(&past));
    past[end - 2].2 = 256;
    cases.list(&REFRESHED, &list[..255], &loose(&past));
    // One record outside the list.
    let refreshed = [&order[..], &[(REF, 0, 256)]].concat();
    cases.list(&REFRESHED, &list, &loose(&refreshed));
    // A REF of the first refresh at the end.
    let mut late = order;
    let place = late.iter().position(|d| d.2 == 9).expect("a refresh");
    let moved = late.remove(place);
    late.push(moved);
    cases.list(&REFRESHED, &list, &loose(&late));
}

/// 16 banks of 16 reads: one read short, one read long, one bank closed by its first read and not by its last.
fn commands(cases: &mut Cases) {
    let list = [[0, 9, 16, 16]];
    let order = in_turn(&LEAST, &list);
    cases.list(&LEAST, &list, &loose(&order));
    let place = order.iter().position(|d| (d.0, d.1) == (RD, 3));
    let place = place.expect("a read of bank 3");
    let mut edited = order.clone();
    edited.remove(place);
    cases.list(&LEAST, &list, &loose(&edited));
    edited.splice(place..place, [(RD, 3, 0); 2]);
    cases.list(&LEAST, &list, &loose(&edited));
    // Two banks in another order.
    let mut turned = order.clone();
    turned[..34].rotate_left(17);
    cases.list(&LEAST, &list, &loose(&turned));
    let mut closed = order;
    closed.remove(place);
    closed.splice(place..place, [(RDA, 3, 0), (ACT, 3, 0)]);
    cases.list(&LEAST, &list, &loose(&closed));
}
