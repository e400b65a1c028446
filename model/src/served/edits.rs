//! Every small edit of two schedules: renumbered, exchanged, repeated, dropped and moved commands, of another kind and to another bank.

use std::collections::BTreeSet;

use super::put::Cases;
use crate::house::*;
use crate::records::whole;
use crate::rules::{judge, Verdict, ACT, RD, RDA, REF, WR, WRA};
use crate::scheduler::Due;

pub fn edits(cases: &mut Cases) {
    let refreshed = [[0, 0, 1, 2], REFRESH_BYTES, [1, 0, 1, 1]];
    let one_by_one = [
        (ACT, 0, 0),
        (RD, 0, 0),
        (RDA, 0, 0),
        (REF, 0, 1),
        (ACT, 0, 2),
        (WRA, 0, 2),
    ];
    let two = [[0, 7, 2, 1], [1, 2, 1, 2]];
    let among = [
        (ACT, 7, 0),
        (ACT, 0, 0),
        (RDA, 7, 0),
        (ACT, 2, 1),
        (RDA, 0, 0),
        (WR, 2, 1),
        (WRA, 2, 1),
    ];
    put(cases, &refreshed, &one_by_one);
    put(cases, &two, &among);
}

/// Those that the judge accepts, and every sixth of the others.
fn put(cases: &mut Cases, list: &[[u8; 4]], order: &[Due]) {
    let mut refused = 0;
    for edited in all_edits(order, list.len() as u16) {
        let schedule = loose(&edited);
        let accepted = judge(&whole(&REFRESHED), &schedule) == Ok(Verdict::Accepted);
        if !accepted {
            refused += 1;
        }
        if accepted || refused % 6 == 0 {
            cases.list(&REFRESHED, list, &schedule);
        }
    }
}

fn all_edits(order: &[Due], transactions: u16) -> BTreeSet<Vec<Due>> {
    let mut all = BTreeSet::new();
    let mut keep = |edit: &dyn Fn(&mut Vec<Due>)| {
        let mut edited = order.to_vec();
        edit(&mut edited);
        all.insert(edited);
    };
    for at in 0..order.len() {
        for number in 0..=transactions {
            keep(&|o| o[at].2 = number);
        }
        for kind in ACT..=REF {
            keep(&|o| o[at].0 = kind);
        }
        for bank in [0, 1, 2, 7] {
            keep(&|o| o[at].1 = bank);
        }
        keep(&|o| _ = o.remove(at));
        for to in 0..order.len() {
            keep(&|o| o.swap(at, to));
            keep(&|o| (o[at].2, o[to].2) = (o[to].2, o[at].2));
            keep(&|o| o.insert(to, order[at]));
            keep(&|o| {
                let moved = o.remove(at);
                o.insert(to, moved);
            });
        }
        keep(&|o| o.push(order[at]));
    }
    all
}
