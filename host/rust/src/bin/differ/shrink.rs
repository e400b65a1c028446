//! A case that shows a difference, made small: fewer records, fewer bytes that are not table A's, smaller numbers.

use std::time::{Duration, Instant};

use model::house::{bytes_of, due, later, RFC, TABLE_A, TABLE_D};

use crate::case::*;
use crate::make::too_long;

const AT_MOST: Duration = Duration::from_secs(20);

/// The smallest that was found of which `differs` holds, as it does of the one given.
pub fn shrunk(case: &Case, mut differs: impl FnMut(&Case) -> bool) -> Case {
    let end = Instant::now() + AT_MOST;
    let mut least = case.clone();
    let mut smaller = true;
    while smaller {
        smaller = false;
        let mut size = least.bytes.len().next_power_of_two();
        while size >= 1 {
            smaller |= cut(&mut least, size, &mut differs, end);
            size /= 2;
        }
        for change in changes(&least) {
            if Instant::now() > end {
                return least;
            }
            let mut next = least.clone();
            change(&mut next);
            if next != least && !too_long(&next) && differs(&next) {
                least = next;
                smaller = true;
            }
        }
    }
    least
}

/// Takes parts of so many records out of the bytes, wherever the difference stays; at last single bytes.
fn cut(
    least: &mut Case,
    size: usize,
    differs: &mut impl FnMut(&Case) -> bool,
    end: Instant,
) -> bool {
    let mut smaller = false;
    let record = least.call.record();
    for size in [size * record, size] {
        let mut at = 0;
        while at + size <= least.bytes.len() && Instant::now() < end {
            let mut next = least.clone();
            next.bytes.drain(at..at + size);
            // With a list goes the room for it, where that is wanted to keep the difference.
            let with_less_room = {
                let gone = &least.bytes[at..at + size];
                let mut next = next.clone();
                next.room = next
                    .room
                    .saturating_sub(8 * next.call.room_in_commands(gone));
                next.slots = next.slots.saturating_sub(size / next.call.of_record());
                next
            };
            let found = [with_less_room, next].iter().any(|next| {
                let found = !too_long(next) && differs(next);
                if found {
                    *least = next.clone();
                }
                found
            });
            smaller |= found;
            if !found {
                at += size;
            }
        }
    }
    smaller
}

type Change = Box<dyn Fn(&mut Case)>;

/// What may be tried on a case, simplest first.
fn changes(case: &Case) -> Vec<Change> {
    let mut all: Vec<Change> = Vec::new();
    let a = bytes_of(&TABLE_A);
    // Table A, and the same with the case's own RFC.
    let mut with_rfc = TABLE_A;
    with_rfc[RFC] = case.numbers()[RFC];
    for t in [TABLE_A, with_rfc] {
        all.push(Box::new(move |c| {
            c.table = bytes_of(&t);
            c.state[EDITION] = 7;
            c.expected = 7;
        }));
        all.push(Box::new(move |c| {
            c.table = bytes_of(&t);
            c.state[EDITION] = 7;
        }));
        all.push(Box::new(move |c| c.table = bytes_of(&t)));
    }
    // The first sixteen numbers alone; table D; fewer groups, and long numbers nearer to their short ones.
    all.push(Box::new(|c| c.table.truncate(32)));
    all.push(Box::new(|c| c.table = bytes_of(&TABLE_D)));
    for place in model::house::GROUPS..20 {
        all.push(Box::new(move |c| {
            if let Some(low) = c.table.get_mut(2 * place) {
                *low = low.saturating_sub(1);
            }
        }));
    }
    all.push(Box::new(|c| {
        if let Some(low) = c.table.get_mut(2 * RFC) {
            *low = low.saturating_sub(1);
        }
    }));
    all.push(Box::new(|c| {
        if let Some(edition) = c.table.get_mut(..2) {
            edition.copy_from_slice(&[7, 0]);
            c.state[EDITION] = 7;
            c.expected = 7;
        }
    }));
    all.push(Box::new(|c| c.expected = c.edition()));
    for less in [|n: u16| n / 2, |n: u16| n.saturating_sub(1)] {
        all.push(Box::new(move |c| {
            if c.expected != c.edition() {
                c.expected = less(c.expected);
            }
        }));
    }
    for (i, pair) in a.chunks(2).enumerate() {
        let pair = [pair[0], pair[1]];
        all.push(Box::new(move |c| {
            if let Some(place) = c.table.get_mut(2 * i..2 * i + 2) {
                place.copy_from_slice(&pair);
            }
        }));
    }
    all.push(Box::new(|c| {
        c.table.pop();
    }));
    all.push(Box::new(|c| c.state = fresh(c.state[EDITION])));
    for i in 0..NUMBERS {
        if case.state[i] != fresh(7)[i] {
            all.push(Box::new(move |c| c.state[i] = fresh(7)[i]));
            for less in [|n: u32| n / 2, |n: u32| n.saturating_sub(1)] {
                all.push(Box::new(move |c| {
                    if c.state[i] != fresh(7)[i] {
                        c.state[i] = less(c.state[i]);
                    }
                }));
            }
        }
    }
    for i in 0..5 {
        all.push(Box::new(move |c| c.values[i] = 0));
        all.push(Box::new(move |c| c.values[i] = c.values[i].min(1)));
        all.push(Box::new(move |c| c.values[i] /= 2));
        all.push(Box::new(move |c| {
            c.values[i] = c.values[i].saturating_sub(1)
        }));
    }
    type Size = fn(&mut Case) -> &mut usize;
    let sizes: [(Size, usize); 2] = [(|c| &mut c.room, case.room), (|c| &mut c.slots, case.slots)];
    for (of, now) in sizes {
        for less in [0, now / 2, now.saturating_sub(8), now.saturating_sub(1)] {
            all.push(Box::new(move |c| *of(c) = less));
        }
    }
    // Fewer records of the schedule that is to serve a list.
    let records = case.schedule.len() / 8;
    for size in [records, records / 2, records / 4, 1] {
        for at in (0..records).step_by(size.max(1)).take(100) {
            all.push(Box::new(move |c| {
                if 8 * (at + size) <= c.schedule.len() {
                    c.schedule.drain(8 * at..8 * (at + size));
                }
            }));
        }
    }
    // Records of a list: simplest numbers, with the room that goes with them, and without.
    if case.call.is_given_a_list() {
        arrivals(&mut all);
        let size = case.call.of_record();
        let end = case.bytes.len() / size * size;
        for at in (0..end).step_by(size).take(100) {
            all.push(Box::new(move |c| {
                let before = due(&c.list());
                for (k, simple) in [0, 0, 1, 1].into_iter().enumerate() {
                    set(c, at + k, simple);
                }
                c.room = (c.room + 8 * due(&c.list())).saturating_sub(8 * before);
            }));
        }
        for at in (0..end).take(400) {
            let simple = [0, 0, 1, 1, 0, 0, 0, 0][at % size];
            all.push(Box::new(move |c| {
                let before = due(&c.list());
                if set(c, at, simple) {
                    c.room = (c.room + 8 * due(&c.list())).saturating_sub(8 * before);
                }
            }));
            all.push(Box::new(move |c| {
                set(c, at, simple);
            }));
        }
    } else {
        for at in (0..case.bytes.len()).take(400) {
            all.push(Box::new(move |c| {
                set(c, at, 0);
            }));
            all.push(Box::new(move |c| {
                let less = c.bytes.get(at).map_or(0, |b| b.saturating_sub(1));
                set(c, at, less);
            }));
        }
    }
    all.push(Box::new(|c| c.filling = 0));
    all.push(Box::new(|c| c.lies = 2));
    all
}

/// All arrivals 0, or each less than it was.
fn arrivals(all: &mut Vec<Change>) {
    for less in [|_| 0, |n: u32| n / 2, |n: u32| n.saturating_sub(1)] {
        all.push(Box::new(move |c| {
            if c.call.of_record() == 8 && c.bytes.len() % 8 == 0 {
                let one = |x: &[u8; 8]| later([x[0], x[1], x[2], x[3]], less(arrival(x)));
                let list: Vec<[u8; 8]> = c.list().iter().map(one).collect();
                c.lend(&list);
            }
        }));
    }
}

fn set(c: &mut Case, at: usize, to: u8) -> bool {
    match c.bytes.get_mut(at) {
        Some(b) => {
            *b = to;
            true
        }
        None => false,
    }
}
