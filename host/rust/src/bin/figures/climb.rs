//! A climb towards the table and the question that cost the search for the shortest pattern most, by how many cycles it tries for a record.
//!
//!     figures climb SEED SECONDS

use std::time::{Duration, Instant};

use model::house::{bytes_of, Numbers, BANKS, CCD, GROUPS, LONGS};

use crate::ordinary::{counted, Asked, Times};

/// Twenty numbers, and what is asked for.
#[derive(Debug, Clone, Copy)]
pub struct Point {
    pub table: [u16; 20],
    pub asked: Asked,
}

/// How many cycles are tried.
pub fn height(p: &Point) -> u64 {
    let t = Times::read(p.table[0], &bytes_of(&p.table)).expect("it's a table");
    counted::<true>(&t, &p.asked).1
}

fn with_height(p: Point) -> (u64, Point) {
    (height(&p), p)
}

/// All that may be asked for, with the greatest length of 128.
pub fn all_asked() -> Vec<Asked> {
    let counts = (1..=3u8).flat_map(|bi| (1..=5u8).map(move |bc| (bi, bc)));
    let few: Vec<(u8, u8)> = counts.filter(|(bi, bc)| bi * (1 + bc) <= 6).collect();
    let most = 128;
    let of_kind = |kind| {
        few.iter()
            .map(move |&(bi, bc)| Asked { kind, bi, bc, most })
    };
    of_kind(0).chain(of_kind(1)).collect()
}

/// Any number from 1 on.
fn up_to(numbers: &mut Numbers, most: u16) -> u16 {
    let any = u16::from_le_bytes([numbers.byte(), numbers.byte()]);
    1 + any % most
}

fn any(numbers: &mut Numbers) -> Point {
    let most = numbers.of(&[6, 20, 40, 60, 90, 128]);
    let mut table = [0; 20].map(|_: u16| up_to(numbers, most));
    table[0] = 7;
    table[GROUPS] = up_to(numbers, 8);
    let asked = numbers.of(&all_asked());
    mended(Point { table, asked })
}

/// With what number 2 wants.
fn mended(mut p: Point) -> Point {
    p.table[BANKS] = 8;
    p.table[GROUPS] = 1 + (p.table[GROUPS] - 1) % 8;
    p.table[CCD] = p.table[CCD].max(2);
    p.table[2] = p.table[2].min(p.table[CCD]);
    for (long, short) in LONGS {
        p.table[long] = p.table[long].max(p.table[short]);
    }
    p
}

/// One to three numbers changed a little or much, or another question.
fn near(numbers: &mut Numbers, p: &Point) -> Point {
    let mut next = *p;
    for _ in 0..=numbers.below(3) {
        let at = 2 + numbers.below(18);
        let now = next.table[at];
        next.table[at] = match numbers.below(8) {
            0 => now + 1,
            1 => now - 1,
            2 => now + up_to(numbers, 9),
            3 => now.saturating_sub(up_to(numbers, 9)),
            4 => now / 2,
            5 => 2 * now,
            6 => up_to(numbers, 128),
            _ => up_to(numbers, 1023),
        }
        .clamp(1, 1023);
    }
    if numbers.below(12) == 0 {
        next.asked = numbers.of(&all_asked());
    }
    mended(next)
}

/// From the highest of any fifty, over and over; a climb ends where 500 steps in a row led nowhere higher. Prints each new highest, and how far it
/// went.
pub fn climb(seed: u64, seconds: u64) {
    let end = Instant::now() + Duration::from_secs(seconds);
    let mut numbers = Numbers(seed);
    let (mut climbs, mut points, mut highest) = (0, 0u64, 0);
    while Instant::now() < end {
        climbs += 1;
        let starts = (0..50).map(|_| with_height(any(&mut numbers)));
        let (mut at, mut here) = starts.max_by_key(|&(height, _)| height).expect("fifty");
        points += 50;
        let mut in_vain = 0;
        while in_vain < 500 && Instant::now() < end {
            let (up, next) = with_height(near(&mut numbers, &here));
            points += 1;
            in_vain = if up > at { 0 } else { in_vain + 1 };
            if up >= at {
                (at, here) = (up, next);
            }
            if at > highest {
                highest = at;
                println!("{highest} cycles tried: {here:?}");
            }
        }
    }
    println!("seed {seed}, {seconds} s: {climbs} climbs, {points} points, the highest {highest}");
}
