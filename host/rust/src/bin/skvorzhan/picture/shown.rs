//! Which records the picture shows. A schedule has up to 69,632, and nobody looks at so many marks: where not all of them fit into
//! `MOST_STRIPS` strips, a schedule without a broken record is shown from its first one on, and a refused one around the broken record, in fewer
//! strips since what matters is near. Shrinking the marks instead would leave nothing to read. The heading says what is left out. The record that the broken one is too near to is always shown, however
//! far back it stands.

use super::follows::{Follows, REF};
use super::time_axis::{fitted, laid, Strip};
use super::xml::{grouped, width_of};
use super::{Finish, Scene};

const MOST_RECORDS: usize = 1_500;
const MOST_STRIPS: usize = 5;
/// Of a refused schedule: of a whole one, and of what is shown around the broken record.
const MOST_REFUSED: usize = 3;
const STRIPS_AROUND: usize = 2;
/// Of a mark and its neighbour in the lane.
const MARK_WIDTH: f64 = 17.0;
/// The least scale grows no further for marks that are nearer than any table has them.
const GREATEST_LEAST: f64 = 8.5;
/// But for the broken record and where it would have been legal, which may lie one cycle apart.
const GREATEST_FOR_GHOST: f64 = 14.0;

pub struct Shown {
    pub first: usize,
    /// The first record after.
    pub until: usize,
    /// The record that the broken one is too near to, where the schedule has it.
    pub near: Option<usize>,
    pub strips: Vec<Strip>,
    /// From each mark to the next of its lane at least so wide.
    pub apart: f64,
}

impl Shown {
    pub fn of(scene: &Scene, follows: &Follows) -> Shown {
        let whole = scene.commands.len();
        let strips_of = |range: (usize, usize), near| {
            let points = points(scene, follows, range, near);
            laid(&points, least_scale(scene, range), room(scene)).len()
        };
        let broken = scene.broken.as_ref();
        let near = broken.and_then(|b| b.near).filter(|&near| near < whole);
        let most = if broken.is_some() {
            MOST_REFUSED
        } else {
            MOST_STRIPS
        };
        let fits_whole = whole <= MOST_RECORDS && strips_of((0, whole), near) <= most;
        let (first, until) = if fits_whole {
            (0, whole)
        } else {
            let most = if broken.is_some() {
                STRIPS_AROUND
            } else {
                MOST_STRIPS
            };
            // The most records that fit, by halves: more of them seldom need fewer strips.
            let (mut fit, mut over) = (1, whole.min(MOST_RECORDS) + 1);
            while over - fit > 1 {
                let middle = fit + (over - fit) / 2;
                if strips_of(around(scene, middle), near) <= most {
                    fit = middle;
                } else {
                    over = middle;
                }
            }
            around(scene, fit)
        };
        let points = points(scene, follows, (first, until), near);
        let mut strips = fitted(&points, least_scale(scene, (first, until)), room(scene));
        strips.truncate(MOST_STRIPS);
        let scale = strips.first().map_or(0.0, |s| s.scale);
        let apart = nearest(scene, (first, until)) as f64 * scale;
        Shown {
            first,
            until,
            near,
            strips,
            apart,
        }
    }

    /// What a record before the first one shown still holds is shown as well: the bursts and windows of so many.
    pub fn reaches(&self, record: usize) -> bool {
        (self.first.saturating_sub(600)..self.until).contains(&record) || self.near == Some(record)
    }
}

/// So many records: the first ones, or most before the broken one and some after it.
fn around(scene: &Scene, count: usize) -> (usize, usize) {
    let whole = scene.commands.len();
    let first = scene.broken.as_ref().map_or(0, |broken| {
        let before = count - count.min(1 + count / 6);
        broken
            .record
            .min(whole.saturating_sub(1))
            .saturating_sub(before)
    });
    (first, whole.min(first + count))
}

/// The cycles at which something shown starts or ends, in order.
fn points(
    scene: &Scene,
    follows: &Follows,
    (first, until): (usize, usize),
    near: Option<usize>,
) -> Vec<i64> {
    let commands = &scene.commands;
    let cycle = |record: usize| commands.get(record).map(|c| i64::from(c.cycle));
    let mut all: Vec<i64> = (first..until).chain(near).filter_map(cycle).collect();
    if let Some(broken) = &scene.broken {
        all.extend(cycle(broken.record));
        all.extend(broken.legal.map(i64::from));
    }
    if first == 0 {
        all.push(0);
    }
    // What ends only where records are left out isn't followed to its end.
    let end = cycle(until).unwrap_or(i64::MAX);
    let range = first..until;
    let mut ends: Vec<i64> = Vec::new();
    // Where a four-ACT window ends nothing happens, unless a fifth ACT waits for it, and then that is shown.
    for one in [&follows.bursts, &follows.refreshes] {
        let from = one.partition_point(|h| h.record < first);
        let own = one[from..].iter().take_while(|h| h.record < until);
        ends.extend(own.flat_map(|h| [h.from, h.until]));
    }
    let closed = follows
        .opened
        .iter()
        .filter(|o| o.closed && range.contains(&o.last));
    ends.extend(closed.flat_map(|o| [o.start, o.precharged]));
    let mut numbers = vec![false; 1 << 16];
    for c in &commands[first..until] {
        numbers[usize::from(c.number)] = true;
    }
    for (f, &count) in scene.finishes.iter().zip(&follows.counts) {
        if numbers.get(f.transaction) == Some(&true) {
            ends.extend([count, f.finish.into(), f.promised.into()]);
        }
    }
    let start = if first == 0 {
        0
    } else {
        cycle(first).unwrap_or(0)
    };
    all.extend(ends.into_iter().filter(|&c| start <= c && c < end));
    all.sort_unstable();
    all.dedup();
    all
}

/// How many cycles lie between the two nearest marks of a lane, the broken record's left aside.
fn nearest(scene: &Scene, (first, until): (usize, usize)) -> i64 {
    let mut last: Vec<Option<i64>> = vec![None; 257];
    let mut nearest = i64::from(u32::MAX);
    let broken = scene.broken.as_ref().map(|b| b.record);
    for (record, c) in scene.commands.iter().enumerate().take(until).skip(first) {
        if broken == Some(record) {
            continue;
        }
        let lane = if c.kind == REF {
            256
        } else {
            usize::from(c.bank)
        };
        let cycle = i64::from(c.cycle);
        if let Some(before) = last[lane] {
            nearest = nearest.min((cycle - before).abs());
        }
        last[lane] = Some(cycle);
    }
    nearest
}

/// At which they just stand side by side, and the broken record and its ghost too.
fn least_scale(scene: &Scene, range: (usize, usize)) -> f64 {
    let for_cycles = |cycles: i64| (MARK_WIDTH / cycles.max(1) as f64).max(0.02);
    let scale = for_cycles(nearest(scene, range)).min(GREATEST_LEAST);
    let ghost = scene.broken.as_ref().and_then(|broken| {
        let own = scene.commands.get(broken.record)?;
        Some((i64::from(broken.legal?) - i64::from(own.cycle)).abs())
    });
    let for_ghost = |cycles| for_cycles(cycles).min(GREATEST_FOR_GHOST);
    scale.max(ghost.map_or(0.0, for_ghost))
}

/// Behind each cycle there is room for a mark, or for the number of a promised finish.
fn room(scene: &Scene) -> f64 {
    let number = |f: &Finish| width_of(&grouped(f.promised.max(f.finish).into()), 10.0);
    scene.finishes.iter().map(number).fold(0.0, f64::max) + 16.0
}
