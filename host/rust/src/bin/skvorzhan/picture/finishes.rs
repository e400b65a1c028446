//! The finishes against what was promised: for each transaction a pale bar from where its count starts to its promised finish, filled as far as
//! the finish. Bars that overlap stand in rows.

use super::lanes::{Lanes, NAME};
use super::time_axis::Strip;
use super::xml::{grouped, width_of, Xml};
use super::{Finish, Sheet};

/// The height of one.
pub const ROW: f64 = 20.0;
/// What more there is in a strip is left out, and the lane says so.
const MOST_ROWS: usize = 8;
/// Of the finish's own mark.
const HALF: f64 = 5.0;

pub struct Rows {
    rows: Vec<Vec<usize>>,
    left_out: usize,
}

impl Rows {
    pub fn len(&self) -> usize {
        self.rows.len()
    }
}

fn end(f: &Finish) -> i64 {
    i64::from(f.promised.max(f.finish))
}

/// Each bar in the first row that has room for it and for its number.
pub fn rows(sheet: &Sheet, strip: &Strip) -> Rows {
    let mut found: Vec<(f64, f64, usize)> = Vec::new();
    for (i, f) in sheet.scene.finishes.iter().enumerate() {
        // The mark of the finish needs some width, even where the count starts at it.
        let from = sheet.follows.counts[i].min(f.finish.into());
        if let Some((x, right)) = strip.span(from, end(f) + 1) {
            let number = width_of(&grouped(f.promised.into()), 10.0);
            found.push((x, right + number + 16.0, i));
        }
    }
    found.sort_by(|a, b| a.0.total_cmp(&b.0).then(a.2.cmp(&b.2)));
    let mut free: Vec<f64> = Vec::new();
    let mut rows: Vec<Vec<usize>> = Vec::new();
    let mut left_out = 0;
    for (x, right, i) in found {
        match free.iter().position(|&free| free <= x) {
            Some(row) => {
                free[row] = right;
                rows[row].push(i);
            }
            None if rows.len() < MOST_ROWS => {
                free.push(right);
                rows.push(vec![i]);
            }
            None => left_out += 1,
        }
    }
    Rows { rows, left_out }
}

pub fn draw(xml: &mut Xml, sheet: &Sheet, strip: &Strip, lanes: &Lanes) {
    let top = match lanes.finishes {
        Some(top) => top + 2.0,
        None => return,
    };
    let Rows { rows, left_out } = rows(sheet, strip);
    for (row, all) in rows.iter().enumerate() {
        for &i in all {
            one(xml, sheet, strip, i, top + ROW * row as f64);
        }
    }
    if left_out > 0 {
        let words = format!("and {} more", grouped(left_out as i64));
        xml.words([NAME, top + 27.0], "name small", &words);
    }
}

fn one(xml: &mut Xml, sheet: &Sheet, strip: &Strip, i: usize, y: f64) {
    let f = &sheet.scene.finishes[i];
    let count = sheet.follows.counts[i];
    let (finish, promised) = (i64::from(f.finish), i64::from(f.promised));
    let class = match f.kind {
        _ if finish > promised => "broken",
        0 => "read",
        1 => "write",
        _ => "ref",
    };
    xml.open("finish");
    xml.tip(&tip(f, count));
    let whole = strip.span(count, promised);
    if let Some((x, right)) = whole {
        xml.rect([x, y + 3.0, right - x, 13.0], "promise");
    }
    let done = strip.span(count, finish);
    if let Some((x, right)) = done {
        xml.rect([x, y + 3.0, right - x, 13.0], class);
        named(xml, f, [x, right - HALF], y, &format!("in-bar on-{class}"));
    } else if let Some((x, right)) = whole.filter(|_| finish < strip.from()) {
        // It finished in the strip before.
        named(xml, f, [x, right], y, "number");
    }
    let arrived = i64::from(f.arrival);
    if arrived > 0 && arrived == count && strip.holds(count) {
        let x = strip.x(count);
        let corners = [[x - 4.0, y - 1.5], [x + 4.0, y - 1.5], [x, y + 4.5]];
        xml.polygon(&corners, "arrival");
    }
    if strip.from() < promised && promised <= strip.until() {
        let x = strip.x(promised);
        xml.line([x, y + 0.5], [x, y + 18.5], "bound");
        // The mark of a finish that comes at the last moment stands on the line.
        let aside = if finish == promised { HALF } else { 1.0 };
        xml.words([x + aside + 3.0, y + 13.2], "number", &grouped(promised));
    }
    if strip.holds(finish) {
        let x = strip.x(finish);
        let corners = [
            [x - HALF, y + 9.5],
            [x, y + 2.0],
            [x + HALF, y + 9.5],
            [x, y + 17.0],
        ];
        xml.polygon(&corners, "finish-mark");
        let words = grouped(finish);
        // Between the finish and the promise, where there is room.
        if strip.x(promised) - x > width_of(&words, 10.0) + HALF + 8.0 {
            xml.words([x + HALF + 3.0, y + 13.2], "number", &words);
        }
    }
    xml.close();
}

/// The transaction in its bar, as long as there is room.
fn named(xml: &mut Xml, f: &Finish, [x, right]: [f64; 2], y: f64, class: &str) {
    let long = match f.kind {
        0 => format!("read {}", f.transaction),
        1 => format!("write {}", f.transaction),
        _ => format!("refresh {}", f.transaction),
    };
    let words = [long, f.transaction.to_string()];
    let fits = |words: &&String| right - x > width_of(words, 10.0) + 6.0;
    if let Some(words) = words.iter().find(fits) {
        xml.words([x + 5.0, y + 13.2], class, words);
    }
}

fn tip(f: &Finish, count: i64) -> String {
    let kind = match f.kind {
        0 => "read",
        1 => "write",
        2 => "refresh",
        _ => "of no type",
    };
    let [arrival, finish, promised] = [f.arrival, f.finish, f.promised].map(|n| grouped(n.into()));
    let (number, count) = (f.transaction, grouped(count));
    format!(
        "transaction {number}, {kind}: arrives at {arrival}, count starts at {count}, finishes at {finish}, promised by {promised}"
    )
}
