//! The broken record, in red: above the banks a lane that measures how far it stands from the record that it is too near to, and from where
//! it would have been legal; an arrow along the measure from the one mark to the other; a ghost of the mark at the least legal cycle; and in the
//! lane of the mark the cycles that are too early.

use skvorzhan::Command;

use super::follows::REF;
use super::lanes::{Lanes, NAME};
use super::marks::{mark, Standing};
use super::time_axis::{Strip, EDGE};
use super::xml::{grouped, width_of, Xml};
use super::{Broken, Sheet};

/// The record with what it is measured against.
struct Measured<'a> {
    broken: &'a Broken,
    own: &'a Command,
    near: Option<&'a Command>,
    legal: Option<i64>,
}

impl<'a> Measured<'a> {
    /// None where nothing is broken, or the end is (rule 10), which has no mark.
    fn of(sheet: &Sheet<'a>) -> Option<Measured<'a>> {
        let broken = sheet.scene.broken.as_ref()?;
        let commands = &sheet.scene.commands;
        Some(Measured {
            broken,
            own: commands.get(broken.record)?,
            near: broken.near.and_then(|near| commands.get(near)),
            legal: broken.legal.map(i64::from),
        })
    }

    /// Where the measure starts.
    fn from(&self) -> i64 {
        self.near.unwrap_or(self.own).cycle.into()
    }
}

/// Behind the spans: the cycles that are too early for the record.
pub fn too_early(xml: &mut Xml, sheet: &Sheet, strip: &Strip, lanes: &Lanes) {
    let m = match Measured::of(sheet) {
        Some(m) => m,
        None => return,
    };
    let span = m.legal.and_then(|legal| strip.span(m.from(), legal));
    if let (Some((x, end)), Some(lane)) = (span, lanes.of_command(m.own)) {
        xml.open("span");
        xml.tip("too early for the broken record");
        xml.rect([x, lane.y + 1.0, end - x, lane.height - 2.0], "too-early");
        xml.close();
    }
}

/// Behind the marks: the lane that measures, the arrow and the ghost.
pub fn behind(xml: &mut Xml, sheet: &Sheet, strip: &Strip, lanes: &Lanes) {
    let (m, top) = match (Measured::of(sheet), lanes.why) {
        (Some(m), Some(top)) => (m, top),
        _ => return,
    };
    xml.words(
        [NAME, top + 20.5],
        "name red-words",
        &format!("rule {}", m.broken.rule),
    );
    let x_of = |c: &Command| strip.x(c.cycle.into());
    let holds = |c: &Command| strip.holds(c.cycle.into());
    let (given, needed) = (top + 10.0, top + 25.0);
    // From the one mark up to the measure, along it, and down to the other; outside the strip it ends at its edge.
    let mut way = Vec::new();
    if holds(m.own) {
        way.push([x_of(m.own), lanes.middle(m.own)]);
    }
    way.push([x_of(m.own), given]);
    if let Some(near) = m.near {
        way.push([x_of(near), given]);
        if holds(near) {
            let y = lanes.middle(near) - 12.5;
            way.push([x_of(near), y]);
            let x = x_of(near);
            xml.polygon(
                &[[x, y], [x - 4.0, y - 8.0], [x + 4.0, y - 8.0]],
                "red-head",
            );
        }
    }
    xml.polyline(&way, "red-arrow");
    if let Some(legal) = m.legal {
        let (from, x) = (strip.x(m.from()), strip.x(legal));
        xml.line([from, needed], [x, needed], "red-measure dashed");
        if strip.holds(legal) {
            let middle = lanes.middle(m.own);
            xml.line([x, needed - 4.5], [x, middle], "red-measure dashed");
            ghost(xml, sheet, &m, [x, middle], x_of(m.own));
        }
    }
    words(xml, strip, &m, [given, needed]);
}

fn ghost(xml: &mut Xml, sheet: &Sheet, m: &Measured, [x, y]: [f64; 2], own: f64) {
    let cycle = grouped(m.legal.unwrap_or(0));
    xml.open("mark");
    xml.tip(&format!(
        "the least cycle at which it would have been legal: {cycle}"
    ));
    mark(xml, m.own.kind, [x, y], Standing::Ghost);
    if sheet.cycles_named && (x - own).abs() > width_of(&cycle, 8.5) + 5.0 {
        xml.words([x, y + 19.5], "when when-ghost", &cycle);
    }
    xml.close();
}

/// Right of the measure, else left of it, else on it.
fn words(xml: &mut Xml, strip: &Strip, m: &Measured, places: [f64; 2]) {
    let near = m.near.map(|c| i64::from(c.cycle));
    let ends = [Some(m.own.cycle.into()), near, m.legal];
    let within = || ends.iter().flatten().map(|&cycle| strip.x(cycle));
    let (left, right) = (
        within().fold(f64::MAX, f64::min),
        within().fold(EDGE, f64::max),
    );
    let lines = [given(m), needed(m)];
    let widest = lines.iter().map(|l| width_of(l, 11.0)).fold(0.0, f64::max);
    for (words, y) in lines.iter().zip(places) {
        if right + 14.0 + widest <= strip.right() {
            xml.words([right + 14.0, y + 3.8], "red-words", words);
        } else if left - 14.0 - widest >= EDGE {
            xml.words([left - 14.0, y + 3.8], "red-words end", words);
        } else if !words.is_empty() {
            let middle = ((left + right) / 2.0).max(EDGE + widest / 2.0);
            let middle = middle.min(strip.right() - widest / 2.0);
            let wide = width_of(words, 11.0);
            xml.rect(
                [middle - wide / 2.0 - 4.0, y - 6.5, wide + 8.0, 13.0],
                "paper",
            );
            xml.words([middle, y + 3.8], "red-words middle", words);
        }
    }
}

fn given(m: &Measured) -> String {
    let own = i64::from(m.own.cycle);
    let words = format!(
        "record {} at cycle {}",
        grouped(m.broken.record as i64),
        grouped(own)
    );
    match (m.near, m.broken.near) {
        (Some(near), Some(other)) => {
            let other = grouped(other as i64);
            match own - i64::from(near.cycle) {
                0 => format!("{words}, that of record {other}"),
                n if n < 0 => format!("{words}, {} before record {other}", cycles(-n)),
                n => format!("{words}, {} after record {other}", cycles(n)),
            }
        }
        _ => words,
    }
}

fn needed(m: &Measured) -> String {
    match (m.legal, m.near.map(|c| i64::from(c.cycle))) {
        (Some(legal), Some(near)) if near < legal => {
            let apart = cycles(legal - near);
            format!("legal from cycle {} on, {apart} after it", grouped(legal))
        }
        (Some(legal), _) => format!("legal from cycle {} on", grouped(legal)),
        _ => String::new(),
    }
}

fn cycles(n: i64) -> String {
    match n {
        1 => "1 cycle".into(),
        n => format!("{} cycles", grouped(n)),
    }
}

/// On top of the marks: the ring round the record that it is too near to, or that left a bank open (rule 10).
pub fn ring(xml: &mut Xml, sheet: &Sheet, strip: &Strip, lanes: &Lanes) {
    let near = sheet
        .shown
        .near
        .and_then(|near| sheet.scene.commands.get(near));
    if let Some(near) = near.filter(|c| strip.holds(c.cycle.into())) {
        let (x, y) = (strip.x(near.cycle.into()), lanes.middle(near));
        if near.kind == REF {
            xml.rect([x - 20.0, y - 11.0, 40.0, 22.0], "red-ring");
        } else {
            xml.circle([x, y], 11.5, "red-ring");
        }
    }
}
