//! The picture: a schedule as an SVG that a person would rather look at than read. Time runs from left to right, and there is one lane a bank,
//! one for the pins, one for the four-ACT window and one for the finishes against what was promised; the broken record is red, with its rule.
//!
//! It stands alone: no scripts, nothing fetched. Whatever the commands are, the XML is well-formed and the picture bounded: idle stretches are broken
//! out of the time axis (`time_axis`), and of a schedule with too many records only some are shown, which the heading says (`shown`).

mod banks;
mod broken;
mod finishes;
mod follows;
mod gaps;
mod heading;
mod lanes;
mod legend;
mod looks;
mod marks;
mod pins;
mod shown;
#[cfg(test)]
mod tests;
mod time_axis;
mod windows;
mod xml;

use skvorzhan::Command;

use follows::{Follows, REF};
use lanes::Lanes;
use marks::Standing;
use shown::Shown;
use time_axis::Strip;
use xml::{grouped, number, width_of, Xml};

/// All that the picture shows. Everything in it was told by the proved calls or stood in the files.
pub struct Scene {
    pub title: String,
    pub edition: u32,
    pub table: [u16; 20],
    pub commands: Vec<Command>,
    pub broken: Option<Broken>,
    pub finishes: Vec<Finish>,
}

/// The record that the judge refused.
pub struct Broken {
    /// The number of all records for rule 10.
    pub record: usize,
    pub rule: u32,
    pub sentence: String,
    /// The earlier record that it is too near to.
    pub near: Option<usize>,
    /// The least cycle at which it would have been legal.
    pub legal: Option<u32>,
}

pub struct Finish {
    pub transaction: usize,
    /// 0 read, 1 write, 2 refresh.
    pub kind: u8,
    pub arrival: u32,
    pub finish: u32,
    pub promised: u32,
}

/// Right of the strips, where it is said that more records follow.
const RIGHT: f64 = 34.0;
const BETWEEN_STRIPS: f64 = 22.0;

/// What every lane is drawn from.
struct Sheet<'a> {
    scene: &'a Scene,
    follows: &'a Follows,
    shown: &'a Shown,
    /// Which banks a record shown is to.
    used: Vec<bool>,
    /// Whether there is a REF, and so a lane for it.
    refreshed: bool,
    /// Whether each mark's cycle is written below it.
    cycles_named: bool,
    /// Rule 10: a bank is open at the end.
    left_open: bool,
}

impl<'a> Sheet<'a> {
    fn of(scene: &'a Scene, follows: &'a Follows, shown: &'a Shown) -> Sheet<'a> {
        let records = (shown.first..shown.until).chain(shown.near);
        let mut used = vec![false; 256];
        let mut refreshed = false;
        let mut last = 0;
        for c in records.filter_map(|r| scene.commands.get(r)) {
            if c.kind == REF {
                refreshed = true;
            } else {
                used[usize::from(c.bank)] = true;
            }
            last = last.max(c.cycle);
        }
        let broken = scene.broken.as_ref();
        let name = width_of(&grouped(last.into()), 8.5);
        Sheet {
            scene,
            follows,
            shown,
            used,
            refreshed,
            cycles_named: shown.apart > name + 5.0 && name < 42.0,
            left_open: broken.map_or(false, |b| b.record >= scene.commands.len()),
        }
    }

    /// None where it is no record but the end, which rule 10 refuses.
    fn broken_record(&self) -> Option<usize> {
        let record = self.scene.broken.as_ref()?.record;
        (record < self.scene.commands.len()).then_some(record)
    }

    fn standing(&self, record: usize) -> Standing {
        match self.broken_record() {
            Some(broken) if record == broken => Standing::Broken,
            Some(broken) if record > broken => Standing::Unjudged,
            _ => Standing::Kept,
        }
    }

    /// Whether the strip has something of why the record is refused.
    fn explains(&self, strip: &Strip) -> bool {
        let broken = match (&self.scene.broken, self.broken_record()) {
            (Some(broken), Some(_)) => broken,
            _ => return false,
        };
        let records = [Some(broken.record), broken.near];
        let cycle = |record: &usize| self.scene.commands.get(*record).map(|c| c.cycle);
        let cycles = records.iter().flatten().filter_map(cycle);
        let mut all = cycles.chain(broken.legal).map(i64::from);
        all.any(|cycle| strip.holds(cycle))
    }
}

pub fn svg(scene: &Scene) -> String {
    let follows = Follows::of(scene);
    let shown = Shown::of(scene, &follows);
    let sheet = Sheet::of(scene, &follows, &shown);
    let right = shown.strips.iter().map(Strip::right).fold(0.0, f64::max);
    let width = right + RIGHT;
    // The height is known at the end, so the element that tells it is written last and put first.
    let mut xml = Xml::default();
    let mut y = heading::draw(&mut xml, &sheet, width);
    for strip in &shown.strips {
        let lanes = Lanes::of(&sheet, strip, y);
        draw_strip(&mut xml, &sheet, strip, &lanes);
        y = lanes.bottom + BETWEEN_STRIPS;
    }
    let height = legend::draw(&mut xml, &sheet, y, width);
    let mut whole = Xml::default();
    let (w, h) = (number(width), number(height));
    whole.raw("<?xml version=\"1.0\" encoding=\"UTF-8\"?>");
    whole.raw(&format!(
        "<svg xmlns=\"http://www.w3.org/2000/svg\" width=\"{w}\" height=\"{h}\" viewBox=\"0 0 {w} {h}\" role=\"img\">"
    ));
    whole.tip(&scene.title);
    whole.raw(looks::STYLE);
    whole.rect([0.0, 0.0, width, height], "paper");
    whole.raw(&xml.done());
    whole.raw("</svg>");
    whole.done()
}

fn draw_strip(xml: &mut Xml, sheet: &Sheet, strip: &Strip, lanes: &Lanes) {
    lanes::draw(xml, sheet, strip, lanes);
    banks::refreshes(xml, sheet, strip, lanes);
    broken::too_early(xml, sheet, strip, lanes);
    banks::draw(xml, sheet, strip, lanes);
    pins::draw(xml, sheet, strip, lanes);
    windows::draw(xml, sheet, strip, lanes);
    finishes::draw(xml, sheet, strip, lanes);
    gaps::draw(xml, sheet, strip, lanes);
    broken::behind(xml, sheet, strip, lanes);
    marks::draw(xml, sheet, strip, lanes);
    broken::ring(xml, sheet, strip, lanes);
}
