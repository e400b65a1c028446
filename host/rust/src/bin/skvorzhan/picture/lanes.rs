//! The lanes of a strip, from top to bottom: the cycles, the red one that says why the record is refused, the refreshes, one a bank, the pins,
//! the four-ACT window and the finishes; and what stands behind the marks: names and grid.

use skvorzhan::Command;

use super::finishes;
use super::follows::REF;
use super::time_axis::{Strip, EDGE};
use super::xml::{grouped, width_of, Xml};
use super::Sheet;

/// An accepted table has no more banks. Of any other that had, only those that are used would have a lane.
const MOST_BANKS: i64 = 16;

const AXIS: f64 = 24.0;
const WHY: f64 = 34.0;
const USED: f64 = 26.0;
const UNUSED: f64 = 14.0;
/// Where the cycle is written below the mark.
const NAMED: f64 = 10.0;
const PINS: f64 = 28.0;
const ROW_OF_WINDOWS: f64 = 9.0;
const BETWEEN: f64 = 7.0;
/// Where the lanes' names end.
pub const NAME: f64 = EDGE - 10.0;

pub struct Lane {
    /// None for commands to banks that the table doesn't have (rule 1).
    pub bank: Option<u8>,
    pub y: f64,
    pub height: f64,
}

pub struct Lanes {
    pub axis: f64,
    pub why: Option<f64>,
    pub refreshes: Option<Lane>,
    pub banks: Vec<Lane>,
    pub pins: f64,
    pub windows: f64,
    pub finishes: Option<f64>,
    pub bottom: f64,
}

impl Lanes {
    pub fn of(sheet: &Sheet, strip: &Strip, top: f64) -> Lanes {
        let mut y = top + AXIS;
        let mut take = |height: f64| {
            let at = y;
            y += height;
            at
        };
        let axis = top + AXIS;
        let why = sheet.explains(strip).then(|| take(WHY));
        let height = USED + if sheet.cycles_named { NAMED } else { 0.0 };
        let refreshes = sheet.refreshed.then(|| Lane {
            bank: None,
            y: take(height),
            height,
        });
        let lane = |(bank, used): (Option<u8>, bool)| {
            let height = if used { height } else { UNUSED };
            (bank, height)
        };
        let banks = banks(sheet)
            .into_iter()
            .map(lane)
            .map(|(bank, height)| Lane {
                bank,
                y: take(height),
                height,
            })
            .collect();
        take(BETWEEN);
        let pins = take(PINS);
        take(BETWEEN);
        let windows = take(4.0 * ROW_OF_WINDOWS);
        take(BETWEEN);
        let rows = finishes::rows(sheet, strip).len();
        let finishes = (rows > 0).then(|| take(finishes::ROW * rows as f64 + 4.0));
        Lanes {
            axis,
            why,
            refreshes,
            banks,
            pins,
            windows,
            finishes,
            bottom: y,
        }
    }

    pub fn of_bank(&self, bank: u8) -> Option<&Lane> {
        self.banks.iter().find(|lane| lane.bank == Some(bank))
    }

    /// Where the marks of a bank's lane stand: above the middle, since the cycle is written below them.
    pub fn middle_of(lane: &Lane) -> f64 {
        lane.y + lane.height.min(USED) / 2.0
    }

    /// Where a command has its mark: of a bank that the table doesn't have, in the last lane.
    pub fn of_command(&self, c: &Command) -> Option<&Lane> {
        match &self.refreshes {
            Some(lane) if c.kind == REF => Some(lane),
            _ => self.of_bank(c.bank).or_else(|| self.banks.last()),
        }
    }

    pub fn middle(&self, c: &Command) -> f64 {
        self.of_command(c).map_or(self.axis, Lanes::middle_of)
    }

    pub fn row_of_windows(&self, row: usize) -> f64 {
        self.windows + ROW_OF_WINDOWS * (row % 4) as f64
    }

    /// Where the last bank's lane ends.
    pub fn end_of_banks(&self) -> f64 {
        self.banks.last().map_or(self.pins, |l| l.y + l.height)
    }
}

/// Each bank that has a lane, with whether a command shown is to it; last a lane for banks that the table doesn't have.
fn banks(sheet: &Sheet) -> Vec<(Option<u8>, bool)> {
    let banks = sheet.follows.times.banks;
    let mut all = Vec::new();
    for bank in 0..=u8::MAX {
        let used = sheet.used[usize::from(bank)];
        if i64::from(bank) < banks && (banks <= MOST_BANKS || used) {
            all.push((Some(bank), used));
        }
    }
    let within = |bank: usize| (bank as i64) < banks;
    if (0..256).any(|bank| sheet.used[bank] && !within(bank)) {
        all.push((None, true));
    }
    all
}

/// Names, grid, and the cycles' own lane.
pub fn draw(xml: &mut Xml, sheet: &Sheet, strip: &Strip, lanes: &Lanes) {
    let right = strip.right();
    let groups = sheet.follows.times.groups;
    for lane in &lanes.banks {
        let slim = lane.height <= UNUSED;
        let box_of = [EDGE, lane.y + 1.0, right - EDGE, lane.height - 2.0];
        xml.rect(box_of, if slim { "lane slim" } else { "lane" });
        let name = match lane.bank {
            Some(bank) if groups > 1 => {
                format!("bank {bank} · group {}", i64::from(bank) % groups)
            }
            Some(bank) => format!("bank {bank}"),
            None => "no such bank".into(),
        };
        let class = if slim { "name faint" } else { "name" };
        xml.words([NAME, Lanes::middle_of(lane) + 3.8], class, &name);
    }
    if let Some(lane) = &lanes.refreshes {
        xml.rect(
            [EDGE, lane.y + 1.0, right - EDGE, lane.height - 2.0],
            "lane",
        );
        xml.words([NAME, Lanes::middle_of(lane) + 3.8], "name", "refresh");
    }
    xml.rect([EDGE, lanes.pins, right - EDGE, PINS], "lane");
    xml.words([NAME, lanes.pins + 18.0], "name", "pins");
    let windows = [EDGE, lanes.windows, right - EDGE, 4.0 * ROW_OF_WINDOWS];
    xml.rect(windows, "lane");
    xml.words([NAME, lanes.windows + 16.0], "name", "four ACTs");
    let faw = format!("FAW {}", sheet.follows.times.faw);
    xml.words([NAME, lanes.windows + 28.0], "name small", &faw);
    if let Some(y) = lanes.finishes {
        xml.rect([EDGE, y, right - EDGE, lanes.bottom - y], "lane");
        xml.words([NAME, y + 15.0], "name", "finishes");
    }
    cycles(xml, strip, lanes);
}

fn cycles(xml: &mut Xml, strip: &Strip, lanes: &Lanes) {
    let widest = grouped(strip.until());
    let ticks = strip.ticks(width_of(&widest, 11.0) + 18.0);
    for cycle in ticks {
        let x = strip.x(cycle);
        xml.line([x, lanes.axis], [x, lanes.bottom], "grid");
        xml.line([x, lanes.axis - 5.0], [x, lanes.axis], "tick");
        xml.words([x, lanes.axis - 9.0], "cycle", &grouped(cycle));
    }
    let from = [EDGE, lanes.axis];
    xml.line(from, [strip.right(), lanes.axis], "tick");
    xml.words([NAME, lanes.axis - 9.0], "name small", "cycle");
}
