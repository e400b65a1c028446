//! The marks of the commands. Each kind has a shape and letters of its own, so that nobody needs the colours to tell them apart: an ACT is a
//! house, a read round, a write square, a REF long with six corners, and a bar behind a read or a write is its auto precharge.

use super::follows::{name, reads, writes, ACT, RDA, REF, WRA};
use super::lanes::Lanes;
use super::time_axis::Strip;
use super::xml::{grouped, Xml};
use super::Sheet;

/// How a record stands before the judge, who stops at the first broken one.
#[derive(Debug, Clone, Copy, PartialEq, Eq)]
pub enum Standing {
    Kept,
    Broken,
    Unjudged,
    /// No record: where the broken one would have been legal.
    Ghost,
}

fn letters(kind: u8) -> &'static str {
    let all = ["A", "R", "RA", "W", "WA", "REF"];
    all.get(usize::from(kind)).copied().unwrap_or("?")
}

fn colour(kind: u8, standing: Standing) -> &'static str {
    match standing {
        Standing::Broken => "broken",
        Standing::Ghost => "ghost",
        _ if kind == ACT => "act",
        _ if reads(kind) => "read",
        _ if writes(kind) => "write",
        _ if kind == REF => "ref",
        _ => "stray",
    }
}

/// The mark alone, its middle at the place.
pub fn mark(xml: &mut Xml, kind: u8, [x, y]: [f64; 2], standing: Standing) {
    let class = colour(kind, standing);
    let corners = |all: &[[f64; 2]]| all.iter().map(|c| [x + c[0], y + c[1]]).collect::<Vec<_>>();
    if kind == ACT {
        let house = [
            [-7.0, 8.0],
            [-7.0, -3.0],
            [0.0, -9.0],
            [7.0, -3.0],
            [7.0, 8.0],
        ];
        xml.polygon(&corners(&house), class);
    } else if reads(kind) {
        xml.circle([x, y], 8.0, class);
    } else if writes(kind) {
        xml.rect([x - 7.5, y - 7.5, 15.0, 15.0], class);
    } else if kind == REF {
        let long = [
            [-17.0, 0.0],
            [-12.0, -8.0],
            [12.0, -8.0],
            [17.0, 0.0],
            [12.0, 8.0],
            [-12.0, 8.0],
        ];
        xml.polygon(&corners(&long), class);
    } else {
        let diamond = [[-9.0, 0.0], [0.0, -9.0], [9.0, 0.0], [0.0, 9.0]];
        xml.polygon(&corners(&diamond), class);
    }
    if kind == RDA || kind == WRA {
        xml.rect([x + 8.5, y - 8.0, 2.5, 16.0], class);
    }
    let letters = letters(kind);
    let (size, drop) = if letters.len() == 1 {
        ("one", 3.8)
    } else {
        ("two", 3.0)
    };
    let drop = if kind == ACT { drop + 1.2 } else { drop };
    xml.words([x, y + drop], &format!("{size} on-{class}"), letters);
}

/// What is told of a record where the pointer rests.
pub fn told(sheet: &Sheet, record: usize) -> String {
    match sheet.scene.commands.get(record) {
        None => format!("record {record}"),
        Some(c) => {
            let to = if c.kind == REF && c.bank == 0 {
                "all banks".into()
            } else {
                format!("bank {}", c.bank)
            };
            let (cycle, kind, number) = (grouped(c.cycle.into()), name(c.kind), c.number);
            format!("cycle {cycle}: {kind} to {to}, transaction {number}, record {record}")
        }
    }
}

/// All commands of a strip, the broken one last, on top of what it meets.
pub fn draw(xml: &mut Xml, sheet: &Sheet, strip: &Strip, lanes: &Lanes) {
    let broken = sheet.broken_record();
    let shown = sheet.shown;
    let outside = shown
        .near
        .filter(|n| !(shown.first..shown.until).contains(n));
    let others = outside.into_iter().chain(shown.first..shown.until);
    let all = others.filter(|&r| Some(r) != broken).chain(broken);
    for record in all {
        let c = match sheet.scene.commands.get(record) {
            Some(c) if strip.holds(c.cycle.into()) => c,
            _ => continue,
        };
        let (x, y) = (strip.x(c.cycle.into()), lanes.middle(c));
        let standing = sheet.standing(record);
        let faint = if standing == Standing::Unjudged {
            "mark unjudged"
        } else {
            "mark"
        };
        xml.open(faint);
        let more = match (standing, &sheet.scene.broken) {
            (Standing::Broken, Some(b)) => format!(": breaks rule {}: {}", b.rule, b.sentence),
            (Standing::Unjudged, _) => ", not judged any more".into(),
            _ => String::new(),
        };
        xml.tip(&(told(sheet, record) + &more));
        if standing == Standing::Broken {
            let wide = if c.kind == REF { 21.0 } else { 12.5 };
            xml.rect([x - wide, y - 11.5, 2.0 * wide, 23.0], "halo");
        }
        mark(xml, c.kind, [x, y], standing);
        if sheet.cycles_named || standing == Standing::Broken {
            let class = if standing == Standing::Broken {
                "when when-broken"
            } else {
                "when"
            };
            xml.words([x, y + 19.5], class, &grouped(c.cycle.into()));
        }
        xml.close();
    }
}
