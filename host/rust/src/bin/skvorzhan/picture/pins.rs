//! The pins' lane: a read's burst from its cycle + RL, a write's from its cycle + WL, each B cycles long.

use super::follows::{reads, Held};
use super::lanes::Lanes;
use super::marks::{told, Standing};
use super::time_axis::Strip;
use super::xml::{grouped, width_of, Xml};
use super::Sheet;

pub fn draw(xml: &mut Xml, sheet: &Sheet, strip: &Strip, lanes: &Lanes) {
    for burst in bursts(sheet) {
        one(xml, sheet, strip, lanes, burst);
    }
    for (from, until) in shared(sheet) {
        if let Some((x, end)) = strip.span(from, until) {
            xml.open("span");
            xml.tip("two bursts share these cycles");
            xml.rect([x, lanes.pins + 2.0, end - x, 24.0], "shared");
            xml.close();
        }
    }
}

fn bursts<'a>(sheet: &Sheet<'a>) -> Vec<&'a Held> {
    let reached = |h: &&Held| sheet.shown.reaches(h.record);
    sheet.follows.bursts.iter().filter(reached).collect()
}

/// The cycles that two bursts share: no accepted schedule has one.
pub fn shared(sheet: &Sheet) -> Vec<(i64, i64)> {
    let mut ordered = bursts(sheet);
    ordered.sort_unstable_by_key(|h| (h.from, h.until));
    let mut until = i64::MIN;
    let mut all = Vec::new();
    for burst in ordered {
        if burst.from < until {
            all.push((burst.from, burst.until.min(until)));
        }
        until = until.max(burst.until);
    }
    all
}

fn one(xml: &mut Xml, sheet: &Sheet, strip: &Strip, lanes: &Lanes, burst: &Held) {
    let (x, end) = match strip.span(burst.from, burst.until) {
        Some(found) => found,
        None => return,
    };
    let c = match sheet.scene.commands.get(burst.record) {
        Some(c) => c,
        None => return,
    };
    let kind = if reads(c.kind) { "read" } else { "write" };
    // Neighbouring transactions differ in their shade, so that one sees where the next begins.
    let shade = if c.number % 2 == 0 { "" } else { "-odd" };
    let standing = sheet.standing(burst.record);
    let line = if standing == Standing::Broken {
        " red-line"
    } else {
        ""
    };
    xml.open(if standing == Standing::Unjudged {
        "unjudged"
    } else {
        "burst"
    });
    let (from, last) = (grouped(burst.from), grouped(burst.until - 1));
    let of = told(sheet, burst.record);
    xml.tip(&format!(
        "pins held by a {kind} in cycles {from} to {last} ({of})"
    ));
    let class = format!("burst-{kind}{shade}{line}");
    xml.rect([x, lanes.pins + 4.0, end - x, 20.0], &class);
    let (long, short) = (format!("bank {}", c.bank), c.bank.to_string());
    let fits = |words: &String| end - x > width_of(words, 10.0) + 5.0;
    if let Some(words) = [long, short].iter().find(|words| fits(words)) {
        let class = format!("on-burst on-{kind}{shade}");
        xml.words([(x + end) / 2.0, lanes.pins + 17.6], &class, words);
    }
    xml.close();
}
