//! The banks' lanes: how long each bank is open and precharging, and the refreshes, which hold all of them.

use super::follows::{Held, Opened};
use super::lanes::{Lane, Lanes};
use super::marks::Standing;
use super::time_axis::Strip;
use super::xml::{grouped, width_of, Xml};
use super::Sheet;

pub fn draw(xml: &mut Xml, sheet: &Sheet, strip: &Strip, lanes: &Lanes) {
    for opened in spans(sheet) {
        if let Some(lane) = lanes.of_bank(opened.bank) {
            span(xml, sheet, strip, lane, opened);
        }
    }
}

/// Those that a record shown belongs to, and of each bank the last one before, whose precharge may still run.
fn spans<'a>(sheet: &Sheet<'a>) -> Vec<&'a Opened> {
    let shown = sheet.shown;
    let mut last: Vec<Option<&Opened>> = vec![None; 256];
    let mut all = Vec::new();
    for opened in sheet.follows.opened.iter().filter(|o| o.act < shown.until) {
        let open_to_the_end = !opened.closed && opened.start == i64::MAX;
        if opened.last >= shown.first || open_to_the_end || shown.near == Some(opened.last) {
            all.push(opened);
        } else {
            last[usize::from(opened.bank)] = Some(opened);
        }
    }
    all.extend(last.into_iter().flatten());
    all
}

fn span(xml: &mut Xml, sheet: &Sheet, strip: &Strip, lane: &Lane, opened: &Opened) {
    let middle = Lanes::middle_of(lane);
    let judged = sheet.standing(opened.act) == Standing::Kept;
    let class = |of: &str| {
        if judged {
            of.to_string()
        } else {
            format!("{of} dashed")
        }
    };
    let left_open = sheet.left_open && !opened.closed && opened.start == i64::MAX;
    if let Some((x, end)) = strip.span(opened.from, opened.start) {
        xml.open("span");
        let from = grouped(opened.from);
        let until = match opened.start {
            i64::MAX => "never closed".into(),
            start => format!("precharge starts at {}", grouped(start)),
        };
        xml.tip(&format!(
            "bank {} open from cycle {from}, {until}",
            opened.bank
        ));
        let class = if left_open {
            "left-open".into()
        } else {
            class("open")
        };
        xml.rect([x, middle - 6.0, end - x, 12.0], &class);
        if left_open {
            let words = "still open at the end";
            if end - x > width_of(words, 10.0) + 70.0 {
                xml.words([end - 6.0, middle + 3.5], "red-words end", words);
            }
        }
        xml.close();
    }
    if let Some((x, end)) = strip.span(opened.start, opened.precharged) {
        xml.open("span");
        let (start, ready) = (grouped(opened.start), grouped(opened.precharged));
        let bank = opened.bank;
        xml.tip(&format!(
            "bank {bank} precharging from cycle {start}, ready at {ready}"
        ));
        xml.rect([x, middle - 6.0, end - x, 12.0], &class("precharging"));
        xml.close();
    }
}

/// Behind the spans: what each REF holds.
pub fn refreshes(xml: &mut Xml, sheet: &Sheet, strip: &Strip, lanes: &Lanes) {
    let lane = match &lanes.refreshes {
        Some(lane) => lane,
        None => return,
    };
    let (top, middle) = (lane.y + lane.height, Lanes::middle_of(lane));
    let bottom = lanes.end_of_banks();
    let own = |h: &&Held| sheet.shown.reaches(h.record);
    for held in sheet.follows.refreshes.iter().filter(own) {
        if let Some((x, end)) = strip.span(held.from, held.until) {
            let judged = sheet.standing(held.record) == Standing::Kept;
            xml.open(if judged { "span" } else { "unjudged" });
            let (cycle, ready) = (grouped(held.from), grouped(held.until));
            xml.tip(&format!(
                "refresh from cycle {cycle}, no ACT or REF before {ready}"
            ));
            xml.rect([x, middle - 6.0, end - x, 12.0], "refresh");
            xml.rect([x, top, end - x, bottom - top], "refreshing");
            let words = format!("RFC {}", sheet.follows.times.rfc);
            // Behind the mark, unless the broken one's ghost may stand there.
            let free = strip.holds(held.from) && sheet.standing(held.record) != Standing::Broken;
            if free && end - x > 22.0 + width_of(&words, 10.0) {
                xml.words([x + 23.0, middle + 3.5], "aside left", &words);
            }
            xml.close();
        }
    }
}
