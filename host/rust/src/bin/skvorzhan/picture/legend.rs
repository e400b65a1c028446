//! Below the strips: what each mark and span is. Only what the picture can hold is told.

use super::follows::{name, ACT, RD, RDA, REF, WR, WRA};
use super::heading::MARGIN;
use super::marks::{mark, Standing};
use super::pins;
use super::xml::{width_of, Xml};
use super::Sheet;

const LINE: f64 = 28.0;

enum Sign {
    Kind(u8),
    /// A span's class.
    Span(&'static str),
    Window,
    Finish,
    Arrival,
    Broken,
    Ghost,
    Unjudged,
}

/// Answers where it ends.
pub fn draw(xml: &mut Xml, sheet: &Sheet, top: f64, width: f64) -> f64 {
    xml.line([MARGIN, top], [width - MARGIN, top], "rule");
    let (mut x, mut y) = (MARGIN, top + LINE * 0.8);
    for (sign, words) in signs(sheet) {
        // A mark is narrower than a span, but for the REF's.
        let sign_width = match sign {
            Sign::Kind(REF) => 42.0,
            Sign::Kind(_) | Sign::Broken | Sign::Ghost | Sign::Unjudged => 26.0,
            _ => 46.0,
        };
        let wide = sign_width + width_of(&words, 10.5) + 18.0;
        if x + wide > width - MARGIN / 2.0 && x > MARGIN {
            x = MARGIN;
            y += LINE;
        }
        draw_one(xml, &sign, x + sign_width / 2.0 - 3.0, y);
        xml.words([x + sign_width, y + 4.0], "legend", &words);
        x += wide;
    }
    y + LINE
}

fn signs(sheet: &Sheet) -> Vec<(Sign, String)> {
    let has = |kind: u8| sheet.scene.commands.iter().any(|c| c.kind == kind);
    let mut all: Vec<(Sign, String)> = Vec::new();
    let mut add = |sign, words: &str| all.push((sign, words.to_string()));
    for kind in [ACT, RD, RDA, WR, WRA, REF] {
        let more = match kind {
            ACT => " opens the bank",
            RDA | WRA => ", with auto precharge",
            _ => "",
        };
        if kind < REF || sheet.refreshed {
            add(Sign::Kind(kind), &(name(kind) + more));
        }
    }
    if sheet.scene.commands.iter().any(|c| c.kind > REF) {
        add(Sign::Kind(u8::MAX), "no known kind");
    }
    add(Sign::Span("open"), "bank open, to precharge start");
    add(Sign::Span("precharging"), "precharging, RP");
    if sheet.refreshed {
        add(Sign::Span("refreshing"), "refreshing, RFC: no ACT, no REF");
    }
    let paler = match sheet.scene.commands.iter().any(|c| c.number % 2 == 1) {
        true => ", paler for an odd transaction",
        false => "",
    };
    if has(RD) || has(RDA) {
        add(
            Sign::Span("burst-read"),
            &format!("pins held by a read{paler}"),
        );
    }
    if has(WR) || has(WRA) {
        add(
            Sign::Span("burst-write"),
            &format!("pins held by a write{paler}"),
        );
    }
    if !pins::shared(sheet).is_empty() {
        add(Sign::Span("shared"), "two bursts share cycles");
    }
    add(
        Sign::Window,
        "an ACT and FAW cycles from it: the fifth ACT, next in the row, not before its end",
    );
    if !sheet.scene.finishes.is_empty() {
        add(
            Sign::Finish,
            "from where the count starts: the finish, and the promised finish",
        );
    }
    if sheet.scene.finishes.iter().any(|f| f.arrival > 0) {
        add(Sign::Arrival, "the count starts at the arrival");
    }
    if sheet.broken_record().is_some() {
        add(Sign::Broken, "the broken record");
        if sheet
            .scene
            .broken
            .as_ref()
            .map_or(false, |b| b.legal.is_some())
        {
            add(Sign::Ghost, "where it would have been legal");
        }
        if sheet
            .broken_record()
            .map_or(false, |r| r + 1 < sheet.scene.commands.len())
        {
            add(Sign::Unjudged, "after it: not judged");
        }
    }
    all
}

fn draw_one(xml: &mut Xml, sign: &Sign, x: f64, y: f64) {
    match *sign {
        Sign::Kind(kind) => mark(xml, kind, [x, y], Standing::Kept),
        Sign::Broken => mark(xml, ACT, [x, y], Standing::Broken),
        Sign::Ghost => mark(xml, ACT, [x, y], Standing::Ghost),
        Sign::Unjudged => {
            xml.open("unjudged");
            mark(xml, ACT, [x, y], Standing::Unjudged);
            xml.close();
        }
        Sign::Span(class) => xml.rect([x - 18.0, y - 6.0, 38.0, 12.0], class),
        Sign::Arrival => {
            xml.rect([x - 4.0, y - 4.0, 24.0, 10.0], "promise");
            let corners = [[x - 8.0, y - 8.0], [x, y - 8.0], [x - 4.0, y - 2.0]];
            xml.polygon(&corners, "arrival");
        }
        Sign::Window => {
            xml.rect([x - 18.0, y - 3.0, 38.0, 6.0], "window");
            xml.rect([x - 19.5, y - 4.0, 3.0, 8.0], "window-act");
        }
        Sign::Finish => {
            xml.rect([x - 18.0, y - 6.0, 38.0, 12.0], "promise");
            xml.rect([x - 18.0, y - 6.0, 20.0, 12.0], "read");
            let corners = [
                [x - 3.0, y],
                [x + 2.0, y - 7.0],
                [x + 7.0, y],
                [x + 2.0, y + 7.0],
            ];
            xml.polygon(&corners, "finish-mark");
            xml.line([x + 20.0, y - 9.0], [x + 20.0, y + 9.0], "bound");
        }
    }
}
