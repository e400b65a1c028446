//! Above the strips: the title, what is shown, the table's numbers, and of a refused schedule the rule's sentence.

use super::xml::{grouped, wrapped, Xml};
use super::Sheet;

const NAMES: [&str; 20] = [
    "edition", "banks", "B", "CCD", "RCD", "RP", "RAS", "RC", "RRD", "FAW", "RL", "WL", "RTP",
    "WR", "WTR", "RFC", "groups", "long CCD", "long RRD", "long WTR",
];
/// Left and right of the heading and the legend.
pub const MARGIN: f64 = 24.0;

/// Answers where it ends.
pub fn draw(xml: &mut Xml, sheet: &Sheet, width: f64) -> f64 {
    let room = width - 2.0 * MARGIN;
    let mut y = 38.0;
    for line in wrapped(&sheet.scene.title, 22.0, room, 2) {
        xml.words([MARGIN, y], "title", &line);
        y += 25.0;
    }
    y -= 4.0;
    let mut lines = wrapped(&told(sheet), 12.0, room, 3);
    lines.extend(left_out(sheet));
    for line in lines {
        xml.words([MARGIN, y], "subtitle", &line);
        y += 17.0;
    }
    for line in wrapped(&table(sheet), 11.0, room, 3) {
        xml.words([MARGIN, y], "table", &line);
        y += 16.0;
    }
    y += 2.0;
    if let Some(broken) = &sheet.scene.broken {
        let lines = wrapped(&broken.sentence, 13.0, room - 40.0, 8);
        let height = 34.0 + 18.0 * lines.len() as f64;
        xml.rect([MARGIN, y, room, height], "refusal");
        xml.rect([MARGIN, y, 6.0, height], "refusal-edge");
        let record = grouped(broken.record as i64);
        let first = if sheet.left_open {
            format!(
                "At the end, record {record}: rule {} is broken",
                broken.rule
            )
        } else {
            format!("Record {record} breaks rule {}", broken.rule)
        };
        xml.words([MARGIN + 20.0, y + 21.0], "refused", &first);
        for (line, n) in lines.iter().zip(1..) {
            let at = [MARGIN + 20.0, y + 21.0 + 18.0 * f64::from(n)];
            xml.words(at, "sentence", line);
        }
        y += height + 10.0;
    }
    y + 4.0
}

fn told(sheet: &Sheet) -> String {
    let commands = &sheet.scene.commands;
    let mut words = format!("edition {}", sheet.scene.edition);
    let cycles = || commands.iter().map(|c| i64::from(c.cycle));
    match (commands.len(), cycles().min(), cycles().max()) {
        (1, Some(cycle), _) => words += &format!(" · 1 command, at cycle {}", grouped(cycle)),
        (n, Some(least), Some(most)) => {
            let [n, least, most] = [n as i64, least, most].map(grouped);
            words += &format!(" · {n} commands, cycles {least} to {most}");
        }
        _ => words += " · no commands",
    }
    match sheet.scene.finishes.len() {
        0 => (),
        1 => words += " · 1 transaction",
        n => words += &format!(" · {} transactions", grouped(n as i64)),
    }
    words
}

fn left_out(sheet: &Sheet) -> Option<String> {
    let (shown, whole) = (sheet.shown, sheet.scene.commands.len());
    if shown.first == 0 && shown.until == whole {
        return None;
    }
    let [first, last, whole] = [shown.first, shown.until - 1, whole].map(|n| grouped(n as i64));
    let mut words = format!("Shown are records {first} to {last} of {whole}");
    match shown.near {
        Some(near) if !(shown.first..shown.until).contains(&near) => {
            words += &format!(
                ", and record {}; the others are left out.",
                grouped(near as i64)
            );
        }
        _ => words += "; the others are left out.",
    }
    Some(words)
}

/// The group's numbers only where there are groups.
fn table(sheet: &Sheet) -> String {
    let count = if sheet.follows.times.groups > 1 {
        20
    } else {
        16
    };
    let named = NAMES.iter().zip(&sheet.scene.table).take(count).skip(1);
    let words: Vec<String> = named.map(|(name, n)| format!("{name}\u{a0}{n}")).collect();
    words.join(" · ")
}
