//! The four-ACT lane. The n-th ACT stands in row n modulo 4 with a bar that is FAW long, so the next in its row is the fifth ACT from it: rule 7
//! is kept exactly where no bar of a row starts before the one before it has ended.

use super::follows::Held;
use super::lanes::Lanes;
use super::marks::{told, Standing};
use super::time_axis::Strip;
use super::xml::{grouped, Xml};
use super::Sheet;

pub fn draw(xml: &mut Xml, sheet: &Sheet, strip: &Strip, lanes: &Lanes) {
    let reached = |(_, h): &(usize, &Held)| sheet.shown.reaches(h.record);
    let windows = &sheet.follows.windows;
    for (n, window) in windows.iter().enumerate().filter(reached) {
        let (x, end) = match strip.span(window.from, window.until) {
            Some(found) => found,
            None => continue,
        };
        let y = lanes.row_of_windows(n);
        let standing = sheet.standing(window.record);
        let fifth = windows.get(n + 4);
        let too_early = fifth.filter(|fifth| {
            sheet.standing(fifth.record) == Standing::Broken && fifth.from < window.until
        });
        let class = match (standing, too_early) {
            (Standing::Broken, _) => "window red-window",
            (Standing::Unjudged, _) => "window unjudged",
            (_, Some(_)) => "window red-line",
            _ => "window",
        };
        xml.open("span");
        let (act, until) = (told(sheet, window.record), grouped(window.until));
        let mut words = format!("{act}; the fifth ACT from it at cycle {until} or later");
        if let Some(fifth) = fifth {
            words += &format!(": it comes at {}", grouped(fifth.from));
        }
        xml.tip(&words);
        xml.rect([x, y + 1.5, end - x, 6.0], class);
        if strip.holds(window.from) {
            let class = match standing {
                Standing::Broken => "window-act red-act",
                Standing::Unjudged => "window-act unjudged",
                _ => "window-act",
            };
            xml.rect([x - 1.5, y + 0.5, 3.0, 8.0], class);
        }
        xml.close();
    }
}
