//! Where something is left out: the gaps of the time axis, and the ends of a picture that doesn't show all records.

use super::lanes::Lanes;
use super::time_axis::{Strip, EDGE, GAP};
use super::xml::{grouped, Xml};
use super::Sheet;

/// Over the spans, which run on behind a gap, and under the marks.
pub fn draw(xml: &mut Xml, sheet: &Sheet, strip: &Strip, lanes: &Lanes) {
    let middle = (lanes.axis + lanes.bottom) / 2.0;
    for piece in strip.pieces.iter().filter(|p| p.left_out > 0) {
        let (from, until) = (piece.x - GAP + 4.0, piece.x - 4.0);
        let words = format!("{} cycles left out", grouped(piece.left_out));
        xml.open("gap");
        xml.tip(&words);
        torn(xml, lanes, from, until);
        xml.upwards([(from + until) / 2.0 + 3.5, middle], "aside", &words);
        xml.close();
    }
    let shown = sheet.shown;
    let strips = &shown.strips;
    if shown.first > 0 && strips.first() == Some(strip) {
        torn(xml, lanes, EDGE - 2.0, EDGE + 4.0);
    }
    let more = sheet.scene.commands.len() - shown.until;
    if more > 0 && strips.last() == Some(strip) {
        let right = strip.right();
        torn(xml, lanes, right, right + 6.0);
        let words = match more {
            1 => "1 record more".into(),
            more => format!("{} records more", grouped(more as i64)),
        };
        xml.upwards([right + 18.0, middle], "aside", &words);
    }
}

/// The paper without lanes, from one torn edge to the other.
fn torn(xml: &mut Xml, lanes: &Lanes, from: f64, until: f64) {
    let edge = |x: f64| {
        let steps = ((lanes.bottom - lanes.axis + 8.0) / 9.0).max(1.0) as usize;
        let at = move |n: usize| {
            let side = if n % 2 == 0 { -2.5 } else { 2.5 };
            [x + side, lanes.axis - 4.0 + 9.0 * n as f64]
        };
        (0..=steps).map(at).collect::<Vec<_>>()
    };
    let (left, right) = (edge(from), edge(until));
    let whole: Vec<_> = left.iter().chain(right.iter().rev()).copied().collect();
    xml.polygon(&whole, "torn");
    xml.polyline(&left, "tear");
    xml.polyline(&right, "tear");
}
