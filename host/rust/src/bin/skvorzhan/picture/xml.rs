//! The text of the picture: elements, attributes and escaped words. All that others wrote goes through `escaped`, so the XML is well-formed
//! whatever stood in the files.

use std::fmt::Write;

/// The document while it is written.
#[derive(Default)]
pub struct Xml {
    text: String,
}

/// XML 1.0 has no place for most control characters, even escaped: such a one becomes U+FFFD.
pub fn escaped(words: &str) -> String {
    let mut out = String::with_capacity(words.len());
    for c in words.chars() {
        match c {
            '&' => out.push_str("&amp;"),
            '<' => out.push_str("&lt;"),
            '>' => out.push_str("&gt;"),
            '"' => out.push_str("&quot;"),
            '\'' => out.push_str("&apos;"),
            '\t' | '\n' | '\r' => out.push(' '),
            '\0'..='\u{1f}' | '\u{7f}'..='\u{9f}' | '\u{fffe}' | '\u{ffff}' => out.push('\u{fffd}'),
            c => out.push(c),
        }
    }
    out
}

/// A place or a length: one digit after the point, never anything that is no number.
pub fn number(n: f64) -> String {
    if !n.is_finite() {
        return "0".into();
    }
    let tenths = (n * 10.0).round() as i64;
    if tenths % 10 == 0 {
        return (tenths / 10).to_string();
    }
    let sign = if tenths < 0 { "-" } else { "" };
    let tenths = tenths.unsigned_abs();
    format!("{sign}{}.{}", tenths / 10, tenths % 10)
}

/// A count as people write it: 20,000,000.
pub fn grouped(n: i64) -> String {
    let digits = n.unsigned_abs().to_string();
    let mut out = String::from(if n < 0 { "-" } else { "" });
    for (i, digit) in digits.chars().enumerate() {
        if i > 0 && (digits.len() - i) % 3 == 0 {
            out.push(',');
        }
        out.push(digit);
    }
    out
}

/// About how wide the words stand. The reader's font isn't known; this leans to the wide side, so that nothing meets.
pub fn width_of(words: &str, size: f64) -> f64 {
    words.chars().count() as f64 * size * 0.58
}

/// The words in lines that are at most so wide, at most so many; a word that is too long is cut, and what is left over ends in dots.
pub fn wrapped(words: &str, size: f64, width: f64, most: usize) -> Vec<String> {
    let room = ((width / width_of("n", size)) as usize).max(8);
    let mut lines = vec![String::new()];
    let mut held = 0;
    for word in words.split_whitespace() {
        let letters: Vec<char> = word.chars().collect();
        for part in letters.chunks(room) {
            if held > 0 && held + 1 + part.len() > room {
                if lines.len() == most {
                    if let Some(last) = lines.last_mut() {
                        last.push_str(" …");
                    }
                    return lines;
                }
                lines.push(String::new());
                held = 0;
            }
            if let Some(line) = lines.last_mut() {
                if held > 0 {
                    line.push(' ');
                    held += 1;
                }
                line.extend(part);
                held += part.len();
            }
        }
    }
    lines
}

impl Xml {
    /// Markup of the picture's own; nothing from a file.
    pub fn raw(&mut self, markup: &str) {
        self.text.push_str(markup);
        self.text.push('\n');
    }

    pub fn done(self) -> String {
        self.text
    }

    pub fn open(&mut self, class: &str) {
        self.put(format_args!("<g class=\"{class}\">"));
    }

    pub fn close(&mut self) {
        self.raw("</g>");
    }

    /// What a person sees who rests the pointer on the group that was opened last.
    pub fn tip(&mut self, words: &str) {
        self.put(format_args!("<title>{}</title>", escaped(words)));
    }

    pub fn rect(&mut self, [x, y, w, h]: [f64; 4], class: &str) {
        let [x, y, w, h] = [x, y, w.max(0.0), h.max(0.0)].map(number);
        self.put(format_args!(
            "<rect class=\"{class}\" x=\"{x}\" y=\"{y}\" width=\"{w}\" height=\"{h}\"/>"
        ));
    }

    pub fn line(&mut self, from: [f64; 2], to: [f64; 2], class: &str) {
        let ([x, y], [u, v]) = (from.map(number), to.map(number));
        self.put(format_args!(
            "<line class=\"{class}\" x1=\"{x}\" y1=\"{y}\" x2=\"{u}\" y2=\"{v}\"/>"
        ));
    }

    pub fn circle(&mut self, at: [f64; 2], r: f64, class: &str) {
        let ([x, y], r) = (at.map(number), number(r));
        self.put(format_args!(
            "<circle class=\"{class}\" cx=\"{x}\" cy=\"{y}\" r=\"{r}\"/>"
        ));
    }

    /// Straight lines from corner to corner and back to the first.
    pub fn polygon(&mut self, corners: &[[f64; 2]], class: &str) {
        let points = listed(corners);
        self.put(format_args!(
            "<polygon class=\"{class}\" points=\"{points}\"/>"
        ));
    }

    pub fn polyline(&mut self, corners: &[[f64; 2]], class: &str) {
        let points = listed(corners);
        self.put(format_args!(
            "<polyline class=\"{class}\" points=\"{points}\"/>"
        ));
    }

    pub fn words(&mut self, [x, y]: [f64; 2], class: &str, words: &str) {
        let ([x, y], words) = ([x, y].map(number), escaped(words));
        self.put(format_args!(
            "<text class=\"{class}\" x=\"{x}\" y=\"{y}\">{words}</text>"
        ));
    }

    /// Words that run upwards.
    pub fn upwards(&mut self, [x, y]: [f64; 2], class: &str, words: &str) {
        let ([x, y], words) = ([x, y].map(number), escaped(words));
        self.put(format_args!(
            "<text class=\"{class}\" transform=\"translate({x} {y}) rotate(-90)\">{words}</text>"
        ));
    }

    fn put(&mut self, markup: std::fmt::Arguments) {
        // A String takes whatever is written.
        let _ = writeln!(self.text, "{markup}");
    }
}

fn listed(corners: &[[f64; 2]]) -> String {
    let one = |[x, y]: &[f64; 2]| format!("{},{}", number(*x), number(*y));
    corners.iter().map(one).collect::<Vec<_>>().join(" ")
}
