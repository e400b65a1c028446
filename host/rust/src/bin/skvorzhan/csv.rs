//! Rows of fields between separators. A field may stand between quotes, where a quote is written twice and the separator is a character as any other; it
//! ends on its line. Blank lines, and lines that begin with `#`, are passed over.

use crate::bad::{shown, Bad};

pub struct Row {
    /// From 1.
    pub line: usize,
    /// Without the blanks about them.
    pub fields: Vec<String>,
}

pub fn rows<'a>(
    file: &'a str,
    text: &'a str,
    separator: char,
) -> impl Iterator<Item = Result<Row, Bad>> + 'a {
    let lines = text.lines().zip(1..);
    let said = lines.filter(|(line, _)| {
        let line = line.trim();
        !line.is_empty() && !line.starts_with('#')
    });
    said.map(move |(text, line)| {
        let fields = fields(text, separator).map_err(|what| Bad::line(file, line, what))?;
        Ok(Row { line, fields })
    })
}

fn fields(line: &str, separator: char) -> Result<Vec<String>, String> {
    let mut all = Vec::new();
    let mut rest = line;
    loop {
        let start = rest.trim_start_matches(|c| is_blank(c, separator));
        let (field, after) = match start.strip_prefix('"') {
            Some(inside) => quoted(inside, separator)?,
            None => bare(start, separator),
        };
        all.push(field);
        match after {
            Some(next) => rest = next,
            None => return Ok(all),
        }
    }
}

/// A separator may be a blank itself.
fn is_blank(c: char, separator: char) -> bool {
    c != separator && (c == ' ' || c == '\t' || c == '\r')
}

/// A field, and what stands behind the separator after it, if one does.
type Field<'a> = (String, Option<&'a str>);

fn bare(text: &str, separator: char) -> Field<'_> {
    match text.split_once(separator) {
        Some((field, after)) => (field.trim().to_string(), Some(after)),
        None => (text.trim().to_string(), None),
    }
}

fn quoted(inside: &str, separator: char) -> Result<Field<'_>, String> {
    let mut field = String::new();
    let mut rest = inside;
    loop {
        let (part, after) = rest
            .split_once('"')
            .ok_or_else(|| format!("expected a quote at the end of the field {}", shown(inside)))?;
        field.push_str(part);
        match after.strip_prefix('"') {
            Some(more) => {
                field.push('"');
                rest = more;
            }
            None => {
                rest = after.trim_start_matches(|c| is_blank(c, separator));
                break;
            }
        }
    }
    let field = field.trim().to_string();
    match rest.strip_prefix(separator) {
        Some(next) => Ok((field, Some(next))),
        None if rest.is_empty() => Ok((field, None)),
        None => Err(format!(
            "expected `{separator}` after the quoted field, not {}",
            shown(rest)
        )),
    }
}
