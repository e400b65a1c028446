//! A small strict reader of XML, enough to say that a picture is well formed: one root, each tag closed by its own, attributes quoted and given
//! once, no bare `<` or `&`.

pub struct Tag {
    pub name: String,
    pub attributes: Vec<(String, String)>,
}

/// Every tag in order, or what is wrong.
pub fn tags(text: &str) -> Result<Vec<Tag>, String> {
    let mut all = Vec::new();
    let mut open: Vec<String> = Vec::new();
    let mut roots = 0;
    let mut rest = text;
    if let Some(after) = rest.strip_prefix("<?xml ") {
        rest = after.split_once("?>").ok_or("a declaration without end")?.1;
    }
    while let Some((before, after)) = rest.split_once('<') {
        characters(before, !open.is_empty())?;
        if let Some(comment) = after.strip_prefix("!--") {
            let (inside, after) = comment.split_once("-->").ok_or("a comment without end")?;
            if inside.contains("--") {
                return Err("two dashes in a comment".to_string());
            }
            rest = after;
            continue;
        }
        let (inside, after) = tag_end(after)?;
        rest = after;
        if let Some(name) = inside.strip_prefix('/') {
            let last = open.pop();
            if last.as_deref() != Some(name.trim_end()) {
                return Err(format!("{name} closes {last:?}"));
            }
            continue;
        }
        let (inside, closed) = match inside.strip_suffix('/') {
            Some(inside) => (inside, true),
            None => (inside, false),
        };
        let tag = tag(inside)?;
        if open.is_empty() {
            roots += 1;
        }
        if !closed {
            open.push(tag.name.clone());
        }
        all.push(tag);
    }
    characters(rest, false)?;
    match (roots, open.last()) {
        (1, None) => Ok(all),
        (_, Some(name)) => Err(format!("{name} is not closed")),
        (n, None) => Err(format!("{n} roots")),
    }
}

/// The tag's end, which is not one within quotes.
fn tag_end(text: &str) -> Result<(&str, &str), String> {
    let mut quote = None;
    for (place, c) in text.char_indices() {
        match (quote, c) {
            (None, '>') => return Ok((&text[..place], &text[place + 1..])),
            (None, '"' | '\'') => quote = Some(c),
            (Some(q), c) if q == c => quote = None,
            _ => {}
        }
    }
    Err("a tag without end".to_string())
}

fn characters(text: &str, inside: bool) -> Result<(), String> {
    if !inside && !text.trim().is_empty() {
        return Err(format!("text outside the root: {text:?}"));
    }
    if text
        .chars()
        .any(|c| u32::from(c) < 32 && !"\t\r\n".contains(c))
    {
        return Err("a character that XML does not have".to_string());
    }
    for part in text.split('&').skip(1) {
        let (name, _) = part.split_once(';').ok_or("a bare &")?;
        let number = name.strip_prefix('#').map_or(false, |digits| {
            !digits.is_empty() && digits.bytes().all(|b| b.is_ascii_digit())
        });
        if !number && !["lt", "gt", "amp", "quot", "apos"].contains(&name) {
            return Err(format!("&{name};"));
        }
    }
    Ok(())
}

fn is_name(name: &str) -> bool {
    let first = name.chars().next();
    first.map_or(false, |c| c.is_ascii_alphabetic())
        && name
            .chars()
            .all(|c| c.is_ascii_alphanumeric() || "-_:.".contains(c))
}

fn tag(inside: &str) -> Result<Tag, String> {
    let end = inside.find(char::is_whitespace).unwrap_or(inside.len());
    let (name, mut rest) = inside.split_at(end);
    if !is_name(name) {
        return Err(format!("a tag named {name:?}"));
    }
    let mut attributes: Vec<(String, String)> = Vec::new();
    loop {
        let next = rest.trim_start();
        if next.is_empty() {
            break;
        }
        if next.len() == rest.len() {
            return Err(format!("no blank before {next:?}"));
        }
        let (key, after) = next.split_once('=').ok_or("an attribute without value")?;
        let quote = after.chars().next().filter(|c| "\"'".contains(*c));
        let quote = quote.ok_or("a value without quotes")?;
        let (value, after) = after[1..].split_once(quote).ok_or("a value without end")?;
        if !is_name(key) || value.contains('<') || attributes.iter().any(|(k, _)| k == key) {
            return Err(format!("attribute {key:?} of {name}"));
        }
        characters(value, true)?;
        attributes.push((key.to_string(), value.to_string()));
        rest = after;
    }
    let name = name.to_string();
    Ok(Tag { name, attributes })
}

#[test]
fn it_tells_good_from_bad() {
    assert_eq!(
        tags("<?xml version=\"1.0\"?>\n<a b='1' c=\">\"><!-- x --><d/>&lt;&#60;</a>\n")
            .map(|t| t.len()),
        Ok(2)
    );
    let bad = [
        "",
        "<a>",
        "<a></b>",
        "<a/><a/>",
        "<a b=1/>",
        "<a b='1' b='2'/>",
        "<a>&</a>",
        "<a>&nbsp;</a>",
        "<a b='<'/>",
        "x<a/>",
        "<a/>x",
        "<1/>",
        "<a b='1'c='2'/>",
        "<a>\u{1}</a>",
        "<a",
        "<!-- <a/>",
    ];
    for text in bad {
        assert!(tags(text).is_err(), "{text}");
    }
}
