//! As much of a reader of XML as the picture's own markup needs.

/// The names of all elements, or what is wrong.
pub fn elements(text: &str) -> Result<Vec<String>, String> {
    let mut rest = text
        .strip_prefix("<?xml version=\"1.0\" encoding=\"UTF-8\"?>")
        .ok_or("no declaration")?;
    let (mut open, mut all) = (Vec::new(), Vec::new());
    while let Some(at) = rest.find('<') {
        words(&rest[..at])?;
        let end = at + rest[at..].find('>').ok_or("a tag without an end")?;
        let tag = &rest[at + 1..end];
        rest = &rest[end + 1..];
        if let Some(name) = tag.strip_prefix('/') {
            if open.pop().as_deref() != Some(name) {
                return Err(format!("</{name}> closes nothing"));
            }
            continue;
        }
        let (tag, alone) = match tag.strip_suffix('/') {
            Some(tag) => (tag, true),
            None => (tag, false),
        };
        let name = tag.split(' ').next().unwrap_or("").to_string();
        attributes(tag[name.len()..].trim_start())?;
        if open.is_empty() && !all.is_empty() {
            return Err(format!("<{name}> outside"));
        }
        all.push(name.clone());
        if !alone {
            open.push(name);
        }
    }
    words(rest)?;
    match open.pop() {
        None => Ok(all),
        Some(name) => Err(format!("<{name}> is never closed")),
    }
}

fn attributes(mut rest: &str) -> Result<(), String> {
    let mut seen = Vec::new();
    while !rest.is_empty() {
        let (name, value) = rest.split_once("=\"").ok_or("an attribute without value")?;
        let (value, after) = value.split_once('"').ok_or("a value without an end")?;
        let is_name = |c: char| c.is_ascii_alphanumeric() || c == '-' || c == ':';
        if name.is_empty() || !name.chars().all(is_name) || seen.contains(&name) {
            return Err(format!("attribute {name:?}"));
        }
        words(value)?;
        seen.push(name);
        rest = after.trim_start();
    }
    Ok(())
}

fn words(text: &str) -> Result<(), String> {
    for part in text.split('&').skip(1) {
        let (name, _) = part.split_once(';').ok_or("an open entity")?;
        if !["amp", "lt", "gt", "quot", "apos"].contains(&name) {
            return Err(format!("entity {name:?}"));
        }
    }
    let legal = |c: char| matches!(c, '\t' | '\n' | '\r' | ' '..='\u{d7ff}' | '\u{e000}'..='\u{fffd}' | '\u{10000}'..);
    match text.chars().find(|&c| !legal(c)) {
        None => Ok(()),
        Some(c) => Err(format!("character {c:?}")),
    }
}

#[test]
fn the_reader_finds_what_is_wrong() {
    let read = |body: &str| elements(&format!("<?xml version=\"1.0\" encoding=\"UTF-8\"?>{body}"));
    assert_eq!(
        read("<a b=\"c\"><d/>e</a>"),
        Ok(vec!["a".into(), "d".into()])
    );
    let wrong = [
        "<a>",
        "</a>",
        "<a></b>",
        "<a/><b/>",
        "<a b=\"c/>",
        "<a b=\"c\" b=\"d\"/>",
        "<a>&</a>",
        "<a>&nbsp;</a>",
        "<a>\u{1}</a>",
        "<a b=c/>",
    ];
    for body in wrong {
        assert!(read(body).is_err(), "{body}");
    }
}
