//! The calls and structs are written three times: in the Rattle code, in the header and in `raw.rs`. Each has the same names and types in the
//! same order.

use std::collections::BTreeMap;
use std::fs;
use std::path::{Path, PathBuf};

/// The name of a call or a struct, with its parameters or fields, each as `name: type` in the words of `raw.rs`; of a call its result too.
type Said = BTreeMap<String, Vec<String>>;

fn root() -> PathBuf {
    Path::new(env!("CARGO_MANIFEST_DIR")).join("../..")
}

fn read(file: &Path) -> String {
    fs::read_to_string(file).unwrap_or_else(|e| panic!("{}: {e}", file.display()))
}

/// What stands between the two, for each time that they stand there; with what stands after.
fn between<'a>(text: &'a str, first: &str, last: &str) -> Vec<(&'a str, &'a str)> {
    let found = text.split(first).skip(1);
    found.filter_map(|rest| rest.split_once(last)).collect()
}

fn words(text: &str) -> String {
    text.split_whitespace().collect::<Vec<_>>().join(" ")
}

/// What stands between the commas.
fn parts(text: &str) -> Vec<String> {
    text.split(',')
        .map(words)
        .filter(|p| !p.is_empty())
        .collect()
}

/// Of Rust and of Rattle.
fn said_in(text: &str) -> Said {
    let lines = text
        .lines()
        .map(|line| line.split("//").next().unwrap_or(""));
    let text = lines.collect::<Vec<_>>().join("\n");
    let mut said = Said::new();
    for (head, rest) in between(&text, "fn skv_", ")") {
        let (name, parameters) = head.split_once('(').expect("parameters");
        let mut all: Vec<String> = parts(parameters).iter().flat_map(|p| crosses(p)).collect();
        let result = rest.split_once("-> ").expect("a result").1;
        let end = |c: char| !c.is_alphanumeric();
        all.push(named(result.split(end).next().unwrap_or("")));
        // Rattle has each call twice: in `host`, and in `host_c` under its C name.
        if let Some(same) = said.insert(format!("skv_{name}"), Vec::clone(&all)) {
            assert_eq!(same, all);
        }
    }
    for (name, rest) in between(&text, "#[repr(C)]", "{") {
        let name = name.split("struct ").nth(1).expect("a struct").trim();
        let fields = rest.split_once('}').expect("its end").0;
        let fields = parts(fields)
            .iter()
            .map(|f| f.replace("pub ", ""))
            .collect();
        // Rattle has two structs for what is one to the host.
        if let Some(same) = said.insert(named(name), Vec::clone(&fields)) {
            assert_eq!(same, fields, "{name}");
        }
    }
    said
}

fn named(name: &str) -> String {
    match name {
        "StartAnswer" | "RunAnswer" => "ControllerAnswer".to_string(),
        name => name.to_string(),
    }
}

/// A parameter as it crosses: a slice as a pointer and a number of elements.
fn crosses(parameter: &str) -> Vec<String> {
    let (name, of) = parameter.split_once(": ").expect("a type");
    let (pointer, to) = match (of.strip_prefix("&mut "), of.strip_prefix('&')) {
        (Some(to), _) => ("*mut", to),
        (None, Some(to)) => ("*const", to),
        (None, None) => return vec![parameter.to_string()],
    };
    match to.strip_prefix('[').and_then(|to| to.strip_suffix(']')) {
        Some(of) => vec![
            format!("{name}: {pointer} {of}"),
            format!("{name}_len: usize"),
        ],
        None => vec![format!("{name}: {pointer} {to}")],
    }
}

/// A type of C's, in the words of `raw.rs`.
fn of_c(name: &str) -> String {
    let camel = |name: &str| -> String {
        let word = |w: &str| w[..1].to_uppercase() + &w[1..];
        name.split('_').map(word).collect()
    };
    match name {
        "uint8_t" => "u8".to_string(),
        "uint16_t" => "u16".to_string(),
        "uint32_t" => "u32".to_string(),
        "size_t" => "usize".to_string(),
        "skv_bank" => "HostBank".to_string(),
        "skv_group" => "HostGroup".to_string(),
        name => camel(name.strip_prefix("skv_").expect("a type of the header's")),
    }
}

/// `T name, name`: each of them.
fn fields(text: &str) -> Vec<String> {
    let text = words(text);
    let (of, names) = text.split_once(' ').expect("a type and names");
    let one = |name: &str| declared(&format!("{of} {name}"));
    names.split(',').map(one).collect()
}

/// `T name`, `T name[N]`, `T *name` and `const T *name`.
fn declared(text: &str) -> String {
    let text = words(text);
    let (of, name) = text.rsplit_once(' ').expect("a type and a name");
    if let Some(name) = name.strip_prefix('*') {
        return match of.strip_prefix("const ") {
            Some(of) => format!("{name}: *const {}", of_c(of)),
            None => format!("{name}: *mut {}", of_c(of)),
        };
    }
    match name.split_once('[') {
        Some((name, size)) => format!("{name}: [{}; {}]", of_c(of), size.trim_end_matches(']')),
        None => format!("{name}: {}", of_c(of)),
    }
}

fn said_in_header(text: &str) -> Said {
    let mut code = String::new();
    for part in format!("*/{text}").split("*/").skip(1) {
        code.push_str(part.split("/*").next().unwrap_or(""));
    }
    let code: Vec<&str> = code.lines().filter(|line| !line.starts_with('#')).collect();
    let code = code.join("\n");
    let mut said = Said::new();
    for (head, rest) in between(&code, "typedef struct ", "{") {
        let (lines, _) = rest.split_once('}').expect("its end");
        let lines = lines.split(';').filter(|f| !f.trim().is_empty());
        said.insert(of_c(head.trim()), lines.flat_map(fields).collect());
    }
    let calls = code.split(';').filter_map(|part| part.split_once('('));
    for (head, parameters) in calls {
        let head = words(head.rsplit('}').next().unwrap_or(""));
        let (result, name) = head.rsplit_once(' ').expect("a result");
        let result = result.rsplit(' ').next().unwrap_or("");
        let parameters = parts(parameters.trim_end_matches(')'));
        let mut all: Vec<String> = parameters.iter().map(|p| declared(p)).collect();
        all.push(of_c(result));
        said.insert(name.to_string(), all);
    }
    said
}

/// All Rattle code below a folder.
fn code_below(folder: &Path, text: &mut String) {
    for entry in fs::read_dir(folder).expect("the crates") {
        let path = entry.expect("an entry").path();
        if path.is_dir() {
            // What the prover leaves holds copies.
            if !path.ends_with("out") {
                code_below(&path, text);
            }
        } else if path.extension().map_or(false, |e| e == "rt") {
            text.push_str(&read(&path));
        }
    }
}

fn alike(where_else: &str, other: &Said, raw: &Said) {
    for (name, said) in raw {
        assert_eq!(other.get(name), Some(said), "{name}, in {where_else}");
    }
    let more: Vec<_> = other
        .keys()
        .filter(|name| !raw.contains_key(*name))
        .collect();
    assert!(more.is_empty(), "only in {where_else}: {more:?}");
}

#[test]
fn three_texts() {
    let raw = said_in(&read(&root().join("host/rust/src/raw.rs")));
    assert_eq!(raw.len(), 36 + 16);
    // The second header stands in the first.
    let mut header = said_in_header(&read(&root().join("host/skvorzhan.h")));
    for (name, said) in said_in_header(&read(&root().join("host/skvorzhan_straight.h"))) {
        assert!(header.insert(name, said).is_none());
    }
    alike("the headers", &header, &raw);
    // A call of the second engine is the plain one but for its name.
    let straight = raw.iter().filter(|(name, _)| name.contains("_straight"));
    let plain = |name: &str| raw.get(&name.replace("_straight", ""));
    let alike_but_for_names = straight.filter(|(name, said)| plain(name) == Some(said));
    assert_eq!(alike_but_for_names.count(), 7);
    let mut code = String::new();
    code_below(&root().join("crates"), &mut code);
    alike("the Rattle code", &said_in(&code), &raw);
}
