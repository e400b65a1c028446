//! The model's files import each other in one direction, and `README.md` has the modules in that order.
//!
//! The sources are read as text: a file imports another where a path leads there, in a `use` or anywhere else.

use std::collections::{BTreeMap, BTreeSet};
use std::fs;
use std::path::Path;

/// A module's path below the crate, such as `runs` and `put`; that of `lib.rs` is empty.
type Module = Vec<String>;

#[derive(Default)]
struct Imports {
    all: BTreeSet<Module>,
    /// Those that are not of tests alone.
    own: BTreeSet<Module>,
}

type Graph = BTreeMap<Module, Imports>;

/// What a path to another file begins with, unless it is a module's own; `main.rs` has the crate's name.
const ROOTS: [&str; 4] = ["crate", "model", "super", "self"];

fn folder() -> &'static Path {
    Path::new(env!("CARGO_MANIFEST_DIR"))
}

/// The text of each module below a folder, without its comments.
fn read(folder: &Path, parent: &[String], texts: &mut BTreeMap<Module, String>) {
    for entry in fs::read_dir(folder).expect("a folder") {
        let path = entry.expect("an entry").path();
        let name = path.file_stem().expect("a name").to_string_lossy();
        let module = match &*name {
            "lib" => Module::new(),
            name => [parent, &[name.to_string()]].concat(),
        };
        if path.is_dir() {
            read(&path, &module, texts);
        } else {
            let text = fs::read_to_string(&path).expect("a source");
            let code = |line: &str| line.split("//").next().map(str::to_string);
            let lines: Vec<String> = text.lines().filter_map(code).collect();
            texts.insert(module, lines.join("\n"));
        }
    }
}

/// The modules that a text declares as files of their own, each with whether it is of tests alone.
fn declared(text: &str) -> BTreeMap<&str, bool> {
    let mut found = BTreeMap::new();
    let mut before = "";
    for line in text.lines().map(str::trim) {
        let declares = line.strip_prefix("pub ").unwrap_or(line);
        let name = declares.strip_prefix("mod ");
        if let Some(name) = name.and_then(|rest| rest.strip_suffix(';')) {
            found.insert(name, before == "#[cfg(test)]");
        }
        before = line;
    }
    found
}

fn is_of_word(c: char) -> bool {
    c.is_alphanumeric() || c == '_'
}

/// The path that a text begins with, or all of them where it ends in braces; what follows is left.
fn paths(text: &mut &str) -> Vec<Module> {
    let mut path = Module::new();
    loop {
        *text = text.trim_start();
        if let Some(rest) = text.strip_prefix('{') {
            *text = rest;
            let mut all = Vec::new();
            loop {
                *text = text.trim_start_matches(|c: char| c.is_whitespace() || c == ',');
                if text.is_empty() || text.starts_with('}') {
                    *text = text.get(1..).unwrap_or("");
                    return all;
                }
                let inner = paths(text);
                all.extend(inner.iter().map(|end| [&path[..], end].concat()));
                // A star, or another name for it.
                *text = text.trim_start_matches(|c: char| c != ',' && c != '}');
            }
        }
        let word = text.find(|c| !is_of_word(c)).unwrap_or(text.len());
        path.extend((word > 0).then(|| text[..word].to_string()));
        *text = &text[word..];
        match text.strip_prefix("::") {
            Some(rest) => *text = rest,
            None => return vec![path],
        }
    }
}

/// Where a path leads from a module, or from one that stands within its file, whose parent is then that module itself.
fn led_to(path: &[String], module: &[String], is_within: bool) -> Module {
    let mut at = module.to_vec();
    let mut is_within = is_within;
    for name in path {
        match name.as_str() {
            "crate" | "model" => at.clear(),
            "self" => (),
            "super" if is_within => is_within = false,
            "super" => _ = at.pop(),
            name => at.push(name.to_string()),
        }
    }
    at
}

/// What the text of a module imports, or the text of one that stands within its file.
fn imported(
    text: &str,
    module: &[String],
    is_within: bool,
    texts: &BTreeMap<Module, String>,
) -> BTreeSet<Module> {
    let children = declared(&texts[module]);
    let mut found = BTreeSet::new();
    let mut before = ' ';
    let mut rest = text;
    while let Some(c) = rest.chars().next() {
        let word = rest.find(|c| !is_of_word(c)).unwrap_or(rest.len());
        let starts = ROOTS.contains(&&rest[..word]) || children.contains_key(&rest[..word]);
        if starts && before != ':' && rest[word..].starts_with("::") {
            for path in paths(&mut &rest[..]) {
                let mut to = led_to(&path, module, is_within);
                // The last names are those of items.
                while !texts.contains_key(&to) {
                    to.pop();
                }
                found.insert(to);
            }
        }
        let passed = word.max(c.len_utf8());
        before = rest[..passed].chars().last().unwrap_or(' ');
        rest = &rest[passed..];
    }
    found.remove(module);
    found
}

fn graph() -> Graph {
    let mut texts = BTreeMap::new();
    read(&folder().join("src"), &[], &mut texts);
    let is_of_tests = |module: &Module| {
        (1..=module.len()).any(|n| {
            let (parent, name) = (&module[..n - 1], &module[n - 1][..]);
            let told = texts.get(parent).map(|text| declared(text));
            told.map_or(false, |all| all.get(name) == Some(&true))
        })
    };
    let mut graph = Graph::new();
    for (module, text) in &texts {
        let (own, tests) = text.split_once("mod tests {").unwrap_or((text, ""));
        let mut imports = Imports {
            own: imported(own, module, false, &texts),
            all: imported(tests, module, true, &texts),
        };
        imports.all.extend(imports.own.iter().cloned());
        if is_of_tests(module) {
            imports.own.clear();
        }
        graph.insert(module.clone(), imports);
    }
    graph
}

#[test]
fn the_sources_are_read() {
    let graph = graph();
    let of = |name: &str| name.split("::").map(str::to_string).collect::<Module>();
    let imports = |from: &str, to: &str| graph[&of(from)].all.contains(&of(to));
    assert!(imports("runs::put", "runs::controller"));
    assert!(imports("records", "records::tables"));
    assert!(imports("vectors", "calls"));
    assert!(imports("rules::times", "records"));
    assert!(imports("listing", "house") && !graph[&of("listing")].own.contains(&of("house")));
    assert!(imports("desk::tests::laws", "examples") && !imports("desk", "desk::tests"));
    assert!(graph[&of("desk::tests::laws")].own.is_empty());
}

/// Of tests neither.
#[test]
fn no_file_imports_another_in_a_circle() {
    let graph = graph();
    let mut left: BTreeSet<&Module> = graph.keys().collect();
    // One that imports none of those left, or that none of them imports, is in no circle.
    loop {
        let imports = |from: &Module, to: &Module| graph[from].all.contains(to);
        let stays = |&one: &&Module| {
            left.iter().any(|to| imports(one, to)) && left.iter().any(|from| imports(from, one))
        };
        let kept: BTreeSet<&Module> = left.iter().copied().filter(stays).collect();
        if kept == left {
            break;
        }
        left = kept;
    }
    let names: Vec<String> = left.iter().map(|module| module.join("::")).collect();
    assert!(names.is_empty(), "in a circle, or between two: {names:?}");
}

/// Each module of `lib.rs` stands in the table, above all that it imports outside its tests.
#[test]
fn the_layers() {
    let readme = fs::read_to_string(folder().join("README.md")).expect("README.md");
    let mut layers: BTreeMap<String, usize> = BTreeMap::new();
    for row in readme.lines().filter(|line| line.starts_with("| ")) {
        let cells: Vec<&str> = row.split('|').map(str::trim).collect();
        if let Ok(layer) = cells[1].parse() {
            let name = cells[2].trim_matches('`').to_string();
            assert!(layers.insert(name, layer).is_none(), "{row}");
        }
    }
    let graph = graph();
    let top = |module: &Module| module.first().cloned();
    let modules: BTreeSet<String> = graph.keys().filter_map(top).collect();
    let told: BTreeSet<String> = layers.keys().cloned().collect();
    assert_eq!(told, modules);
    for (from, imports) in &graph {
        for to in &imports.own {
            if let (Some(from), Some(to)) = (top(from), top(to)) {
                let is_above = layers[&from] > layers[&to];
                assert!(from == to || is_above, "{from} imports {to}");
            }
        }
    }
}
