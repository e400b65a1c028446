//! The papers that speak of the tool say what it says.

use crate::{paper, Folder};
use std::collections::BTreeSet;

/// README's table of the refusals, row by row.
#[test]
fn readme_has_the_refusals_that_are_explained() {
    let folder = Folder::new();
    let readme = paper("README.md");
    let rows = readme.lines().filter_map(|line| {
        let cells: Vec<&str> = line.split('|').map(str::trim).collect();
        match cells[..] {
            ["", number, cause, position, cure, ""] if number.parse::<u32>().is_ok() => {
                Some((number, cause, position, cure))
            }
            _ => None,
        }
    });
    let rows: Vec<_> = rows.collect();
    assert_eq!(rows.len(), 13);
    for (number, cause, position, cure) in rows {
        let told = folder.run(&format!("explain {number}")).out;
        let words =
            format!("refusal {number}\ncause: {cause}\nthe position is {position}\ncure: {cure}\n");
        assert!(told.starts_with(&words), "{told}\n{words}");
    }
}

/// Words that begin with a dash: an option's name.
fn options(text: &str) -> BTreeSet<String> {
    let words = text.split(|c: char| c.is_whitespace() || "[](),.;:`|=/".contains(c));
    let options = words.filter(|word| word.len() > 1 && word.starts_with('-'));
    options.map(str::to_string).collect()
}

#[test]
fn the_man_page_has_the_commands_and_options_of_the_help() {
    let folder = Folder::new();
    let help = folder.run("--help").out;
    let page = paper("host/skvorzhan.1").replace("\\-", "-");
    let page: String = page
        .lines()
        .filter(|line| !line.starts_with(".\\\""))
        .map(|line| {
            let macros = [".BR ", ".B ", ".IR ", ".I ", ".RB ", ".SH ", ".TP"];
            let plain = macros.iter().find_map(|name| line.strip_prefix(name));
            let line = plain
                .unwrap_or(line)
                .replace("\\fB", "")
                .replace("\\fI", "");
            format!("{}\n", line.replace("\\fR", ""))
        })
        .collect();
    assert_eq!(options(&page), options(&help));
    let commands = help
        .lines()
        .filter_map(|line| line.strip_prefix("  skvorzhan "));
    for command in commands {
        let name = command.split(' ').next().unwrap_or("");
        assert!(page.contains(&format!("\nskvorzhan {name}")), "{name}");
        // Each command's options stand in its own part.
        let own = folder.run(&format!("help {name}")).out;
        let part = page
            .split(&format!("\nskvorzhan {name}"))
            .nth(1)
            .unwrap_or("");
        let part = part.split("\nskvorzhan ").next().unwrap_or("");
        let part = part.split("\nOPTIONS\n").next().unwrap_or("");
        let listed = own.split("\n\n").nth(2).unwrap_or("");
        let listed: BTreeSet<String> = listed
            .lines()
            .filter_map(|line| line.strip_prefix("  -"))
            .filter_map(|line| line.split(' ').next())
            .map(|name| format!("-{name}"))
            .collect();
        assert_eq!(options(part), listed, "{name}");
    }
}

/// The session that README shows is the one that `host/session` runs.
#[test]
fn readme_has_the_session_that_runs() {
    let session = paper("examples/helpline/session.txt");
    let shown: String = session
        .lines()
        .map(|line| format!("    {line}\n"))
        .collect();
    let shown = shown.replace("    \n", "\n");
    assert!(
        paper("README.md").contains(&shown),
        "README.md lacks\n{shown}"
    );
}
