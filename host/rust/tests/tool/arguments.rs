//! Bad use, and help.

use crate::Folder;

#[test]
fn bad_use_has_status_3_and_says_what_was_expected() {
    let folder = Folder::new();
    folder.put("s.txt", "");
    let cases = [
        ("", "expected a command; `skvorzhan --help` names them"),
        ("juge", "expected a command, judge, pattern, "),
        ("help juge", "expected a command, judge, pattern, "),
        (
            "judge",
            "expected SCHEDULE behind the options; there are 0 arguments",
        ),
        (
            "judge a b",
            "expected SCHEDULE behind the options; there are 2 arguments",
        ),
        ("judge s.txt", "expected --edition E: "),
        ("judge --edition 7 s.txt", "expected --table FILE: "),
        ("judge --edition", "expected --edition E"),
        (
            "judge --edition x --table a.table s.txt",
            "expected a number for --edition, 0 to 65535, not `x`",
        ),
        (
            "judge --edition 65536 --table a.table s.txt",
            "expected a number for --edition, 0 to 65535, not `65536`",
        ),
        (
            "judge --edition 7 --edition 7 --table a.table s.txt",
            "--edition is given twice",
        ),
        (
            "judge --length 7 --table a.table s.txt",
            "judge has no option `--length`; it has --edition --table --json",
        ),
        ("judge --json=1 s.txt", "--json takes no value"),
        ("judge -x s.txt", "judge has no option `-x`"),
        (
            "pattern --edition 7 --table a.table s.txt",
            "expected --length L",
        ),
        (
            "bound --edition 7 --table a.table --bi 1",
            "expected --bc N",
        ),
        (
            "bound --edition 7 --table a.table --bi 256 --bc 1",
            "expected a number for --bi, 0 to 255, not `256`",
        ),
        (
            "bound --edition 7 --table a.table --bi 1 --bc 1 s.txt",
            "expected no file behind the options",
        ),
        (
            "shortest --edition 7 --table a.table --bi 1 --bc 1",
            "expected one of --read and --write",
        ),
        (
            "shortest --edition 7 --table a.table --read --write --bi 1 --bc 1",
            "expected one of --read and --write",
        ),
        (
            "trace --edition 7 --table a.table --stamps s.txt",
            "--stamps and --cycles speak of a column",
        ),
        (
            "trace --edition 7 --table a.table --time t --stamps --cycles s.txt",
            "--stamps and --cycles exclude each other",
        ),
        (
            "trace --edition 7 --table a.table --separator ab s.txt",
            "expected one character, and no quote, for --separator",
        ),
        (
            "judge --edition 7 --table - -",
            "standard input can be read once only",
        ),
        (
            "convert table",
            "expected table, list, schedule, pattern or capture, and a FILE",
        ),
        (
            "convert tables a.table",
            "expected table, list, schedule, pattern or capture, not `tables`",
        ),
    ];
    for (line, what) in cases {
        let told = folder.run(line);
        assert_eq!((told.status, told.out.as_str()), (3, ""), "{line}");
        assert!(
            told.err.starts_with(&format!("skvorzhan: {what}")),
            "{line}: {}",
            told.err
        );
    }
}

#[test]
fn help_is_there_for_all_and_for_each() {
    let folder = Folder::new();
    let all = folder.run("--help");
    assert_eq!((all.status, all.err.as_str()), (0, ""));
    for line in ["help", "-h"] {
        assert_eq!(folder.run(line).out, all.out);
    }
    let names = [
        "judge", "pattern", "schedule", "bound", "trace", "serves", "shortest", "picture",
        "explain", "convert",
    ];
    for name in names {
        assert!(all.out.contains(&format!("  skvorzhan {name} ")), "{name}");
        let one = folder.run(&format!("{name} --help"));
        assert_eq!(one.status, 0);
        assert!(one.out.starts_with(&format!("usage: skvorzhan {name} ")));
        assert_eq!(folder.run(&format!("help {name}")).out, one.out);
    }
    for line in all.out.lines() {
        assert!(line.chars().count() <= 145, "{line}");
    }
}

#[test]
fn a_file_may_begin_with_a_dash_behind_two() {
    let folder = Folder::new();
    folder.put("-s.txt", "0 ACT 0 0\n10 RDA 0 0\n");
    let told = folder.by_a("judge -- -s.txt");
    assert_eq!(told.status, 0, "{}", told.err);
}
