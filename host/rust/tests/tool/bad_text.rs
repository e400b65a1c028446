//! Bad text is refused with the file, the line and what was expected there.

use crate::{Folder, Told, TABLE_A};

/// Of a line that is run with edition 7 and table A.
#[track_caller]
fn bad(folder: &Folder, line: &str, told: &str) {
    bad_use(folder.by_a(line), told);
}

#[track_caller]
fn bad_use(found: Told, told: &str) {
    assert_eq!((found.status, found.out.as_str()), (3, ""), "{}", found.err);
    let told = format!("skvorzhan: {told}");
    assert!(found.err.starts_with(&told), "{}", found.err);
}

#[test]
fn of_a_schedule() {
    let folder = Folder::new();
    let cases = [
        (
            "0 ACT 0 0\n\n# so\n6 ACTT 1 0\n",
            "s.txt:4: expected a kind, ACT, RD, RDA, WR, WRA, REF or a number 0 to 255, not `ACTT`",
        ),
        (
            "0 ACT 0\n",
            "s.txt:1: expected a transaction number, 0 to 65535, after `0 ACT 0`",
        ),
        (
            "0\n",
            "s.txt:1: expected `CYCLE KIND BANK TRANSACTION`: the kind is missing",
        ),
        (
            "0 ACT 0 0 0\n",
            "s.txt:1: expected the line's end after `CYCLE KIND BANK TRANSACTION`, not `0`",
        ),
        (
            "4294967296 ACT 0 0\n",
            "s.txt:1: expected a cycle, 0 to 4294967295, not `4294967296`",
        ),
        (
            "0 ACT 256 0\n",
            "s.txt:1: expected a bank, 0 to 255, not `256`",
        ),
        ("0 256 0 0\n", "s.txt:1: expected a kind"),
        (
            "0 ACT 0 65536\n",
            "s.txt:1: expected a transaction number, 0 to 65535, not `65536`",
        ),
        (
            "-1 ACT 0 0\n",
            "s.txt:1: expected a cycle, 0 to 4294967295, not `-1`",
        ),
        (
            "+1 ACT 0 0\n",
            "s.txt:1: expected a cycle, 0 to 4294967295, not `+1`",
        ),
        (
            "edition 7 commands 2\n0 ACT 0 0\n",
            "s.txt:1: expected 2 commands, as this line says; there are 1",
        ),
        (
            "edition 7 command 2\n",
            "s.txt:1: expected `edition E commands N`",
        ),
        (
            "finish 0 10\n0 ACT 0 0\n",
            "s.txt:2: expected no command after the finishes or the verdict, not `0`",
        ),
        (
            "refused 10 at 5 edition 5\n",
            "s.txt:1: expected a cycle, 0 to 4294967295, not `refused`",
        ),
        (
            "record 1 breaks\n",
            "s.txt:1: expected `CYCLE KIND BANK TRANSACTION`, not `record 1 breaks`",
        ),
        (
            "\u{1b}[31m ACT 0 0\n",
            "s.txt:1: expected a cycle, 0 to 4294967295, not `\\u{1b}[31m`",
        ),
    ];
    for (text, told) in cases {
        folder.put("s.txt", text);
        bad(&folder, "judge s.txt", told);
    }
    folder.put("s.txt", b"0 ACT 0 0\n\xff\xfe\n");
    bad(&folder, "judge s.txt", "s.txt:2: expected text in UTF-8");
    folder.put("s.txt", "9 ".repeat(100_000));
    bad(&folder, "judge s.txt", "s.txt:1: expected the line's end");
}

#[test]
fn of_a_list() {
    let folder = Folder::new();
    let cases = [
        (
            "reed 0 1 1\n",
            "l.txt:1: expected a type, read, write, refresh or a number 0 to 255, not `reed`",
        ),
        (
            "read 0 1\n",
            "l.txt:1: expected BC, 0 to 255, after `read 0 1`",
        ),
        (
            "read 0 256 1\n",
            "l.txt:1: expected BI, 0 to 255, not `256`",
        ),
        (
            "read 0 1 1 5\n",
            "l.txt:1: expected `at ARRIVAL` or the line's end, not `5`",
        ),
        (
            "read 0 1 1 at\n",
            "l.txt:1: expected an arrival, 0 to 4294967295, after `read 0 1 1 at`",
        ),
        (
            "read 0 1 1 at 5 6\n",
            "l.txt:1: expected the line's end after `at ARRIVAL`, not `6`",
        ),
        (
            "refresh 0\n",
            "l.txt:1: expected BI, 0 to 255, after `refresh 0`",
        ),
        ("finish 0 10\n", "l.txt:1: expected a type"),
    ];
    for (text, told) in cases {
        folder.put("l.txt", text);
        bad(&folder, "schedule l.txt", told);
    }
}

#[test]
fn of_a_table() {
    let folder = Folder::new();
    folder.put("s.txt", "");
    let record = "record = 32\n";
    let cases = [
        (String::new(), "t.table: expected `record = 32` or `record = 40`"),
        (TABLE_A.replace(record, ""), "t.table:1: expected `record = 32` or `record = 40` before any other number, not `edition = 7`"),
        (TABLE_A.replace("32\n", "33\n"), "t.table:1: expected `record = 32` or `record = 40` before any other number, not `record = 33`"),
        (TABLE_A.replace("RCD = 10\n", ""), "t.table: expected `RCD = NUMBER`: a record of 32 bytes has 16 numbers, and RCD is missing"),
        (TABLE_A.replace("RCD =", "RCD"), "t.table:6: expected `NAME = NUMBER`, not `RCD 10`"),
        (TABLE_A.replace("RCD = 10", "RCD = 65536"), "t.table:6: expected RCD, 0 to 65535, not `65536`"),
        (TABLE_A.replace("RCD = 10", "RCD = 10 ns"), "t.table:6: expected RCD, 0 to 65535, not `10 ns`"),
        (TABLE_A.replace("RP =", "RCD ="), "t.table:7: RCD stands here a second time"),
        (format!("{TABLE_A}groups = 1\n"), "t.table:18: expected a name of the record of 32 bytes (edition, banks, B, "),
        (TABLE_A.replace("32\n", "40\n"), "t.table: expected `groups = NUMBER`: a record of 40 bytes has 20 numbers"),
    ];
    for (text, told) in cases {
        folder.put("t.table", &text);
        bad_use(folder.run("judge --edition 7 --table t.table s.txt"), told);
    }
}

#[test]
fn of_a_capture() {
    let folder = Folder::new();
    let cases = [
        (
            "",
            "c.csv: expected a row of column names; there is nothing",
        ),
        (
            "time,command,bank\n",
            "c.csv:1: expected one column named `cycle` or one named `stamp`",
        ),
        (
            "cycle,stamp,command,bank\n",
            "c.csv:1: expected one column named `cycle` or one named `stamp`",
        ),
        (
            "cycle,kind,bank\n",
            "c.csv:1: expected a column named `command` (--command gives another name)",
        ),
        (
            "cycle,command,bank\n5,ACT\n",
            "c.csv:2: expected a bank in column 3; the row has 2",
        ),
        ("cycle,command,bank\n5,PRE,0\n", "c.csv:2: expected a kind"),
        (
            "cycle,command,bank\n5,ACT,x\n",
            "c.csv:2: expected a bank, 0 to 255, not `x`",
        ),
        (
            "stamp,command,bank\n65536,ACT,0\n",
            "c.csv:2: expected a stamp, 0 to 65535, not `65536`",
        ),
        (
            "cycle,command,bank\n9,ACT,0\n\n8,RD,0\n",
            "c.csv:4: expected a cycle not below that of the row before it, 9; it is 8",
        ),
        (
            "cycle,command,bank\n\"5,ACT,0\n",
            "c.csv:2: expected a quote at the end of the field",
        ),
        (
            "cycle,command,bank\n\"5\"6,ACT,0\n",
            "c.csv:2: expected `,` after the quoted field, not `6,ACT,0`",
        ),
        (
            "cycle,command,bank\n5,TICK,1\n",
            "c.csv:2: expected bank 0 or none for a TICK, not `1`",
        ),
    ];
    for (text, told) in cases {
        folder.put("c.csv", text);
        bad(&folder, "trace c.csv", told);
    }
}

#[test]
fn of_files_that_cannot_be_read_or_written() {
    let folder = Folder::new();
    bad(&folder, "judge none.txt", "none.txt: cannot be read");
    bad(&folder, "judge .", ".: cannot be read");
    folder.put("s.txt", "");
    folder.put("l.txt", "read 0 1 1\n");
    bad(
        &folder,
        "schedule l.txt -o none/x.txt",
        "none/x.txt: cannot be written",
    );
    bad(
        &folder,
        "picture s.txt -o none/x.svg",
        "none/x.svg: cannot be written",
    );
}
