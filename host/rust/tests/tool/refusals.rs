//! Every refusal number: by a call where the tool can meet it, and by `explain`.

use crate::{Folder, Told, TABLE_A};

#[track_caller]
fn refused(told: Told, number: u32, position: u32, edition: u32) {
    let first = match edition {
        0 => "edition 0: no table was accepted".to_string(),
        e => format!("edition {e}"),
    };
    let head = format!("{first}\nrefused {number} at {position}\ncause: ");
    assert_eq!(told.status, 2, "{}{}", told.out, told.err);
    assert!(told.out.starts_with(&head), "{}", told.out);
    told.says("\ncure: ");
}

#[test]
fn of_the_table() {
    let folder = Folder::new();
    folder.put("s.txt", "0 ACT 0 0\n10 RDA 0 0\n");
    folder.put("cut.bin", [7; 31]);
    refused(
        folder.run("judge --edition 7 --table cut.bin s.txt"),
        1,
        0,
        0,
    );
    folder.put("wide.table", TABLE_A.replace("CCD = 4", "CCD = 1"));
    refused(
        folder.run("judge --edition 7 --table wide.table s.txt"),
        2,
        0,
        0,
    );
    refused(
        folder.run("judge --edition 5 --table a.table s.txt"),
        10,
        7,
        7,
    );
    refused(
        folder.run("bound --edition 0 --table a.table --bi 1 --bc 1"),
        10,
        7,
        7,
    );
}

#[test]
fn of_the_list() {
    let folder = Folder::new();
    folder.put("cut.bin", [0, 0, 1, 1, 0]);
    refused(folder.by_a("schedule cut.bin"), 3, 0, 7);
    folder.put("eight.bin", [0, 0, 1, 1, 0, 0, 0, 0, 1, 0, 1, 1]);
    refused(folder.by_a("schedule --later eight.bin"), 3, 0, 7);
    folder.put("many.txt", "read 0 1 1\n".repeat(257));
    refused(folder.by_a("schedule many.txt"), 3, 0, 7);
    folder.put("all.txt", "read 0 1 1\n".repeat(256));
    assert_eq!(folder.by_a("schedule all.txt").status, 0);
    folder.put("range.txt", "read 0 1 1\n\nread 8 1 1\n");
    let told = folder.by_a("schedule range.txt");
    assert!(
        told.out.ends_with("transaction 1 is of line 3\n"),
        "{}",
        told.out
    );
    refused(told, 4, 1, 7);
    for line in [
        "refresh",
        "3 0 1 1",
        "read 0 17 1",
        "read 0 1 0",
        "read 0 1 1 at 20000001",
        "refresh 1 0 0",
    ] {
        folder.put("bad.txt", line);
        refused(folder.by_a("schedule bad.txt"), 4, 0, 7);
    }
    folder.put("back.txt", "read 0 1 1 at 9\nread 0 1 1 at 8\n");
    refused(folder.by_a("schedule back.txt"), 4, 1, 7);
    folder.put("s.txt", "");
    refused(folder.by_a("serves back.txt s.txt"), 4, 1, 7);
}

#[test]
fn of_what_is_asked_for() {
    let folder = Folder::new();
    refused(folder.by_a("bound --bi 9 --bc 1"), 4, 0, 7);
    refused(folder.by_a("bound --bi 0 --bc 1"), 4, 0, 7);
    refused(folder.by_a("shortest --write --bi 3 --bc 2"), 4, 0, 7);
    refused(
        folder.by_a("shortest --write --bi 1 --bc 1 --up-to 129"),
        4,
        0,
        7,
    );
    refused(
        folder.by_a("shortest --write --bi 2 --bc 2 --up-to 47"),
        13,
        0,
        7,
    );
}

#[test]
fn of_the_schedule() {
    let folder = Folder::new();
    folder.put("cut.bin", [0; 9]);
    refused(folder.by_a("judge cut.bin"), 7, 0, 7);
    refused(folder.by_a("pattern --length 1 cut.bin"), 7, 0, 7);
    refused(folder.by_a("picture cut.bin -o p.svg"), 7, 0, 7);
    assert!(!folder.0.join("p.svg").exists());
    folder.put("many.bin", vec![0; 8 * 69_633]);
    refused(folder.by_a("judge many.bin"), 7, 0, 7);
    folder.put("list.txt", "read 0 1 1\n");
    refused(folder.by_a("serves list.txt many.bin"), 7, 0, 7);
    folder.put("s.txt", "0 ACT 0 0\n10 RDA 0 0\n");
    refused(folder.by_a("pattern --length 0 s.txt"), 8, 0, 7);
}

#[test]
fn of_the_capture() {
    let folder = Folder::new();
    folder.put("cut.bin", [0; 5]);
    refused(folder.by_a("trace cut.bin"), 7, 0, 7);
    folder.put("same.csv", "stamp,command,bank\n5,ACT,0\n6,TICK,\n6,RD,0\n");
    let told = folder.by_a("trace same.csv");
    assert!(
        told.out.ends_with("that record is of line 4\n"),
        "{}",
        told.out
    );
    refused(told, 11, 2, 7);
    folder.put("cycles.csv", "cycle,command,bank\n5,ACT,0\n5,RD,0\n");
    refused(folder.by_a("trace cycles.csv"), 11, 1, 7);
    folder.put("last.csv", "cycle,command,bank\n4294967295,ACT,0\n");
    assert_eq!(folder.by_a("trace last.csv").status, 1);
    folder.put("picked.txt", "0 ACT 0 0\n");
    folder.put("bad.txt", "read 9 1 1\n");
    refused(
        folder.by_a("picture picked.txt --list bad.txt -o p.svg"),
        4,
        0,
        7,
    );
}

/// 5 and 6 cannot be met, since the tool lends enough; 9 and 12 neither, since it runs no controller. They are explained as the others are.
#[test]
fn every_number_is_explained() {
    let folder = Folder::new();
    for number in 1..=13 {
        let told = folder.run(&format!("explain {number}"));
        assert_eq!(told.status, 0);
        assert!(told.out.starts_with(&format!("refusal {number}\ncause: ")));
        assert!(told.out.contains("\nthe position is ") && told.out.contains("\ncure: "));
        let never = told.out.contains("so it never tells this number");
        assert_eq!(never, matches!(number, 5 | 6 | 9 | 12), "{number}");
    }
    for rule in 1..=12 {
        let told = folder.run(&format!("explain rule {rule}"));
        assert_eq!(told.status, 0);
        assert!(told
            .out
            .starts_with(&format!("rule {rule} is broken when: ")));
    }
    for line in [
        "explain 0",
        "explain 14",
        "explain rule 0",
        "explain rule 13",
        "explain x",
        "explain",
        "explain rule",
        "explain 1 2",
        "explain +1",
    ] {
        let told = folder.run(line);
        assert_eq!((told.status, told.out.as_str()), (3, ""), "{line}");
        assert!(told.err.contains("expected"), "{}", told.err);
    }
}
