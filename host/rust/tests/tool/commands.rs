//! What each command says, of document 01's examples.

use crate::{table_r, Folder, TABLE_A};

const EXAMPLE_3: &str = "edition 7 commands 4\n0 ACT 0 0\n10 WRA 0 0\n44 ACT 0 1\n54 RDA 0 1\nfinish 0 10 # promised by 44\nfinish 1 68 # promised by 68\n";

#[test]
fn a_schedule_is_the_listing_and_its_promises() {
    let folder = Folder::new();
    folder.put("list.txt", "write 0 1 1\nread 0 1 1 # the second\n");
    let told = folder.by_a("schedule list.txt");
    assert_eq!((told.status, told.out.as_str()), (0, EXAMPLE_3));
    // It can be read as a schedule again.
    folder.put("built.txt", &told.out);
    let told = folder.by_a("judge built.txt");
    let words = "edition 7\naccepted: every timing rule holds of the 4 commands\n";
    assert_eq!((told.status, told.out.as_str()), (0, words));
}

#[test]
fn what_is_written_beside_the_listing_is_the_same_schedule() {
    let folder = Folder::new();
    folder.put("list.txt", "read 0 4 2\n");
    let told = folder.by_a("schedule list.txt -o built.bin");
    assert!(told.out.ends_with("# the commands are in built.bin\n"));
    assert_eq!(folder.get("built.bin").len(), 8 * 12);
    folder.put("listing.txt", &told.out);
    assert_eq!(folder.by_a("judge listing.txt").status, 0);
    let told = folder.by_a("serves list.txt built.bin");
    let words =
        "edition 7\nserves: the schedule is legal and does the work of the list, transactions: 1\n";
    assert_eq!((told.status, told.out.as_str()), (0, words));
    assert_eq!(folder.by_a("schedule list.txt -o built.txt").status, 0);
    let text = String::from_utf8(folder.get("built.txt")).expect("text");
    assert!(text.starts_with("edition 7 commands 12\n0 ACT 0 0\n6 ACT 1 0\n10 RD 0 0\n"));
    // Standard output has the answer.
    assert_eq!(folder.by_a("schedule list.txt -o -").status, 3);
}

#[test]
fn an_empty_list_has_an_empty_schedule() {
    let folder = Folder::new();
    folder.put("none.txt", "# nothing\n");
    let told = folder.by_a("schedule none.txt");
    assert_eq!(
        (told.status, told.out.as_str()),
        (0, "edition 7 commands 0\n")
    );
    let told = folder.by_a("judge none.txt");
    assert_eq!(told.status, 0);
}

#[test]
fn arrivals_and_refreshes_have_their_promises() {
    let folder = Folder::new();
    folder.put("r.table", table_r());
    folder.put("list.txt", "read 0 1 1\nrefresh at 5\nwrite 0 1 1 at 100\n");
    let told = folder.run("schedule --edition 70 --table r.table list.txt");
    let words = "edition 70 commands 5\n0 ACT 0 0\n10 RDA 0 0\n38 REF 0 1\n100 ACT 0 2\n110 WRA 0 2\n\
                 finish 0 24 # promised by 58\nfinish 1 88 # promised by 94\nfinish 2 110 # promised by 144\n";
    assert_eq!((told.status, told.out.as_str()), (0, words));
}

#[test]
fn bounds_are_the_papers() {
    let folder = Folder::new();
    let all = [
        (2, 1, 53),
        (1, 4, 56),
        (4, 2, 75),
        (5, 1, 80),
        (8, 1, 107),
        (1, 1, 44),
    ];
    for (bi, bc, bound) in all {
        let told = folder.by_a(&format!("bound --bi {bi} --bc {bc}"));
        let line = format!("edition 7\nthe bound for BI {bi}, BC {bc} is {bound} cycles\n");
        assert_eq!(told.status, 0);
        assert!(told.out.starts_with(&line), "{}", told.out);
        let read = bound + 14;
        told.says(&format!(
            "a read has finished at most {read} cycles after it"
        ));
    }
    let told = folder.by_a("bound --bi 1 --bc 1 --from 10");
    told.says("by cycle 54, and a write has then finished\n");
    told.says("a read has finished by cycle 68: RL + B is 14\n");
}

#[test]
fn a_broken_schedule_is_told_with_what_it_is_too_near_to() {
    let folder = Folder::new();
    folder.put(
        "s.txt",
        "0 ACT 0 0\n10 WR 0 0\n28 RDA 0 0\n43 ACT 0 1\n53 RDA 0 1\n",
    );
    folder.put("c.table", TABLE_A.replace("RTP = 6", "RTP = 2"));
    let told = folder.run("judge --edition 7 --table c.table s.txt");
    let words = "edition 7\nrecord 3 breaks rule 4\nrule 4: ACT before precharge start + RP of its bank\n\
                 record 3 (line 4): cycle 43, ACT, bank 0, transaction 1\ntoo near to record 1 (line 2): cycle 10, WR, bank 0, transaction 0\n\
                 the least cycle at which it would have been legal is 44\n";
    assert_eq!((told.status, told.out.as_str()), (1, words));
}

#[test]
fn a_rule_may_be_kept_before_it_is_legal() {
    let folder = Folder::new();
    folder.put("s.txt", "0 ACT 0 0\n10 RDA 0 0\n20 ACT 0 0\n");
    folder.put("c.table", TABLE_A.replace("RC = 38", "RC = 60"));
    let told = folder.run("judge --edition 7 --table c.table s.txt");
    told.says("\nrule 4 would be kept from cycle 38 on, and another then broken\n");
    told.says("\nthe least cycle at which it would have been legal is 60\n");
}

#[test]
fn what_no_cycle_makes_legal_is_said_so() {
    let folder = Folder::new();
    let told = |text: &str| {
        folder.put("s.txt", text);
        folder.by_a("judge s.txt").out
    };
    let never = "no cycle that a record can hold makes it legal there\n";
    let range = told("0 9 0 0\n");
    assert!(
        range.contains("record 0 breaks rule 1\n") && range.ends_with(never),
        "{range}"
    );
    let twice = told("0 ACT 0 0\n50 ACT 0 0\n");
    assert!(twice.contains("record 1 breaks rule 3\n"), "{twice}");
    assert!(
        twice.contains("the bank's latest command before it is record 0 (line 1)"),
        "{twice}"
    );
    assert!(twice.ends_with(never), "{twice}");
    let open = told("0 ACT 3 0\n10 RD 3 0\n20 ACT 1 0\n");
    assert!(open.contains("record 3 breaks rule 10\n"), "{open}");
    assert!(open.contains("open: bank 1, bank 3\n"), "{open}");
    assert!(!open.contains("legal"), "{open}");
}

#[test]
fn patterns_are_the_papers() {
    let folder = Folder::new();
    folder.put("1.txt", "0 ACT 0 0\n10 RDA 0 0\n");
    folder.put("b.table", TABLE_A.replace("FAW = 32", "FAW = 155"));
    let told = folder.by_a("pattern --length 38 1.txt");
    assert_eq!(told.status, 0);
    let told = folder.by_a("pattern --length 37 1.txt");
    assert_eq!(told.status, 1);
    assert!(
        told.out
            .starts_with("edition 7\ncopy 2, record 0 breaks rule 4\n"),
        "{}",
        told.out
    );
    told.says("too near to copy 1, where it stands at cycle 0, record 0");
    told.says("the least cycle at which it would have been legal is 38\n");
    let by_b = |length: u32| {
        folder.run(&format!(
            "pattern --edition 7 --table b.table --length {length} 1.txt"
        ))
    };
    assert_eq!(by_b(39).status, 0);
    let told = by_b(38);
    assert_eq!(told.status, 1);
    told.says("copy 5, record 0 breaks rule 7\n");
    told.says("too near to copy 1, where it stands at cycle 0, record 0");
    told.says("the least cycle at which it would have been legal is 155\n");
}

#[test]
fn the_shortest_pattern_is_accepted_at_its_length_alone() {
    let folder = Folder::new();
    let told = folder.by_a("shortest --write --bi 2 --bc 2 --up-to 128 -o p.txt");
    assert_eq!(told.status, 0);
    assert!(told
        .out
        .starts_with("edition 7 length 48 commands 6\n0 ACT 0 0\n8 ACT 1 0\n"));
    // The length stands in the pattern's first line.
    assert_eq!(folder.by_a("pattern p.txt").status, 0);
    assert_eq!(folder.by_a("pattern --length 47 p.txt").status, 1);
    assert_eq!(folder.by_a("shortest --read --bi 1 --bc 1").status, 0);
}

#[test]
fn a_listing_of_another_edition_is_noted() {
    let folder = Folder::new();
    folder.put(
        "s.txt",
        "edition 5 commands 2\n0 ACT 0 0\n10 RDA 0 0\nfinish 0 24\n",
    );
    let told = folder.by_a("judge s.txt");
    assert!(told
        .out
        .ends_with("note: its own first line names edition 5\n"));
    assert_eq!(told.status, 0);
}

#[test]
fn standard_input_is_a_file_named_by_a_dash() {
    let folder = Folder::new();
    let words = ["judge", "--edition=7", "--table=a.table", "-"];
    let told = folder.run_with(&words, b"0 ACT 0 0\r\n10 RDA 0 0\r\n");
    assert_eq!(told.status, 0, "{}", told.err);
    let words = ["judge", "--edition", "7", "--table", "a.table", "bytes:-"];
    let told = folder.run_with(&words, &[0; 8]);
    told.says("record 1 breaks rule 10\n");
    let words = ["judge", "--edition", "7", "--table", "-", "text:-"];
    assert_eq!(folder.run_with(&words, b"").status, 3);
}
