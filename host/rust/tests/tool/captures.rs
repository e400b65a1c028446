//! An analyser's CSV.

use crate::Folder;

#[test]
fn cycles_and_stamps_are_judged_by_their_true_cycles() {
    let folder = Folder::new();
    folder.put("c.csv", "cycle,command,bank\n65533,ACT,3\n65543,RDA,3\n");
    folder.put("s.csv", "stamp,command,bank\n65533,ACT,3\n7,RDA,3\n");
    for file in ["c.csv", "s.csv"] {
        let told = folder.by_a(&format!("trace {file} -o out.txt"));
        let words = "edition 7\naccepted: every timing rule holds of the 2 commands\nthe capture has 2 commands and 0 ticks\n\
                     the commands are in out.txt\n";
        assert_eq!((told.status, told.out.as_str()), (0, words));
        assert_eq!(folder.get("out.txt"), b"65533 ACT 3 0\n65543 RDA 3 0\n");
        assert_eq!(folder.by_a("judge out.txt").status, 0);
    }
}

#[test]
fn a_broken_capture_names_the_row() {
    let folder = Folder::new();
    folder.put(
        "s.csv",
        "# by the analyser\nstamp,command,bank\n65533,ACT,3\n65534,TICK,\n6,RDA,3\n64,255,1\n",
    );
    let told = folder.by_a("trace s.csv");
    let words = "edition 7\nrecord 1 breaks rule 8\nrule 8: data command less than RCD after its bank's ACT\n\
                 record 1 (line 5): cycle 65542, RDA, bank 3, transaction 0\n\
                 too near to record 0 (line 3): cycle 65533, ACT, bank 3, transaction 0\n\
                 the least cycle at which it would have been legal is 65543\nthe capture has 3 commands and 1 ticks\n";
    assert_eq!((told.status, told.out.as_str()), (1, words));
}

#[test]
fn columns_may_have_any_names_and_any_place() {
    let folder = Folder::new();
    folder.put(
        "c.csv",
        "\u{feff}\"bank; row\";t;\"the \"\"what\"\"\";note\r\n\r\n0;0;act;x\r\n0; 10 ;\"2\";y\r\n",
    );
    let words = [
        "trace",
        "--edition",
        "7",
        "--table",
        "a.table",
        "--time",
        "T",
        "--command",
        "the \"what\"",
        "--bank",
        "bank; row",
        "--separator",
        ";",
        "c.csv",
    ];
    let told = folder.run_with(&words, b"");
    assert_eq!(told.status, 0, "{}{}", told.out, told.err);
    folder.put(
        "t.csv",
        "note\tcycle\tcommand\tbank\n\t0\t\"ACT\"\t0\n\t10\tRDA\t0\n",
    );
    let words = "trace --edition 7 --table a.table t.csv --separator";
    let words: Vec<&str> = words.split(' ').chain(["\t"]).collect();
    let told = folder.run_with(&words, b"");
    assert_eq!(told.status, 0, "{}{}", told.out, told.err);
    folder.put("s.csv", "when,command,bank\n65530,ACT,0\n4,RDA,0\n");
    let told = folder.by_a("trace --time when --stamps s.csv");
    assert_eq!(told.status, 0, "{}{}", told.out, told.err);
    // As cycles they go back.
    assert_eq!(folder.by_a("trace --time when --cycles s.csv").status, 3);
}

#[test]
fn ticks_are_put_in_where_a_gap_would_reach_65536() {
    let folder = Folder::new();
    // A read far on, one after a gap of 65,535 and one after 65,536.
    let text = "cycle,command,bank\n300000,ACT,0\n300010,RDA,0\n365545,ACT,0\n365555,RDA,0\n431091,ACT,0\n431101,RDA,0\n";
    folder.put("c.csv", text);
    let told = folder.by_a("trace c.csv -o out.txt");
    assert_eq!(told.status, 0, "{}{}", told.out, told.err);
    // Four up to 300,000, and one.
    told.says("the capture has 6 commands and 5 ticks\n");
    let out = String::from_utf8(folder.get("out.txt")).expect("text");
    let cycles: Vec<&str> = out
        .lines()
        .filter_map(|line| line.split(' ').next())
        .collect();
    assert_eq!(
        cycles,
        ["300000", "300010", "365545", "365555", "431091", "431101"]
    );
    // Cycles without a command are none, whatever their bank.
    folder.put(
        "n.csv",
        "cycle,command,bank\n0,NOP,x\n1,ACT,0\n2,des,7\n11,RDA,0\n",
    );
    let told = folder.by_a("trace n.csv");
    assert_eq!(told.status, 0, "{}{}", told.out, told.err);
    told.says("the capture has 2 commands and 0 ticks\n");
    // A REF needs no bank.
    folder.put(
        "r.csv",
        "cycle,bank,command\n0,,REF\n70000,,5\n80000,,TICK\n",
    );
    let told = folder.by_a("trace r.csv");
    assert_eq!(told.status, 0, "{}{}", told.out, told.err);
}
