//! `convert` both ways, on every whole record and on every text.

use crate::{Folder, Random, TABLE_A};

/// Records to text and back, and the text to records and back: the first text is the normal one, so both are the same again.
fn round_trip(folder: &Folder, what: &str, bytes: &[u8], options: &str) {
    folder.put("in.bin", bytes);
    let told = folder.run(&format!("convert {what} {options} in.bin -o out.txt"));
    assert_eq!((told.status, told.out.as_str()), (0, ""), "{}", told.err);
    let told = folder.run(&format!("convert {what} out.txt -o again.bin"));
    assert_eq!((told.status, told.out.as_str()), (0, ""), "{}", told.err);
    assert!(folder.get("again.bin") == bytes, "{what}");
    let told = folder.run(&format!("convert {what} {options} again.bin"));
    assert_eq!(told.out.as_bytes(), folder.get("out.txt"));
}

#[test]
fn random_records_come_back() {
    let folder = Folder::new();
    let mut random = Random(0x5eed_0001);
    for _ in 0..40 {
        let any = |random: &mut Random, size: usize| {
            let count = random.below(60) as usize;
            random.bytes(size * count)
        };
        round_trip(&folder, "table", &random.bytes(32), "");
        round_trip(&folder, "table", &random.bytes(40), "");
        round_trip(&folder, "list", &any(&mut random, 4), "");
        round_trip(&folder, "list", &any(&mut random, 8), "--later");
        round_trip(&folder, "schedule", &any(&mut random, 8), "");
        round_trip(&folder, "pattern", &any(&mut random, 8), "");
        round_trip(&folder, "capture", &any(&mut random, 4), "");
    }
}

#[test]
fn each_kind_and_type_comes_back() {
    let folder = Folder::new();
    let kinds: Vec<u8> = (0..=255)
        .flat_map(|kind| [kind, 0, 0, 0, kind, 1, 2, 3])
        .collect();
    round_trip(&folder, "list", &kinds, "");
    let captures: Vec<u8> = (0..=255)
        .flat_map(|kind| [1, 0, kind, 0, 2, 0, kind, 9])
        .collect();
    round_trip(&folder, "capture", &captures, "");
    let commands: Vec<u8> = (0..=255)
        .flat_map(|kind| [1, 2, 3, 4, kind, 5, 6, 7])
        .collect();
    round_trip(&folder, "schedule", &commands, "");
}

#[test]
fn the_texts_are_these() {
    let folder = Folder::new();
    let told = folder.run("convert table a.table -o a.bin");
    assert_eq!(told.status, 0);
    assert_eq!(folder.get("a.bin")[..6], [7, 0, 8, 0, 4, 0]);
    assert_eq!(folder.run("convert table a.bin").out, TABLE_A);
    folder.put(
        "l.bin",
        [0, 1, 2, 3, 1, 0, 1, 1, 2, 0, 0, 0, 2, 0, 1, 0, 9, 0, 0, 0],
    );
    assert_eq!(
        folder.run("convert list l.bin").out,
        "read 1 2 3\nwrite 0 1 1\nrefresh\nrefresh 0 1 0\n9 0 0 0\n"
    );
    folder.put("l.bin", [0, 1, 2, 3, 5, 0, 0, 0, 2, 0, 0, 0, 0, 1, 0, 0]);
    assert_eq!(
        folder.run("convert list --later l.bin").out,
        "read 1 2 3 at 5\nrefresh at 256\n"
    );
    folder.put(
        "c.bin",
        [253, 255, 0, 3, 254, 255, 255, 0, 6, 0, 2, 3, 7, 0, 255, 1],
    );
    let text = "stamp,command,bank\n65533,ACT,3\n65534,TICK,0\n6,RDA,3\n7,255,1\n";
    assert_eq!(folder.run("convert capture c.bin").out, text);
    folder.put("s.bin", [10, 0, 0, 0, 4, 3, 1, 0]);
    assert_eq!(folder.run("convert schedule s.bin").out, "10 WRA 3 1\n");
    // The name's end says which it is, and can be overruled.
    folder.put("s.txt", [10, 0, 0, 0, 4, 3, 1, 0]);
    assert_eq!(
        folder.run("convert schedule bytes:s.txt").out,
        "10 WRA 3 1\n"
    );
    folder.put("t.bin", "10 WRA 3 1\n");
    assert_eq!(
        folder.run("convert schedule text:t.bin -o bytes:u").status,
        0
    );
    assert_eq!(folder.get("u"), [10, 0, 0, 0, 4, 3, 1, 0]);
}

#[test]
fn cycles_become_stamps_and_ticks() {
    let folder = Folder::new();
    folder.put("c.csv", "cycle,command,bank\n65535,ACT,1\n131071,RDA,1\n");
    assert_eq!(folder.run("convert capture c.csv -o c.bin").status, 0);
    let text = "stamp,command,bank\n65535,ACT,1\n65534,TICK,0\n65535,RDA,1\n";
    assert_eq!(folder.run("convert capture c.bin").out, text);
}

#[test]
fn a_cut_record_is_refused_by_its_number() {
    let folder = Folder::new();
    let cases = [
        ("table", 1, ""),
        ("list", 3, ""),
        ("list", 3, "--later"),
        ("schedule", 7, ""),
        ("pattern", 7, ""),
        ("capture", 7, ""),
    ];
    for (what, number, options) in cases {
        folder.put("cut.bin", [1; 13]);
        let told = folder.run(&format!("convert {what} {options} cut.bin"));
        let head = format!("edition 0: no table was accepted\nrefused {number} at 0\n");
        assert_eq!(told.status, 2);
        assert!(told.out.starts_with(&head), "{}", told.out);
    }
}
