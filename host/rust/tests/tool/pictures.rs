//! Pictures are XML whose root is `svg`, whatever the schedule and whatever the file is called.

use crate::xml::{tags, Tag};
use crate::{table_r, Folder, Random};

#[track_caller]
fn well_formed(picture: &[u8]) -> Vec<Tag> {
    let text = std::str::from_utf8(picture).expect("text");
    let tags = tags(text).unwrap_or_else(|e| panic!("{e}\n{text}"));
    assert_eq!(tags[0].name, "svg");
    let namespace = (
        "xmlns".to_string(),
        "http://www.w3.org/2000/svg".to_string(),
    );
    assert!(tags[0].attributes.contains(&namespace));
    tags
}

#[test]
fn of_an_accepted_schedule() {
    let folder = Folder::new();
    folder.put("l.txt", "read 0 4 2\nwrite 2 1 1\n");
    assert_eq!(folder.by_a("schedule l.txt -o s.txt").status, 0);
    let told = folder.by_a("picture s.txt --list l.txt -o s.svg");
    let words = "edition 7\naccepted: every timing rule holds of the 14 commands\nthe picture is in s.svg\n";
    assert_eq!((told.status, told.out.as_str()), (0, words));
    well_formed(&folder.get("s.svg"));
    // Without -o it is what is printed.
    let told = folder.by_a("picture s.txt --list l.txt");
    assert_eq!(
        (told.status, told.out.as_bytes()),
        (0, &folder.get("s.svg")[..])
    );
}

#[test]
fn of_a_broken_one() {
    let folder = Folder::new();
    folder.put(
        "s.txt",
        "0 ACT 0 0\n6 ACT 1 0\n12 ACT 2 0\n18 ACT 3 0\n24 ACT 4 0\n",
    );
    let told = folder.by_a("picture s.txt -o s.svg");
    assert_eq!(told.status, 1);
    told.says("\nrecord 4 breaks rule 7\n");
    assert!(
        told.out.ends_with("\nthe picture is in s.svg\n"),
        "{}",
        told.out
    );
    well_formed(&folder.get("s.svg"));
    assert_eq!(folder.by_a("picture s.txt").status, 1);
}

#[test]
fn of_refreshes_and_arrivals() {
    let folder = Folder::new();
    folder.put("r.table", table_r());
    folder.put("l.txt", "read 0 2 2\nrefresh\nwrite 7 2 1 at 500\n");
    let by_r = "--edition 70 --table r.table";
    assert_eq!(
        folder
            .run(&format!("schedule {by_r} l.txt -o s.bin"))
            .status,
        0
    );
    let told = folder.run(&format!("picture {by_r} --list l.txt s.bin"));
    assert_eq!(told.status, 0);
    well_formed(told.out.as_bytes());
}

#[test]
fn of_any_records_and_of_any_name() {
    let folder = Folder::new();
    let mut random = Random(0x5eed_0002);
    for round in 0..60 {
        let count = random.below(40) as usize;
        let mut bytes = random.bytes(8 * count);
        for (k, record) in bytes.chunks_mut(8).enumerate() {
            if round % 2 == 0 {
                record[..4].copy_from_slice(&(k as u32 * 7).to_le_bytes());
                record[4] %= 6;
                record[5] %= 8;
            }
        }
        let name = "<\"&'>]]>.bin";
        folder.put(name, &bytes);
        let told = folder.by_a(&format!("picture {name}"));
        well_formed(told.out.as_bytes());
    }
    folder.put("none.bin", "");
    well_formed(folder.by_a("picture none.bin").out.as_bytes());
}
