//! Hostile text through the whole tool: whatever a file holds, and whatever the arguments are, it ends with a status of its own and never panics
//! (`Folder::run_with` looks at both). The readers alone are tried with a million lines in the tool's own tests.

use crate::random::pieces;
use crate::{emulator, Folder, Random, TABLE_A};

fn line(random: &mut Random) -> String {
    let count = random.below(8);
    let words: Vec<&str> = (0..count).map(|_| random.one(&pieces())).collect();
    words.join(random.one(&[" ", ",", "\t", "  "]))
}

/// A line that could stand in such a file.
fn likely(random: &mut Random) -> String {
    let n = |random: &mut Random, most| random.below(most);
    match random.below(4) {
        0 => format!(
            "{} {} {} {}",
            n(random, 100),
            n(random, 7),
            n(random, 9),
            n(random, 3)
        ),
        1 => format!("{},{},{}", n(random, 70_000), n(random, 7), n(random, 9)),
        2 => format!(
            "{} {} {} {}",
            n(random, 4),
            n(random, 9),
            n(random, 5),
            n(random, 5)
        ),
        _ => line(random),
    }
}

fn file(random: &mut Random) -> Vec<u8> {
    let count = random.below(6);
    let heads = [
        "",
        "cycle,command,bank\n",
        "stamp,command,bank\n",
        TABLE_A,
        "edition 7 commands 3\n",
    ];
    let mut text = random.one(&heads).to_string();
    for _ in 0..count {
        text.push_str(&likely(random));
        text.push_str(random.one(&["\n", "\r\n", "\r", ""]));
    }
    let mut bytes = text.into_bytes();
    for _ in 0..random.below(3) {
        let place = random.below(bytes.len() as u64 + 1) as usize;
        bytes.insert(place, random.next() as u8);
    }
    bytes
}

#[test]
fn no_file_makes_it_panic() {
    let runs = if emulator().is_some() { 240 } else { 2400 };
    let folder = Folder::new();
    let mut random = Random(0x5eed_0003);
    let commands = [
        "judge x",
        "pattern --length 40 x",
        "schedule x",
        "schedule --later bytes:x",
        "trace x",
        "serves x y",
        "serves bytes:x bytes:y",
        "picture x --list y",
        "judge bytes:x",
        "trace bytes:x",
        "picture bytes:x",
    ];
    let mut seen = [0; 4];
    for _ in 0..runs {
        folder.put("x", file(&mut random));
        folder.put("y", file(&mut random));
        let command = random.one(&commands);
        seen[folder.by_a(command).status as usize] += 1;
        if random.below(4) == 0 {
            let what = random.one(&["table", "list", "schedule", "capture"]);
            let form = random.one(&["", "bytes:"]);
            seen[folder.run(&format!("convert {what} {form}x")).status as usize] += 1;
            let told = folder.run(&format!("bound --edition 7 --table {form}x --bi 1 --bc 1"));
            seen[told.status as usize] += 1;
        }
    }
    assert!(seen.iter().all(|count| *count > 0), "{seen:?}");
}

#[test]
fn no_arguments_make_it_panic() {
    let runs = if emulator().is_some() { 60 } else { 600 };
    let folder = Folder::new();
    folder.put("x", "0 ACT 0 0\n10 RDA 0 0\n");
    let mut random = Random(0x5eed_0004);
    let words = "judge pattern schedule bound trace serves shortest picture explain convert help --edition 7 --table a.table --json --length 38 --bi 1 --bc \
                 --from --read --write --up-to --list --later --time --command --bank --stamps --cycles --separator -- - x rule table list = --edition=7 \
                 --table=a.table \u{1f980} bytes: text:";
    let mut words: Vec<&str> = words.split(' ').collect();
    words.push("");
    for _ in 0..runs {
        let count = 1 + random.below(8);
        let mut all: Vec<&str> = (0..count).map(|_| random.one(&words)).collect();
        if random.below(2) == 0 {
            all.insert(0, random.one(&words[..11]));
        }
        folder.run_with(&all, b"0 ACT 0 0\n");
    }
}
