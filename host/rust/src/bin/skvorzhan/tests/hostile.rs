//! A million random lines through each of the readers of text: none panics, each bad one is refused at a line that there is, and what is read
//! is read again from what is written of it.

use super::random::{pieces, Random};
use crate::bad::Bad;
use crate::capture_text::{self, Columns};
use crate::{command_text, desk, list_text, table_text};

fn line(random: &mut Random, pieces: &[&str]) -> String {
    let likely = match random.below(6) {
        0 => format!(
            "{} {} {} {}",
            random.below(99),
            random.below(7),
            random.below(300),
            random.below(9)
        ),
        1 => format!(
            "{},{},{}",
            random.below(70_000),
            random.below(300),
            random.below(260)
        ),
        2 => format!(
            "{} {} {} {} at {}",
            random.below(4),
            random.below(9),
            random.below(9),
            random.below(9),
            random.below(99)
        ),
        3 => format!(
            "{} = {}",
            random.one(&table_text::NAMES),
            random.below(70_000)
        ),
        _ => String::new(),
    };
    let mut line = likely;
    for _ in 0..random.below(6) {
        let mut place = random.below(line.len() as u64 + 1) as usize;
        while !line.is_char_boundary(place) {
            place -= 1;
        }
        let piece = random.one(pieces);
        line.insert_str(place, piece);
        if random.below(2) == 0 {
            line.insert(place, ' ');
        }
    }
    line
}

/// That what is bad is told of a line of the text.
fn told_of<T>(read: Result<T, Bad>, text: &str) -> Option<T> {
    match read {
        Ok(read) => Some(read),
        Err(bad) => {
            let lines = text.lines().count();
            assert!(
                bad.line.map_or(true, |line| (1..=lines).contains(&line)),
                "{bad}\n{text:?}"
            );
            assert!(
                !bad.what.is_empty() && !bad.to_string().contains('\n'),
                "{bad:?}"
            );
            None
        }
    }
}

fn through_all(text: &str, read: &mut [u32; 4]) {
    if let Some(all) = told_of(command_text::read("f", text), text) {
        let again = command_text::read("f", &command_text::write(&all.commands));
        assert_eq!(again.expect("what was written").commands, all.commands);
        read[0] += u32::from(!all.commands.is_empty());
    }
    if let Some(all) = told_of(list_text::read("f", text), text) {
        let written = list_text::write(&all.bytes, all.later).expect("whole records");
        let again = list_text::read("f", &written).expect("what was written");
        assert_eq!((again.bytes, again.later), (all.bytes, all.later));
        read[1] += u32::from(!all.lines.is_empty());
    }
    let columns = Columns::default();
    for head in ["cycle,command,bank\n", "bank,stamp,command\n"] {
        let text = format!("{head}{text}");
        if let Some(all) = told_of(capture_text::read("f", &text, &columns), &text) {
            let written = capture_text::write(&all.records);
            let again = capture_text::read("f", &written, &columns);
            assert_eq!(again.expect("what was written").records, all.records);
            read[2] += u32::from(!all.records.is_empty());
        }
    }
    let table = table_text::write(&[3; 40]).expect("40 bytes");
    let table = table.replace("RCD = 771\n", &format!("{text}\n"));
    if let Some(bytes) = told_of(table_text::read("f", &table), &table) {
        let written = table_text::write(&bytes).expect("40 bytes");
        assert_eq!(table_text::read("f", &written), Ok(bytes));
        read[3] += 1;
    }
}

#[test]
fn a_million_lines() {
    let pieces = pieces();
    let mut random = Random(0x5eed_0031);
    let mut read = [0; 4];
    for _ in 0..1_000_000 {
        through_all(&line(&mut random, &pieces), &mut read);
    }
    assert!(read.iter().all(|count| *count > 1000), "{read:?}");
}

/// The same in files of many lines, where one line stands after another.
#[test]
fn files_of_lines() {
    let pieces = pieces();
    let mut random = Random(0x5eed_0032);
    let mut read = [0; 4];
    for _ in 0..20_000 {
        let count = random.below(6);
        let lines: Vec<String> = (0..count).map(|_| line(&mut random, &pieces)).collect();
        through_all(&lines.join("\n"), &mut read);
    }
}

/// Any bytes are records, and come back.
#[test]
fn any_records() {
    let mut random = Random(0x5eed_0033);
    for _ in 0..20_000 {
        let count = random.below(9) as usize;
        let bytes = random.bytes(8 * count);
        let commands = desk::commands_of(&bytes);
        let text = command_text::write(&commands);
        let again = command_text::read("f", &text).expect("what was written");
        assert_eq!(desk::command_bytes(&again.commands), bytes);
        let capture = desk::capture_of(&bytes);
        let text = capture_text::write(&capture);
        let again = capture_text::read("f", &text, &Columns::default());
        assert_eq!(
            desk::capture_bytes(&again.expect("what was written").records),
            bytes
        );
        for later in [false, true] {
            let text = list_text::write(&bytes, later).expect("whole records");
            let again = list_text::read("f", &text).expect("what was written");
            assert_eq!(again.bytes, bytes);
        }
    }
}
