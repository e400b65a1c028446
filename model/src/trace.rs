//! The program `trace`: standard input is the expected edition as two bytes, the table's 32 bytes, and the capture. It has room for as many
//! commands as a capture can have.

use crate::desk::{judge_capture, Refusal, Verdict};
use crate::listing::{command_lines, headed};
use crate::rules::MOST_RECORDS;

pub fn trace(input: &[u8]) -> String {
    lines(input).unwrap_or_else(|r| format!("{r}\n"))
}

/// `edition E commands N`, the commands, and the verdict: `accepted` or `record N breaks rule R`.
fn lines(input: &[u8]) -> Result<String, Refusal> {
    let (expected, table, capture) = headed(input)?;
    let mut room = vec![0; 8 * MOST_RECORDS];
    let told = judge_capture(expected, table, capture, &mut room)?;
    let (edition, count) = (told.edition, told.commands);
    let commands = command_lines(&room, count);
    let verdict = match told.verdict {
        Verdict::Accepted => "accepted".to_string(),
        Verdict::Broken { rule, record } => format!("record {record} breaks rule {rule}"),
    };
    Ok(format!(
        "edition {edition} commands {count}\n{commands}{verdict}\n"
    ))
}

#[cfg(test)]
mod tests {
    use super::*;
    use crate::house::*;
    use crate::sent::{record, tick_record as tick};

    #[test]
    fn texts() {
        let head = [&[7, 0], &bytes_of(&TABLE_A)[..]].concat();
        let read = [record(65_535, 0, 0), tick(3), record(9, 2, 0)];
        let odd = [record(1, 255, 1), record(0, 6, 0), record(65_535, 5, 3)];
        for (capture, text) in [
            (&[][..], "edition 7 commands 0\naccepted\n"),
            (&read, "edition 7 commands 2\n65535 ACT 0 0\n65545 RDA 0 0\naccepted\n"),
            (&read[..2], "edition 7 commands 1\n65535 ACT 0 0\nrecord 1 breaks rule 10\n"),
            (&read[2..], "edition 7 commands 1\n9 RDA 0 0\nrecord 0 breaks rule 3\n"),
            (
                &odd,
                "edition 7 commands 3\n1 255 1 0\n65536 6 0 0\n131071 REF 3 0\nrecord 0 breaks rule 1\n",
            ),
            (&[tick(4), tick(4)], "refused 11 at 1 edition 7\n"),
        ] {
            assert_eq!(trace(&[&head[..], &capture.concat()].concat()), text);
        }
        for (input, text) in [
            (&head[..1], "refused 1 at 0 edition 0\n"),
            (&head[..33], "refused 1 at 0 edition 0\n"),
            (&[&[8], &head[1..]].concat(), "refused 10 at 7 edition 7\n"),
            (&[&head[..], &[0]].concat(), "refused 7 at 0 edition 7\n"),
        ] {
            assert_eq!(trace(input), text);
        }
    }
}
