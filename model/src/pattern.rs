//! The program `pattern`: standard input is the expected edition as two bytes, the table's 32 or 40 bytes, and behind it type, BI, BC and the
//! greatest length, a byte each.

use crate::desk::{shortest_pattern, Refusal};
use crate::listing::command_lines;
use crate::records::refused;

pub fn pattern(input: &[u8]) -> String {
    lines(input).unwrap_or_else(|r| format!("{r}\n"))
}

/// `edition E length L commands N`, and the records. Fewer bytes than the edition and what is asked are number 1.
fn lines(input: &[u8]) -> Result<String, Refusal> {
    if input.len() < 6 {
        return refused(1);
    }
    let (head, asked) = input.split_at(input.len() - 4);
    let expected = u16::from_le_bytes([head[0], head[1]]);
    let mut room = [0; 48];
    let told = shortest_pattern(
        expected,
        &head[2..],
        asked[0],
        asked[1],
        asked[2],
        asked[3].into(),
        &mut room,
    )?;
    let (edition, length, count) = (told.edition, told.length, told.commands);
    let commands = command_lines(&room, count);
    Ok(format!(
        "edition {edition} length {length} commands {count}\n{commands}"
    ))
}

#[cfg(test)]
mod tests {
    use super::*;
    use crate::house::*;

    #[test]
    fn texts() {
        let a = [&[7, 0], &bytes_of(&TABLE_A)[..]].concat();
        let d = [&[7, 0], &bytes_of(&TABLE_D)[..]].concat();
        let read = "edition 7 length 38 commands 2\n0 ACT 0 0\n10 RDA 0 0\n";
        for (head, asked, text) in [
            (&a, &[0, 1, 1, 128][..], read),
            (&d, &[0, 1, 1, 38], read),
            (&a, &[0, 1, 1, 37], "refused 13 at 0 edition 7\n"),
            (&a, &[2, 1, 1, 128], "refused 4 at 0 edition 7\n"),
            (&a, &[0, 1, 1], "refused 1 at 0 edition 0\n"),
            (&a, &[0, 1, 1, 128, 0], "refused 1 at 0 edition 0\n"),
            (&a, &[], "refused 1 at 0 edition 0\n"),
        ] {
            assert_eq!(pattern(&[&head[..], asked].concat()), text);
        }
        let other = [&[8, 0], &a[2..], &[0, 1, 1, 128]].concat();
        assert_eq!(pattern(&other), "refused 10 at 7 edition 7\n");
        assert_eq!(pattern(&other[..5]), "refused 1 at 0 edition 0\n");
    }
}
