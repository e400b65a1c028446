//! The example questions for the shortest pattern: an expected edition, a table and what is asked for.

use super::text::{printed_text, Head};
use crate::pattern::pattern;

pub struct Question {
    pub head: Head,
    asked: [u8; 4],
    /// What stands under the text that the program prints.
    last: &'static str,
}

pub fn all() -> Vec<Question> {
    vec![
        Question {
            head: Head::of_a(
                "pattern-write",
                "the shortest pattern of two writes to each of two banks",
            ),
            asked: [1, 2, 2, 128],
            last: "At cycle 6, RRD after the first ACT, the second would be too early for the pattern to be repeated after 48 cycles.\n",
        },
        Question {
            head: Head::of_a(
                "pattern-none",
                "the same up to 47 cycles, where there is none",
            ),
            asked: [1, 2, 2, 47],
            last: "Number 13: no pattern is as short.\n",
        },
    ]
}

impl Question {
    /// The file itself.
    pub fn bytes(&self) -> Vec<u8> {
        self.head.bytes(&self.asked)
    }

    pub fn text(&self) -> String {
        let bytes = self.bytes();
        let [kind, bi, bc, most] = self.asked;
        let word = ["read", "write"][usize::from(kind)];
        let rest = [
            format!("Bytes 34 to 37, what is asked for: type {kind} ({word}), BI {bi}, BC {bc}, greatest length {most}.\n"),
            format!(
                "The program pattern prints:\n\n{}",
                printed_text(&pattern(&bytes))
            ),
            self.last.to_string(),
        ];
        self.head.text(bytes.len(), &rest)
    }
}

#[cfg(test)]
mod tests {
    use super::super::text::assert_stored;
    use super::*;

    /// The program is run on the first.
    #[test]
    fn the_first_is_stored_with_the_program() {
        let bytes = all()[0].bytes();
        assert_stored("pattern", &bytes, &pattern(&bytes));
    }

    #[test]
    fn the_answers() {
        let told = all()
            .iter()
            .map(|q| pattern(&q.bytes()))
            .collect::<Vec<_>>();
        assert!(told[0].starts_with("edition 7 length 48 commands 6\n0 ACT 0 0\n8 ACT 1 0\n"));
        assert_eq!(told[1], "refused 13 at 0 edition 7\n");
    }
}
