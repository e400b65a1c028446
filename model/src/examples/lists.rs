//! The example lists: an expected edition, a table and transactions as the listing reads them.

use std::fmt::Write;

use super::text::{printed_text, Head, FINISHES};
use crate::house::{with, READ, REFRESH_BYTES as REFRESH, WRITE};
use crate::listing::listing;
use crate::records::CCD;

/// Stands under a listing that has finishing cycles of a refresh too.
const REFRESH_FINISHES: &str = "A refresh finishes RFC cycles after its REF.\n";

pub struct Example {
    pub head: Head,
    list: Vec<[u8; 4]>,
}

/// Reads and writes of every start bank and every BI that 8 banks allow.
fn mixed(k: usize) -> [u8; 4] {
    let start = k % 8;
    let bi = 1 + k / 8 % 8;
    let bc = 1 + k % 5;
    let kind = k % 3 % 2;
    [kind as u8, start as u8, bi as u8, bc as u8]
}

pub fn all() -> Vec<Example> {
    let of = |head, list: &[[u8; 4]]| Example {
        head,
        list: list.to_vec(),
    };
    let of_a = |name, title, list| of(Head::of_a(name, title), list);
    let of_refreshed = |name, title, list| of(Head::of_refreshed(name, title), list);
    let every = std::array::from_fn::<_, 256, _>(mixed);
    vec![
        of_a("example-1", "example 1 of document 01, one read", &[READ]),
        of_a(
            "example-2",
            "example 2 of document 01, two such reads",
            &[READ, READ],
        ),
        of_a(
            "example-3",
            "example 3 of document 01, write then read, bank 0",
            &[WRITE, READ],
        ),
        of_a(
            "example-4",
            "example 4 of document 01, read bank 0, write bank 1",
            &[READ, [1, 1, 1, 1]],
        ),
        of_a(
            "example-4-swapped",
            "example 4 of document 01 with its types swapped",
            &[WRITE, [0, 1, 1, 1]],
        ),
        of_a(
            "example-5",
            "example 5 of document 01, at 18 the read wins",
            &[[0, 0, 4, 2]],
        ),
        of_a(
            "example-6",
            "example 6 of document 01, the fifth ACT at 32",
            &[[0, 0, 5, 1]],
        ),
        of_a(
            "example-12-wrap",
            "example 12 of document 01 as request 2 has it, start 7, BI 2 in 8 banks: banks 7 and 0",
            &[[0, 7, 2, 1]],
        ),
        of_a(
            "all-256",
            "as many transactions as there can be, reads and writes of every start bank and every BI",
            &every,
        ),
        of_a(
            "too-long",
            "a legal list whose 8296 commands need 66368 bytes, which is over 64 KiB",
            &[[0, 0, 8, 16]; 61],
        ),
        of(
            Head {
                table_title: "house table A with CCD 1",
                table: with(&[(CCD, 1)]),
                ..Head::of_a("bad-table", "example 3 with CCD 1, which is below 2")
            },
            &[WRITE, READ],
        ),
        of_a(
            "bad-transaction",
            "start 7, BI 8, which 8 banks allow, and start 7, BI 9, which they don't",
            &[[0, 7, 8, 1], [0, 7, 9, 1]],
        ),
        of_refreshed(
            "refresh-between",
            "read, refresh, read, all of bank 0: the REF waits for the bank's precharge, the second ACT for RFC",
            &[READ, REFRESH, READ],
        ),
        of_refreshed(
            "refresh-twice",
            "a write and two refreshes in a row",
            &[WRITE, REFRESH, REFRESH],
        ),
        of_refreshed(
            "refresh-all-banks",
            "a read of banks 6, 7, 0 and 1, a refresh, which waits for every bank, and a write of bank 4, which waits for the refresh",
            &[[0, 6, 4, 2], REFRESH, [1, 4, 1, 1]],
        ),
        of_a(
            "no-refresh",
            "a refresh under a table whose RFC is 0, so that it has none",
            &[READ, REFRESH],
        ),
        of(
            Head {
                expected: 8,
                ..Head::of_a(
                    "other-edition",
                    "example 3 for a caller who expects edition 8, where the table's is 7",
                )
            },
            &[WRITE, READ],
        ),
    ]
}

impl Example {
    /// The file itself.
    pub fn bytes(&self) -> Vec<u8> {
        self.head.bytes(&self.list.concat())
    }

    pub fn text(&self) -> String {
        let bytes = self.bytes();
        let printed = listing(&bytes);
        let mut parts = vec![
            self.list_text(),
            format!("The listing prints:\n\n{}", printed_text(&printed)),
        ];
        if printed.contains("finish") {
            let refreshes = self.list.contains(&REFRESH);
            let of_refreshes = if refreshes { REFRESH_FINISHES } else { "" };
            parts.push(FINISHES.to_string() + of_refreshes);
        }
        self.head.text(bytes.len(), &parts)
    }

    /// Neighbours that are alike stand in one line.
    fn list_text(&self) -> String {
        let count = self.list.len();
        let end = self.bytes().len() - 1;
        let mut out = format!("Bytes 34 to {end}, the transactions, 4 bytes each: {count}.\n\n");
        let mut first = 0;
        while first < count {
            let rest = &self.list[first..];
            let alike = rest.iter().take_while(|x| **x == rest[0]).count();
            let last = first + alike - 1;
            let which = if first == last {
                format!("transaction {first}")
            } else {
                format!("transactions {first} to {last}, each")
            };
            let [kind, start, bi, bc] = rest[0];
            let word = ["read", "write", "refresh"][usize::from(kind)];
            writeln!(
                out,
                "    {which}: type {kind} ({word}), start bank {start}, BI {bi}, BC {bc}"
            )
            .expect("a string takes it");
            first += alike;
        }
        out
    }
}

#[cfg(test)]
mod tests {
    use super::super::text::assert_stored;
    use super::*;

    fn of(name: &str) -> String {
        let found = all().into_iter().find(|example| example.head.name == name);
        listing(&found.expect("a name that there is").bytes())
    }

    /// The listing program is run on it.
    #[test]
    fn example_3_is_stored_with_the_program() {
        let example = all()
            .into_iter()
            .find(|example| example.head.name == "example-3");
        let bytes = example.expect("it's an example").bytes();
        assert_stored("listing", &bytes, &listing(&bytes));
    }

    /// "Example 3 prints, whole", but for its last line: "its listing ends `finish 1 68`".
    #[test]
    fn the_listing_of_example_3() {
        let told = "edition 7 commands 4\n0 ACT 0 0\n10 WRA 0 0\n44 ACT 0 1\n54 RDA 0 1\nfinish 0 10\nfinish 1 68\n";
        assert_eq!(of("example-3"), told);
    }

    /// Example 12 as request 2 has it: "start 7 and BI 2 uses banks 7 and 0".
    #[test]
    fn the_listing_of_example_12() {
        let told =
            "edition 7 commands 4\n0 ACT 7 0\n6 ACT 0 0\n10 RDA 7 0\n16 RDA 0 0\nfinish 0 30\n";
        assert_eq!(of("example-12-wrap"), told);
    }

    #[test]
    fn the_refusals() {
        assert_eq!(of("too-long"), "refused 5 at 0 edition 7\n");
        assert_eq!(of("bad-table"), "refused 2 at 0 edition 0\n");
        assert_eq!(of("bad-transaction"), "refused 4 at 1 edition 7\n");
        assert_eq!(of("other-edition"), "refused 10 at 7 edition 7\n");
        assert_eq!(of("no-refresh"), "refused 4 at 1 edition 7\n");
    }

    #[test]
    fn the_others_are_accepted() {
        for (name, finish) in [
            ("example-1", "finish 0 24\n"),
            ("example-2", "finish 0 24\nfinish 1 62\n"),
            ("example-4", "finish 0 24\nfinish 1 18\n"),
            ("example-4-swapped", "finish 0 10\nfinish 1 42\n"),
            ("example-5", "finish 0 52\n"),
            ("example-6", "finish 0 56\n"),
            ("example-12-wrap", "finish 0 30\n"),
            (
                "refresh-between",
                "finish 0 24\nfinish 1 88\nfinish 2 112\n",
            ),
            ("refresh-twice", "finish 0 10\nfinish 1 94\nfinish 2 144\n"),
            (
                "refresh-all-banks",
                "finish 0 52\nfinish 1 107\nfinish 2 117\n",
            ),
        ] {
            assert!(of(name).ends_with(finish), "{name}");
        }
        let printed = of("all-256");
        let finishes = printed.lines().filter(|l| l.starts_with("finish"));
        assert_eq!(finishes.count(), 256);
    }
}
