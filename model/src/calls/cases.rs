//! The cases, as they stand in the program.

use crate::desk::*;
use crate::house::{arriving, bytes_of, grouped, REFRESHED, TABLE_A, TABLE_D, TABLE_T};
use crate::records::whole;

pub struct Case {
    pub started_as: u16,
    pub expected: u16,
    /// Sixteen, or twenty.
    numbers: Vec<u16>,
    pub list: [Transaction; 3],
    pub bytes: &'static [u8],
    pub count: u32,
}

pub fn cases() -> Vec<Case> {
    let lent = |editions: (u16, u16), numbers: &[u16], list, bytes, count| Case {
        started_as: editions.0,
        expected: editions.1,
        numbers: numbers.to_vec(),
        list,
        bytes,
        count,
    };
    let case = |editions, numbers: &[u16], list: [[u8; 4]; 3], bytes, count| {
        let list = list.map(|x| Transaction::of(&x));
        lent(editions, numbers, list, bytes, count)
    };
    let later = |list: [[u8; 4]; 3], arrivals: [u32; 3], bytes, count| {
        let list = arriving(&list, &arrivals);
        let list = std::array::from_fn(|k| Transaction::of(&list[k]));
        lent((7, 7), &TABLE_A, list, bytes, count)
    };
    let same = [[0, 0, 1, 1]; 3];
    vec![
        case(
            (7, 7),
            &TABLE_A,
            [[1, 0, 1, 1], [0, 0, 1, 1], [0, 7, 2, 2]],
            &[0, 3, 1, 2, 1, 4, 2, 1],
            60,
        ),
        case(
            (9, 9),
            &TABLE_T,
            [[0, 0, 1, 2], [1, 1, 1, 2], [0, 2, 1, 1]],
            &[0, 0, 1, 2, 1, 1, 1, 2, 0, 2, 1, 1],
            49,
        ),
        case(
            (7, 7),
            &TABLE_A,
            [[0, 1, 1, 1], [1, 2, 1, 1], [0, 3, 1, 1]],
            &[0, 0, 1, 1, 0, 1, 1, 1, 0, 2, 1, 1, 0, 3, 1, 1],
            0,
        ),
        case(
            (7, 7),
            &TABLE_A,
            [[0, 0, 8, 16], [0, 0, 1, 1], [0, 0, 1, 1]],
            &[0, 0, 1, 1, 0],
            1000,
        ),
        case(
            (9, 9),
            &TABLE_T,
            [[0, 0, 1, 1], [0, 6, 1, 1], [2, 0, 1, 1]],
            &[0, 0, 1, 1, 0, 0, 17, 1],
            5,
        ),
        case((0, 7), &TABLE_T, same, &[0, 0, 1, 1], 5),
        case((7, 9), &TABLE_T, same, &[0, 0, 1, 1, 0, 1, 1, 1], 5),
        case((7, 7), &[0; 16], same, &[], 5),
        case(
            (70, 70),
            &REFRESHED,
            [[1, 0, 1, 1], [2, 0, 0, 0], [0, 0, 1, 1]],
            &[2, 0, 0, 0],
            60,
        ),
        case(
            (7, 7),
            &TABLE_A,
            [[0, 0, 1, 1], [0, 1, 1, 1], [2, 0, 0, 0]],
            &[0, 0, 1, 1, 2, 0, 0, 1],
            5,
        ),
        case(
            (7, 7),
            &TABLE_D,
            [[1, 0, 1, 1], [0, 4, 1, 1], [0, 1, 2, 2]],
            &[0, 3, 1, 2, 1, 7, 2, 1],
            60,
        ),
        case((7, 7), &grouped(&TABLE_A, 4, [9, 5, 13]), same, &[], 5),
        // Arrivals, equal ones among them, and two records of 8 bytes.
        later(
            [[1, 0, 1, 1], [0, 0, 1, 1], [0, 7, 2, 2]],
            [3, 50, 50],
            &[0, 3, 1, 2, 0, 0, 0, 0, 1, 4, 2, 1, 25, 0, 0, 0],
            60,
        ),
        // Arrivals that descend.
        later(
            same,
            [5, 5, 4],
            &[0, 0, 1, 1, 0, 1, 0, 0, 0, 1, 1, 1, 255, 0, 0, 0],
            5,
        ),
        // The last arrival there is, and one more: 0x01312d00 and 0x01312d01.
        later(
            [[1, 0, 1, 1], [0, 1, 1, 1], [0, 2, 1, 1]],
            [20_000_000, 20_000_000, 20_000_001],
            &[2, 0, 0, 0, 0, 45, 49, 1],
            5,
        ),
        // 12 bytes are no multiple of 8.
        later(same, [0, 0, 1], &[0, 0, 1, 1, 0, 0, 0, 0, 0, 0, 1, 1], 5),
    ]
}

/// The list of which a schedule is built, by table A with a refresh of 50 cycles.
pub const BUILT_FOR: [[u8; 4]; 3] = [[0, 0, 1, 1], [2, 0, 0, 0], [0, 0, 1, 1]];

/// The lists that it's asked to serve, each with the bytes of another.
pub const BUILT: [([[u8; 4]; 3], &[u8]); 3] = [
    (BUILT_FOR, &[0, 0, 1, 1, 2, 0, 0, 0, 0, 0, 1, 1]),
    (
        [[0, 0, 1, 1], [2, 0, 0, 0], [1, 0, 1, 1]],
        &[
            0, 0, 1, 1, 25, 0, 0, 0, 2, 0, 0, 0, 25, 0, 0, 0, 0, 0, 1, 1, 99, 0, 0, 0,
        ],
    ),
    ([[2, 0, 0, 0]; 3], &[0, 0, 1, 1, 2, 0, 0, 0]),
];

/// By table A.
pub const CAPTURES: [&[u8]; 3] = [
    &[250, 255, 0, 0, 255, 255, 255, 0, 4, 0, 2, 0],
    &[250, 255, 0, 0, 255, 255, 255, 0, 3, 0, 2, 0],
    &[
        250, 255, 0, 0, 255, 255, 255, 0, 255, 255, 255, 0, 4, 0, 2, 0,
    ],
];

/// Type, BI, BC and greatest length, of the shortest pattern by table A.
pub const ASKED: [(u8, u8, u8, u32); 4] = [
    (1, 2, 2, 128),
    (0, 3, 1, 128),
    (0, 1, 1, 37),
    (0, 1, 6, 128),
];

impl Case {
    /// The writer's name and answer, and the table as it leaves it: all zeros where it refuses.
    pub fn written(&self) -> (&'static str, Result<u16, Refusal>, Vec<u8>) {
        let mut table = vec![0; 2 * self.numbers.len()];
        let (name, answer) = match Table::try_from(&self.numbers[..]) {
            Ok(numbers) => ("skv_write_table", write_table(numbers, &mut table)),
            Err(_) => {
                let numbers = whole(&self.numbers);
                let answer = write_group_table(numbers, &mut table);
                ("skv_write_group_table", answer)
            }
        };
        if answer.is_ok() {
            assert_eq!(table, bytes_of(&self.numbers));
        }
        (name, answer, table)
    }

    pub fn table(&self) -> Vec<u8> {
        self.written().2
    }
}
