//! Every call refused by each number that it can be, with nothing else wrong.

use model::house::{bytes_of, later, GROUPS, REFRESH_BYTES, RFC, TABLE_A, TABLE_D};

use crate::case::{GROUPS as STATE_GROUPS, *};

/// Wherever its buffers lie, in several ways.
pub fn all() -> Vec<Case> {
    let mut cases = Vec::new();
    for (call, _) in CALLS {
        for &number in call.refusals() {
            for way in 0..8 {
                let mut case = accepted(call);
                case.lies = way % 3;
                refuse(&mut case, number, way);
                cases.push(case);
            }
        }
    }
    cases
}

fn accepted(call: Call) -> Case {
    let mut case = Case::new(call);
    case.table = match call {
        Call::WriteGroupTable => bytes_of(&TABLE_D),
        _ => bytes_of(&TABLE_A),
    };
    match call {
        Call::ReadTransaction | Call::ReadLater => case.lend(&at_once(&[[0, 0, 1, 1]])),
        Call::ReadCommand => case.bytes = vec![0; 8],
        Call::Judge | Call::JudgePattern => (),
        Call::ReadCaptureRecord => case.bytes = vec![0; 4],
        Call::JudgeCapture => case.bytes = CAPTURE.concat(),
        _ => case.lend(&at_once(&[[1, 0, 1, 1], [0, 0, 1, 1]])),
    }
    case.values = match call {
        Call::WriteTransaction | Call::WriteLater => [0, 0, 1, 1, 0],
        Call::Bound => [1, 1, 0, 0, 0],
        Call::ShortestPattern => [0, 1, 1, 128, 0],
        Call::Step => [0; 5],
        _ => [40, 0, 0, 0, 0],
    };
    case.room = match call {
        Call::WriteTransaction => 4,
        Call::WriteLater => 8,
        Call::WriteCommand | Call::Step => 8,
        Call::WriteCaptureRecord => 4,
        Call::JudgeCapture | Call::ShortestPattern => 16,
        Call::WriteGroupTable => 40,
        _ => 32,
    };
    case.slots = 2;
    case
}

/// An ACT at 65,535, a tick, and an RDA ten cycles after the ACT.
const CAPTURE: [[u8; 4]; 3] = [[255, 255, 0, 0], [3, 0, 255, 0], [9, 0, 2, 0]];

/// Arrivals that are too late.
const LATE: [u32; 4] = [20_000_001, 20_000_256, 1 << 31, u32::MAX];

/// Type, BI, BC and greatest length, for a table of two banks.
const NOT_ASKED: [[u32; 4]; 8] = [
    [2, 1, 1, 128],
    [0, 0, 1, 128],
    [0, 1, 0, 128],
    [0, 1, 6, 128],
    [1, 1, 1, 0],
    [1, 1, 1, 129],
    [1, 3, 1, 128],
    [255, 255, 255, u32::MAX],
];

/// A refresh that is none.
const WITH_BC: [u8; 4] = [2, 0, 0, 1];

fn refuse(case: &mut Case, number: usize, way: u8) {
    match (number, case.call) {
        (1, Call::WriteTable | Call::WriteGroupTable) => {
            case.room = [31, 33, 39, 41, 0, 36, 48, 80][usize::from(way)]
        }
        (1, _) => {
            let size = [31, 33, 39, 41, 0, 36, 48, 80][usize::from(way)];
            case.table = bytes_of(&[TABLE_D; 2].concat());
            case.table.truncate(size);
        }
        // RFC 1,024, the number before it 1,024 or more, CCD below 2; no group and nine, and each long number below its short one.
        (2, call) => {
            if way > 2 && call != Call::WriteTable {
                case.table = bytes_of(&TABLE_D);
            }
            let (place, low) = match way {
                0 => return case.table[6] = 1,
                1 => return case.table[2 * RFC + 1] = 4,
                2 => return case.table[2 * RFC - 1] = 4,
                _ if call == Call::WriteTable => return case.table[2] = 17,
                3 => (GROUPS, 0),
                4 => (GROUPS, 9),
                way => (GROUPS + usize::from(way) - 4, 3),
            };
            case.table[2 * place] = low;
        }
        (3, Call::WriteTransaction | Call::WriteLater) => case.room += 1 + usize::from(way) % 4,
        (3, call) if call.decoded() => case.lend(&at_once(&[[0, 0, 1, 1]; 257])),
        // Of a record of 8 bytes half a one, too.
        (3, call) => {
            let more = 1 + usize::from(way) % (call.of_record() - 1);
            case.bytes.extend(&[0; 7][..more]);
        }
        (7, call) if call.serves() => case.schedule.resize(1 + usize::from(way) % 7, 0),
        (7, _) => case.bytes.push(0),
        (4, Call::Bound) => case.values[0] = if way > 1 { 0 } else { 9 },
        // Neither read nor write, no bank, no data command, seven commands, too short and too long; above banks; nothing within its limits.
        (4, Call::ShortestPattern) => {
            case.values[..4].copy_from_slice(&NOT_ASKED[usize::from(way)]);
            case.table[2] = 2;
        }
        (4, Call::WriteLater) if way > 3 => case.values[4] = LATE[usize::from(way) - 4],
        (4, Call::WriteTransaction | Call::WriteLater) if way > 1 => {
            case.values[..4].copy_from_slice(&WITH_BC.map(u32::from))
        }
        (4, Call::WriteTransaction | Call::WriteLater) => case.values[2] = 0,
        // Less than the one before it.
        (4, call) if way == 7 && call.of_record() == 8 && call.is_given_a_list() => {
            case.lend(&[later([1, 0, 1, 1], 5), later([0, 0, 1, 1], 4)])
        }
        (4, call) if way > 3 && call.of_record() == 8 => {
            let late = LATE[usize::from(way) - 4];
            case.bytes[4..8].copy_from_slice(&late.to_le_bytes());
        }
        // BI of the first.
        (4, _) if way < 2 => case.bytes[2] = 17,
        (4, Call::ReadTransaction | Call::ReadLater) => case.bytes[..4].copy_from_slice(&WITH_BC),
        // Table A has no refresh.
        (4, call) if way == 2 => {
            let second = call.of_record();
            case.bytes[second..second + 4].copy_from_slice(&REFRESH_BYTES);
        }
        (4, _) => {
            case.table[2 * RFC] = 50;
            case.bytes[..4].copy_from_slice(&WITH_BC);
        }
        (5, _) => case.room -= 1,
        (6, _) => case.slots -= 1,
        // The tick's stamp, or that of the RDA or of another tick after it, is the one before it.
        (11, _) => match way {
            0 => case.bytes[4..6].copy_from_slice(&[255, 255]),
            1 => case.bytes[8] = 3,
            2 => case.bytes.extend([9, 0, 255, 0]),
            _ => case.bytes.extend([9, 0, 0, 1, 9, 0, 0, 1]),
        },
        (8, _) => case.values[0] = 0,
        // Example 8 of document 01: 38 is the least.
        (13, _) => case.values[3] = 37 - u32::from(way),
        (9, _) => match way {
            0 => case.state[CYCLE] = 100_000_000,
            1 => case.state[EDITION] += 1 << 16,
            2 => case.state[LAST] = case.state[CYCLE],
            3 => case.state[REFRESH] = case.state[CYCLE],
            4 => case.state[LENT] = 3,
            // The ACT, the RD and the WR of the table's one group.
            way => case.state[STATE_GROUPS + usize::from(way - 5)] = case.state[CYCLE],
        },
        // The first of them, or the second, arrives a cycle before, or many.
        (12, _) => {
            let list = [[1, 0, 1, 1], [0, 0, 1, 1]].map(|x| later(x, 8));
            if way < 6 {
                case.lend(&list);
            }
            case.state[CYCLE] = [9, 500][usize::from(way) % 2];
            case.state[LENT] = u32::from(way / 2) % 2;
        }
        _ => case.expected = 8,
    }
}
