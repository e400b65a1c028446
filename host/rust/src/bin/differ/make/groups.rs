//! Every count of groups with every number of banks; commands that a neighbour in another group hides; and each number of each group of a
//! controller at its cycle and before it.

use model::desk::GroupTable;
use model::house::{bytes_of, command, grouped, long_in_copy_2, room_for, with, TABLE_A, TABLE_D};

use crate::case::*;

pub fn all() -> Vec<Case> {
    let mut cases = Vec::new();
    for banks in 1..=16 {
        for groups in 1..=banks.min(8) {
            let t = with(&[(1, banks)]);
            let t = grouped(&t, groups, [9 + groups, 14 + 2 * groups, 11 + groups]);
            cases.extend(built(&t));
            cases.extend(hidden(&t));
        }
    }
    cases.extend(patterns());
    cases.extend(states());
    cases
}

fn of(call: Call, table: &[u16]) -> Case {
    let mut case = Case::new(call);
    case.table = bytes_of(table);
    case.values[0] = u32::MAX;
    case
}

/// All banks, written and read; the run's controller has numbers of its own past the table's groups.
fn built(t: &GroupTable) -> Vec<Case> {
    let banks = t[1] as u8;
    let list = [[1, banks - 1, banks, 1], [0, banks / 2, banks, 2]];
    let one = |call| {
        let mut case = of(call, t);
        case.lend(&at_once(&list));
        case.room = room_for(&list);
        case.slots = list.len();
        let past = GROUPS + 3 * usize::from(t[16]);
        for (n, number) in (0..).zip(&mut case.state[past..REFRESH]) {
            *number = [0, u32::MAX - 1, 77, 99_999_999][n % 4];
        }
        case
    };
    [Call::Schedule, Call::Run, Call::RunBytes].map(one).into()
}

/// Bank 0, a bank of another group, and the next bank of bank 0's group, which waits for the first of them: too early for both, a cycle too
/// early for the first alone, and not too early; and the first two alone, too near to one another. By rule 6, then by rule 9.
fn hidden(t: &GroupTable) -> Vec<Case> {
    let (banks, groups) = (t[1], t[16]);
    if groups < 2 || groups >= banks {
        return Vec::new();
    }
    let own = groups as u8;
    let [long_ccd, long_rrd, long_wtr] = [t[17], t[18], t[19]].map(u32::from);
    let between = long_rrd - 7;
    let mut all = vec![vec![(0, 0, 0), (5, 0, 1)]];
    for last in [between + 1, long_rrd - 1, long_rrd] {
        all.push(vec![(0, 0, 0), (between, 0, 1), (last, 0, own)]);
    }
    let opened = [(0, 0, 0), (10, 0, 1), (40, 0, own)];
    let mut after = |datas: &[(u32, u8, u8)]| all.push([&opened[..], datas].concat());
    after(&[(60, 1, 0), (63, 1, 1)]);
    for last in [65, 60 + long_ccd - 1, 60 + long_ccd] {
        after(&[(60, 1, 0), (64, 1, 1), (last, 1, own)]);
    }
    // WR to RD: WL + B and the long number.
    for last in [65, 72 + long_wtr - 1, 72 + long_wtr] {
        after(&[(60, 3, 0), (64, 3, 1), (last, 1, own)]);
    }
    let case = |records: &Vec<(u32, u8, u8)>| {
        let mut case = of(Call::Judge, t);
        case.bytes = bytes_of_records(records);
        case
    };
    all.iter().map(case).collect()
}

fn bytes_of_records(records: &[(u32, u8, u8)]) -> Vec<u8> {
    let one = |&(cycle, kind, bank): &(u32, u8, u8)| command(cycle, kind, bank, 0);
    records.iter().flat_map(one).collect()
}

/// Copy 2 breaks by a long number of rule 6, then of rule 9, where a neighbour hides the older command; under table A it doesn't.
fn patterns() -> Vec<Case> {
    let [_, act, _, write] = long_in_copy_2();
    let mut cases = Vec::new();
    for pattern in [act, write] {
        for length in [59, 60] {
            for table in [&TABLE_A[..], &TABLE_D] {
                let mut case = of(Call::JudgePattern, table);
                case.bytes = bytes_of_records(&pattern);
                case.values[0] = length;
                cases.push(case);
            }
        }
    }
    cases
}

/// An ACT, an RD and a WR next, each of bank 1, under table D, and each number of each group just before the cycle, and at it.
fn states() -> Vec<Case> {
    let mut cases = Vec::new();
    for (kind, acts) in [(0, 0), (0, 1), (1, 1)] {
        for place in GROUPS..REFRESH {
            for stored in [99, 100] {
                let mut case = of(Call::Run, &TABLE_D);
                case.lend(&at_once(&[[kind, 1, 1, 1]]));
                case.room = 16;
                (case.state[CYCLE], case.state[LENT]) = (100, 1);
                case.state[ACTS] = acts;
                case.state[BANKS + 4] = acts;
                case.state[place] = stored;
                cases.push(case);
            }
        }
    }
    cases
}
