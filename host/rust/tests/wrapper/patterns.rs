//! The shortest pattern.

use super::*;

/// The length and the commands of the pattern for a type, BI and BC.
fn found(t: Table, kind: u8, bi: u8, bc: u8) -> (u32, Vec<Told>) {
    let (table, mut room) = (bytes(t), [5; 49]);
    let told = shortest_pattern(t[0], &table, kind, bi, bc, 128, &mut room);
    let told = told.expect("there is one");
    let count = usize::from(bi) * (1 + usize::from(bc));
    assert_eq!((told.edition, told.commands), (t[0].into(), count as u32));
    assert!(room[8 * count..].iter().all(|&b| b == 5));
    let pattern = &room[..8 * count];
    let accepted = Ok((t[0].into(), Verdict::Accepted));
    assert_eq!(judge_pattern(t[0], &table, pattern, told.length), accepted);
    let command = |c: &[u8]| {
        let c = read_command(c).expect("8 bytes are a command");
        (c.cycle, c.kind, c.bank, c.number)
    };
    (told.length, pattern.chunks(8).map(command).collect())
}

/// Examples 8 and 10 of document 01 are the shortest of one read, and a write's tail is 10 + 8 + 4 + 12 + 10.
#[test]
fn one_command() {
    let read = vec![(0, 0, 0, 0), (10, 2, 0, 0)];
    assert_eq!(found(A, 0, 1, 1), (38, read.clone()));
    let mut b = A;
    b[FAW] = 155;
    assert_eq!(found(b, 0, 1, 1), (39, read));
    assert_eq!(found(A, 1, 1, 1), (44, vec![(0, 0, 0, 0), (10, 4, 0, 0)]));
}

/// The second ACT stands at 8, though 6 would break no rule in one copy.
#[test]
fn two_banks() {
    let write = [
        (0, 0, 0, 0),
        (8, 0, 1, 0),
        (10, 3, 0, 0),
        (14, 4, 0, 0),
        (18, 3, 1, 0),
        (22, 4, 1, 0),
    ];
    assert_eq!(found(A, 1, 2, 2), (48, write.to_vec()));
    assert_eq!(found(A, 0, 2, 1).0, 38);
}

/// 4, 5, 13, in this order.
#[test]
fn refusals() {
    let (table, mut room) = (bytes(A), [5; 16]);
    let mut by = |kind, bi, bc, most, size: usize| {
        let told = shortest_pattern(7, &table, kind, bi, bc, most, &mut room[..size]);
        assert_eq!(room, [5; 16]);
        refused(told)
    };
    assert_eq!(by(2, 1, 1, 128, 0), (4, 0, 7));
    assert_eq!(by(0, 1, 6, 128, 16), (4, 0, 7));
    assert_eq!(by(0, 9, 1, 128, 16), (4, 0, 7));
    assert_eq!(by(0, 1, 1, 0, 16), (4, 0, 7));
    assert_eq!(by(0, 1, 1, 129, 16), (4, 0, 7));
    assert_eq!(by(0, 1, 1, 37, 15), (5, 0, 7));
    assert_eq!(by(0, 1, 1, 37, 16), (13, 0, 7));
    let told = shortest_pattern(8, &table, 2, 1, 1, 128, &mut room);
    assert_eq!(refused(told), (10, 7, 7));
}
