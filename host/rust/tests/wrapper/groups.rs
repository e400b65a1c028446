//! Tables of 40 bytes.

use super::*;

/// Table A's numbers in 4 groups, with long CCD 9, long RRD 20, long WTR 13.
const D: GroupTable = [
    7, 8, 4, 4, 10, 10, 28, 38, 6, 32, 10, 8, 6, 12, 6, 0, 4, 9, 20, 13,
];

fn of(t: GroupTable) -> [u8; 40] {
    let mut bytes = [0; 40];
    assert_eq!(write_group_table(t, &mut bytes), Ok(t[0].into()));
    assert_eq!(read_table(&bytes), Ok(t));
    bytes
}

#[test]
fn tables() {
    let bytes = of(D);
    for size in [0, 31, 33, 39] {
        assert_eq!(refused(read_table(&bytes[..size])), (1, 0, 0));
        let mut out = vec![5; size];
        assert_eq!(refused(write_group_table(D, &mut out)), (1, 0, 0));
        assert!(out.iter().all(|&b| b == 5));
    }
    // Its first 32 bytes are table A.
    assert_eq!(bytes[..32], super::bytes(A));
    for (place, n) in [(16, 0), (16, 9), (17, 3), (18, 5), (19, 5), (17, 1024)] {
        let mut t = D;
        t[place] = n;
        let mut out = [5; 40];
        assert_eq!(refused(write_group_table(t, &mut out)), (2, 0, 0));
        assert_eq!(out, [5; 40]);
    }
    let mut t = D;
    (t[1], t[16]) = (3, 4);
    assert_eq!(refused(write_group_table(t, &mut [0; 40])), (2, 0, 0));
}

/// Reads of banks 0, 1 and 4: the last waits for the first, of its group, and the bound counts with the long numbers.
#[test]
fn schedules() {
    let table = of(D);
    let list = [0, 1, 4].map(|bank| transaction(0, bank, 1, 1));
    let (mut room, mut finishes) = ([0; 48], [0; 3]);
    let told = schedule(7, &table, &list, &mut room, &mut finishes);
    assert_eq!(told.map(|s| s.commands), Ok(6));
    assert_eq!(finishes, [24, 30, 44]);
    let act = read_command(&room[32..40]).expect("8 bytes are a command");
    assert_eq!((act.cycle, act.kind, act.bank), (20, 0, 4));
    assert_eq!(judge(7, &table, &room), Ok((7, Verdict::Accepted)));
    // A cycle earlier its ACT is too near to that of bank 0, which bank 1's hides; not so for the table of 32 bytes.
    room[32] -= 1;
    let broken = Verdict::Broken {
        rule: 6,
        copy: 0,
        record: 4,
    };
    assert_eq!(judge(7, &table, &room), Ok((7, broken)));
    assert_eq!(judge(7, &table[..32], &room), Ok((7, Verdict::Accepted)));
    let bounds = [(1, 1), (2, 1), (1, 4)].map(|(bi, bc)| bound(7, &table, bi, bc));
    assert_eq!(bounds, [44, 65, 71].map(|bound| Ok((7, bound))));
}

/// The controller tells each group's latest; what stands past the table's groups stays, whatever it is.
#[test]
fn runs() {
    let table = of(D);
    let list = [0, 1, 4].map(|bank| transaction(0, bank, 1, 1));
    let mut c = start(7, &table).expect("the table is accepted");
    let past = HostGroup {
        act: 1,
        rd: NEVER - 1,
        wr: 50_000_000,
    };
    c.groups[4..].fill(past);
    let mut room = [0; 48];
    let ran = run(&mut c, 7, &table, &list, NEVER, &mut room);
    assert_eq!(ran.map(|r| (r.commands, r.cycles)), Ok((6, 31)));
    let told = |g: &HostGroup| (g.act, g.rd, g.wr);
    let groups: Vec<_> = c.groups[..4].iter().map(told).collect();
    let none = (NEVER, NEVER, NEVER);
    assert_eq!(groups, [(20, 30, NEVER), (6, 16, NEVER), none, none]);
    assert!(c.groups[4..].iter().all(|g| *g == past));
    for change in [
        |g: &mut HostGroup, n| g.act = n,
        |g: &mut HostGroup, n| g.rd = n,
        |g: &mut HostGroup, n| g.wr = n,
    ] {
        let mut late = c;
        change(&mut late.groups[3], late.cycle);
        let ran = run(&mut late, 7, &table, &list, 1, &mut room);
        assert_eq!(refused(ran), (9, 0, 7));
    }
}
