//! Refreshes, and the wider numbers.

use super::*;

const RFC: usize = 15;

/// Table A with an edition of its own, and a refresh.
fn refreshed() -> Table {
    let mut t = A;
    (t[0], t[RFC]) = (70, 50);
    t
}

fn refresh() -> Transaction {
    transaction(2, 0, 0, 0)
}

/// It waits for the precharge of the read's bank, and the next read's ACT for RFC.
#[test]
fn between_two_reads() {
    let read = transaction(0, 0, 1, 1);
    let (commands, finishes, bytes_built) = built_by(refreshed(), &[read, refresh(), read]);
    let right = [
        (0, 0, 0, 0),
        (10, 2, 0, 0),
        (38, 5, 0, 1),
        (88, 0, 0, 2),
        (98, 2, 0, 2),
    ];
    assert_eq!(commands, right);
    assert_eq!(finishes, [24, 88, 112]);
    let table = bytes(refreshed());
    assert_eq!(judge(70, &table, &bytes_built), Ok((70, Verdict::Accepted)));
    let (_, finishes, _) = built_by(refreshed(), &[refresh(); 3]);
    assert_eq!(finishes, [50, 100, 150]);
}

/// A REF leaves the ACT queue, and the controller tells its cycle.
#[test]
fn run() {
    let (table, list) = (bytes(refreshed()), [refresh(), transaction(0, 0, 1, 1)]);
    let mut c = start(70, &table).expect("the table is accepted");
    assert_eq!(c.refresh, NEVER);
    let mut room = [0; 24];
    let ran = super::run(&mut c, 70, &table, &list, 20, &mut room);
    assert_eq!(ran.map(|r| (r.commands, r.cycles)), Ok((1, 20)));
    assert_eq!((c.cycle, c.acts, c.datas, c.refresh), (20, 1, 0, 0));
    let (c, ran) = run_bytes(c, 70, &table, &[2, 0, 0, 0, 0, 0, 1, 1], 99, &mut room[8..]);
    assert_eq!(ran.map(|r| (r.commands, r.cycles)), Ok((2, 41)));
    assert_eq!((c.cycle, c.acts, c.datas, c.refresh), (61, 2, 1, 0));
    let (_, _, whole) = built_by(refreshed(), &list);
    assert_eq!(room[..], whole);
    let mut late = c;
    late.refresh = late.cycle;
    let ran = super::run(&mut late, 70, &table, &list, 1, &mut room);
    assert_eq!(refused(ran), (9, 0, 70));
}

/// Rules 11 and 12 by the cycle, with a REF also where the table has none.
#[test]
fn verdicts() {
    let record = |cycle, kind, bank| {
        let mut out = [0; 8];
        let number = 0;
        let c = Command {
            cycle,
            kind,
            bank,
            number,
        };
        write_command(c, &mut out).expect("there is room");
        out
    };
    let broken = |rule, record| Verdict::Broken {
        rule,
        copy: 0,
        record,
    };
    let read = [record(0, 0, 0), record(10, 2, 0)];
    let after = |cycle, kind| [&read[..], &[record(cycle, kind, 0)]].concat().concat();
    let refreshes = |at| [record(0, 5, 0), record(at, 5, 0)].concat();
    for (t, schedule, verdict) in [
        (refreshed(), after(38, 5), Verdict::Accepted),
        (refreshed(), after(37, 5), broken(11, 2)),
        (A, after(37, 5), broken(11, 2)),
        (A, after(38, 5), Verdict::Accepted),
        (refreshed(), refreshes(50), Verdict::Accepted),
        (refreshed(), refreshes(49), broken(12, 1)),
        (A, refreshes(1), Verdict::Accepted),
        (A, refreshes(0), broken(2, 1)),
        (A, record(0, 5, 1).to_vec(), broken(1, 0)),
    ] {
        let told = judge(t[0], &bytes(t), &schedule);
        assert_eq!(told, Ok((t[0].into(), verdict)));
    }
    let pattern = after(38, 5);
    let table = bytes(refreshed());
    let told = |length| judge_pattern(70, &table, &pattern, length).map(|(_, verdict)| verdict);
    assert_eq!(told(88), Ok(Verdict::Accepted));
    let second = Verdict::Broken {
        rule: 12,
        copy: 2,
        record: 0,
    };
    assert_eq!(told(87), Ok(second));
}

#[test]
fn refusals() {
    let mut places = [refresh(); 2];
    for (t, list, told) in [
        (A, [0, 0, 1, 1, 2, 0, 0, 0], (4, 1, 7)),
        (refreshed(), [2, 0, 0, 0, 2, 0, 0, 1], (4, 1, 70)),
        (refreshed(), [2, 0, 1, 1, 3, 0, 0, 0], (4, 0, 70)),
    ] {
        let answer = read_transactions(t[0], &bytes(t), &list, &mut places);
        assert_eq!(refused(answer), told);
    }
    assert_eq!(read_transaction(&[2, 0, 0, 0]), Ok(refresh()));
    assert_eq!(refused(read_transaction(&[2, 1, 0, 0])), (4, 0, 0));
    assert_eq!(refused(bound(70, &bytes(refreshed()), 0, 0)), (4, 0, 70));
    let wide = |i: usize, n| {
        let mut t = A;
        t[i] = n;
        t
    };
    let mut out = [0; 32];
    for i in 4..=RFC {
        assert_eq!(write_table(wide(i, 1023), &mut out), Ok(7));
        assert_eq!(refused(write_table(wide(i, 1024), &mut out)), (2, 0, 0));
    }
}
