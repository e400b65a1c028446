//! Document 01's examples through the safe functions, by both engines, and a refusal of each kind.

mod arrivals;
mod banks;
mod captures;
mod editions;
mod groups;
mod patterns;
mod refreshes;
mod serving;
mod straight;

use skvorzhan::*;

const A: Table = [7, 8, 4, 4, 10, 10, 28, 38, 6, 32, 10, 8, 6, 12, 6, 0];
const FAW: usize = 9;

fn bytes(t: Table) -> [u8; 32] {
    let mut bytes = [0; 32];
    assert_eq!(write_table(t, &mut bytes), Ok(t[0].into()));
    let mut twenty = [1; 20];
    twenty[..16].copy_from_slice(&t);
    twenty[17..].copy_from_slice(&[t[3], t[8], t[14]]);
    assert_eq!(read_table(&bytes), Ok(twenty));
    bytes
}

fn transaction(kind: u8, start: u8, bi: u8, bc: u8) -> Transaction {
    Transaction {
        kind,
        start,
        bi,
        bc,
        arrival: 0,
    }
}

fn refused<T: std::fmt::Debug>(told: Result<T, Refusal>) -> (u32, u32, u32) {
    let r = told.expect_err("it's refused");
    (r.number, r.position, r.edition)
}

/// Cycle, kind, bank, number.
type Told = (u32, u8, u8, u16);

/// By both engines, which answer and write the same.
fn schedule(
    expected: u16,
    table: &[u8],
    list: &[Transaction],
    commands: &mut [u8],
    finishes: &mut [u32],
) -> Result<Scheduled, Refusal> {
    let (mut same, mut same_finishes) = (commands.to_vec(), finishes.to_vec());
    let straight = schedule_straight(expected, table, list, &mut same, &mut same_finishes);
    let told = skvorzhan::schedule(expected, table, list, commands, finishes);
    assert_eq!((straight, &same[..]), (told, &commands[..]));
    assert_eq!(same_finishes, finishes);
    told
}

/// By both engines, which answer, write and leave the same.
fn run(
    c: &mut Controller,
    expected: u16,
    table: &[u8],
    list: &[Transaction],
    count: u32,
    room: &mut [u8],
) -> Result<Ran, Refusal> {
    let (mut left, mut same) = (*c, room.to_vec());
    let straight = run_straight(&mut left, expected, table, list, count, &mut same);
    let told = skvorzhan::run(c, expected, table, list, count, room);
    assert_eq!((straight, left, &same[..]), (told, *c, &room[..]));
    told
}

/// The commands, the finishing cycles, and the commands' bytes.
fn built(list: &[Transaction]) -> (Vec<Told>, Vec<u32>, Vec<u8>) {
    built_by(A, list)
}

fn built_by(t: Table, list: &[Transaction]) -> (Vec<Told>, Vec<u32>, Vec<u8>) {
    let due = |x: &Transaction| match x.kind {
        2 => 1,
        _ => usize::from(x.bi) * (1 + usize::from(x.bc)),
    };
    let due: usize = list.iter().map(due).sum();
    let (mut room, mut finishes) = (vec![9; 8 * due + 1], vec![9; list.len() + 1]);
    let told = schedule(t[0], &bytes(t), list, &mut room, &mut finishes);
    let (edition, commands) = (t[0].into(), due as u32);
    assert_eq!(told, Ok(Scheduled { edition, commands }));
    assert_eq!((room.pop(), finishes.pop()), (Some(9), Some(9)));
    let command = |c: &[u8]| {
        let c = read_command(c).expect("8 bytes are a command");
        (c.cycle, c.kind, c.bank, c.number)
    };
    (room.chunks(8).map(command).collect(), finishes, room)
}

#[test]
fn schedules() {
    let (write, read) = (transaction(1, 0, 1, 1), transaction(0, 0, 1, 1));
    let (commands, finishes, _) = built(&[write, read]);
    assert_eq!(
        commands,
        [(0, 0, 0, 0), (10, 4, 0, 0), (44, 0, 0, 1), (54, 2, 0, 1)]
    );
    // The bound is met from last command to last command; the read finishes RL + B later.
    assert_eq!(finishes, [10, 10 + 44 + 14]);
    assert_eq!(bound(7, &bytes(A), 1, 1), Ok((7, 44)));
    let bounds =
        [(2, 1), (1, 4), (4, 2), (5, 1), (8, 1)].map(|(bi, bc)| bound(7, &bytes(A), bi, bc));
    assert_eq!(bounds, [53, 56, 75, 80, 107].map(|bound| Ok((7, bound))));
    assert_eq!(built(&[read]).1, [24]);
    assert_eq!(built(&[read, transaction(1, 1, 1, 1)]).1, [24, 18]);
    assert_eq!(built(&[write, transaction(0, 1, 1, 1)]).1, [10, 42]);
    assert_eq!(built(&[transaction(0, 0, 5, 1)]).1, [56]);
}

#[test]
fn verdicts() {
    let (_, _, one) = built(&[transaction(0, 0, 1, 1)]);
    let (_, _, four) = built(&[transaction(0, 0, 4, 2)]);
    let mut b = A;
    b[FAW] = 155;
    let broken = |copy, rule| {
        Ok((
            7,
            Verdict::Broken {
                rule,
                copy,
                record: 0,
            },
        ))
    };
    let accepted = Ok((7, Verdict::Accepted));
    assert_eq!(judge(7, &bytes(A), &one), accepted);
    assert_eq!(judge(7, &bytes(A), &[]), accepted);
    assert_eq!(judge_pattern(7, &bytes(A), &one, 38), accepted);
    assert_eq!(judge_pattern(7, &bytes(A), &one, 37), broken(2, 4));
    assert_eq!(judge_pattern(7, &bytes(A), &four, 39), accepted);
    assert_eq!(judge_pattern(7, &bytes(A), &four, 38), broken(2, 2));
    assert_eq!(judge_pattern(7, &bytes(b), &one, 39), accepted);
    assert_eq!(judge_pattern(7, &bytes(b), &one, 38), broken(5, 7));
    let open = Verdict::Broken {
        rule: 10,
        copy: 0,
        record: 1,
    };
    assert_eq!(judge(7, &bytes(A), &one[..8]), Ok((7, open)));
}

/// A few cycles, one, and the rest, lent and handed over, give what is built at once.
#[test]
fn runs() {
    let list = [transaction(1, 0, 1, 1), transaction(0, 0, 1, 1)];
    let (_, _, whole) = built(&list);
    let table = bytes(A);
    let mut c = start(7, &table).expect("the table is accepted");
    assert_eq!(
        (c.edition, c.cycle, c.last, c.groups[7].wr),
        (7, 0, [NEVER; 4], NEVER)
    );
    let mut room = [0; 32];
    let (edition, commands) = (7, 1);
    let first = Ran {
        edition,
        commands,
        cycles: 10,
    };
    assert_eq!(run(&mut c, 7, &table, &list, 10, &mut room), Ok(first));
    let next = Ran {
        edition,
        commands,
        cycles: 1,
    };
    assert_eq!(step(&mut c, 7, &table, &list, &mut room[8..]), Ok(next));
    let (c, rest) = run_bytes(
        c,
        7,
        &table,
        &[1, 0, 1, 1, 0, 0, 1, 1],
        NEVER,
        &mut room[16..],
    );
    assert_eq!(
        rest,
        Ok(Ran {
            edition,
            commands: 2,
            cycles: 44
        })
    );
    assert_eq!(
        (c.cycle, c.acts, c.datas, &room[..]),
        (55, 2, 2, &whole[..])
    );
}

#[test]
fn refusals() {
    let table = bytes(A);
    let mut ccd_1 = A;
    ccd_1[3] = 1;
    let mut out = [5; 40];
    assert_eq!(refused(read_table(&table[..31])), (1, 0, 0));
    assert_eq!(refused(write_table(ccd_1, &mut out[..32])), (2, 0, 0));
    let beyond = transaction(0, 8, 1, 1);
    let mut list = [transaction(0, 7, 1, 1), beyond];
    assert_eq!(
        refused(read_transactions(7, &table, &[0; 7], &mut list)),
        (3, 0, 7)
    );
    assert_eq!(
        refused(schedule(7, &table, &list, &mut out, &mut [])),
        (4, 1, 7)
    );
    assert_eq!(
        refused(schedule(7, &table, &list[..1], &mut out[..15], &mut [])),
        (5, 0, 7)
    );
    assert_eq!(
        refused(schedule(7, &table, &list[..1], &mut out, &mut [])),
        (6, 0, 7)
    );
    assert_eq!(refused(judge(7, &table, &[0; 9])), (7, 0, 7));
    assert_eq!(refused(judge_pattern(7, &table, &[], 0)), (8, 0, 7));
    let mut c = start(7, &table).expect("the table is accepted");
    c.cycle = 100_000_000;
    let before = c;
    assert_eq!(refused(run(&mut c, 7, &table, &[], 1, &mut out)), (9, 0, 7));
    assert_eq!(c, before);
    assert_eq!(refused(write_transaction(beyond, &mut out)), (3, 0, 0));
    assert_eq!(write_transaction(beyond, &mut out[..4]), Ok(()));
    assert_eq!(read_transaction(&out[..4]), Ok(beyond));
    let c = Command {
        cycle: 1,
        kind: 2,
        bank: 3,
        number: 4,
    };
    assert_eq!(refused(write_command(c, &mut out[..7])), (5, 0, 0));
    assert_eq!(write_command(c, &mut out), Ok(()));
    assert_eq!(read_command(&out[..8]), Ok(c));
    assert_eq!(out[8..], [5; 32]);
    let shown = refused_text(judge(7, &table, &[0; 9]));
    assert_eq!(shown, "refused 7 at 0 edition 7");
}

fn refused_text<T>(told: Result<T, Refusal>) -> String {
    told.err().map_or(String::new(), |r| r.to_string())
}
