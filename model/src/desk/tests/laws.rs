//! What document 01 says of every list: its schedule passes the judge, meets the bound, and is what runs give in pieces.

use crate::desk::*;
use crate::house::*;
use crate::records::{commands_of, whole, BANKS, EDITION, LATEST, REFRESH, RFC};
use crate::rules::{Times, ACT};
use crate::scheduler::longest_wait;

/// Lists of every shape, each under every table, with refreshes where the table has them; one of them takes all its banks, twice, and
/// runs over the last one.
pub fn lists_and_tables() -> Vec<(Vec<u16>, Vec<[u8; 4]>)> {
    let mut numbers = Numbers(3);
    let mut all = Vec::new();
    let tables = [TABLE_A, TABLE_B, TABLE_C, LEAST, GREATEST, REFRESHED];
    let tables = tables.iter().chain(&ODD).map(|t| t.to_vec());
    let of_groups = group_tables().into_iter().chain([TABLE_D]);
    for table in tables.chain(of_groups.map(|t| t.to_vec())) {
        for size in [0, 1, 2, 3, 5] {
            let list = (0..size).map(|_| {
                if table[RFC] != 0 && numbers.below(3) == 0 {
                    return REFRESH_BYTES;
                }
                let bi = 1 + numbers.below(table[BANKS].min(4).into()) as u8;
                let start = numbers.below(table[BANKS].into()) as u8;
                [numbers.byte() % 2, start, bi, 1 + numbers.byte() % 3]
            });
            all.push((table.clone(), list.collect()));
        }
        let banks = table[BANKS] as u8;
        let (first, then) = ([1, banks - 1, banks, 2], [0, banks / 2, banks, 1]);
        all.push((table.clone(), vec![first, then]));
        if table[RFC] != 0 {
            let refreshes = [REFRESH_BYTES; 2];
            all.push((table.clone(), [&[first], &refreshes[..], &[then]].concat()));
            all.push((table, vec![REFRESH_BYTES; 6]));
        }
    }
    all
}

fn decoded(edition: u16, table: &[u8], list: &[[u8; 4]]) -> Vec<Transaction> {
    let mut places = vec![transaction(0, 0, 0, 0); list.len()];
    read_transactions(edition, table, &list.concat(), &mut places).expect("the list is accepted");
    places
}

pub fn transaction(kind: u8, start: u8, bi: u8, bc: u8) -> Transaction {
    Transaction::of(&[kind, start, bi, bc])
}

/// A run into room for all: what is told and the commands' bytes.
fn ran(c: &mut Controller, table: &[u8], list: &[Transaction], count: u32) -> (Ran, Vec<u8>) {
    let mut room = vec![0; 1 << 16];
    let edition = c.edition as u16;
    let told = run(c, edition, table, list, count, &mut room).expect("nothing is refused");
    room.truncate(8 * told.commands as usize);
    (told, room)
}

/// The cycle of each transaction's last data command, or of its REF.
fn last_datas(room: &[u8], size: usize) -> Vec<u64> {
    let mut last = vec![0; size];
    for c in commands_of(room).iter().filter(|c| c.kind != ACT) {
        last[usize::from(c.transaction)] = c.cycle.into();
    }
    last
}

/// What a list met of the limits: the types that came exactly at theirs; and whether a transaction came later than it might were the count
/// from its arrival alone, or from its predecessor alone.
#[derive(Default)]
pub struct Met {
    pub exact: Vec<u8>,
    pub past_arrival: bool,
    pub past_predecessor: bool,
}

/// "The bound still counts from last command to last command; the promised finish of a read is that limit + RL + B." With refreshes,
/// "the promise counts from that finish where the predecessor is a refresh. A REF itself comes within S of where its count starts". With
/// arrivals, it "counts from the later of the arrival and the predecessor's last command (its finish, where the predecessor is a refresh)",
/// and no command goes before its transaction's arrival. The judge accepts what is built.
pub fn laters_pass_and_meet_the_bound(table: &[u16], list: &[[u8; 8]]) -> Met {
    let (room, finishes) = built_later(table, list);
    let list = transactions(list);
    let times = Times::of(&whole(table));
    let (edition, table) = (table[EDITION], bytes_of(table));
    let (_, verdict) = judge(edition, &table, &room).expect("whole records");
    assert_eq!(verdict, Verdict::Accepted);
    for c in commands_of(&room) {
        assert!(list[usize::from(c.transaction)].arrival <= c.cycle);
    }
    let mut predecessor = 0;
    let mut met = Met::default();
    let lasts = last_datas(&room, list.len());
    for ((x, finish), last) in list.iter().zip(finishes).zip(lasts) {
        let (cycles, after) = if x.kind == REFRESH {
            (longest_wait(&times), times.rfc)
        } else {
            let (_, cycles) = bound(edition, &table, x.bi, x.bc).expect("it's in the list");
            (cycles, [times.rl + times.b, 0][usize::from(x.kind)])
        };
        let arrival = u64::from(x.arrival);
        let limit = arrival.max(predecessor) + cycles;
        assert!(last <= limit);
        assert_eq!(u64::from(finish), last + after);
        if last == limit {
            met.exact.push(x.kind);
        }
        met.past_arrival |= last > arrival + cycles;
        met.past_predecessor |= last > predecessor + cycles;
        predecessor = match x.kind {
            REFRESH => finish.into(),
            _ => last,
        };
    }
    met
}

/// All arrive at cycle 0. Answers which types came exactly at their limit.
pub fn passes_and_meets_the_bound(table: &[u16], list: &[[u8; 4]]) -> Vec<u8> {
    let at_once = arriving(list, &vec![0; list.len()]);
    assert_eq!(built_later(table, &at_once), built(table, list));
    laters_pass_and_meet_the_bound(table, &at_once).exact
}

#[test]
fn built_schedules_pass_and_meet_the_bound() {
    for (table, list) in lists_and_tables() {
        passes_and_meets_the_bound(&table, &list);
    }
}

/// No bound is above 265,980: S is at most 4 × 1,023, and with RCD and 255 times CCD it gives the greatest table's. A refresh takes no
/// more than S and RFC. So 256 bounds and a read's RL + B fit 32 bits, and all commands go before cycle 100,000,000, even after the last
/// arrival there is. The longest list that there is ends within them.
#[test]
fn finishing_cycles_fit() {
    let most = 256 * 265_980 + 2 * 1023;
    assert!(u64::from(LATEST) + most < 88_100_000);
    let greatest = whole(&GREATEST);
    let tables = [TABLE_A, TABLE_B, TABLE_C, LEAST, GREATEST];
    let tables = tables.iter().chain(&ODD).map(|t| whole(t));
    for table in &tables.chain(group_tables()).collect::<Vec<_>>() {
        let (edition, banks) = (table[EDITION], table[BANKS] as u8);
        let (_, cycles) = bound(edition, &bytes_of(table), banks, 16).expect("it's in range");
        assert!(cycles <= 265_980);
        let is_greatest = table[..16] == greatest[..16];
        assert_eq!(cycles == 265_980, is_greatest);
        let refresh = longest_wait(&Times::of(table)) + u64::from(table[RFC]);
        assert!(refresh <= 5_115);
        assert_eq!(refresh == 5_115, is_greatest);
    }
    let table = bytes_of(&GREATEST);
    let (_, mut c) = start(65535, &table);
    let mut room = vec![0; 8 * 69_632];
    let list = [transaction(0, 15, 16, 16); 256];
    let told = run(&mut c, 65535, &table, &list, u32::MAX, &mut room).expect("it's accepted");
    assert_eq!(told.commands, 69_632);
    assert!(u64::from(told.cycles) - 1 + 2 * 1023 <= most);
}

/// "Transactions added at the end move no command of the earlier ones by a cycle", nor their finishes.
#[test]
fn what_is_added_at_the_end_moves_nothing() {
    for (table, list) in lists_and_tables() {
        assert_moves_nothing(&list, |list| built(&table, list));
    }
}

/// Each start of the list has the commands and the finishes that it has in the whole.
pub fn assert_moves_nothing<T>(list: &[T], built: impl Fn(&[T]) -> (Vec<u8>, Vec<u32>)) {
    let (room, finishes) = built(list);
    let whole = commands_of(&room);
    for size in 0..list.len() {
        let (room, of_start) = built(&list[..size]);
        let of_them = |c: &&Command| usize::from(c.transaction) < size;
        let cut: Vec<Command> = whole.iter().filter(of_them).copied().collect();
        assert_eq!(commands_of(&room), cut);
        assert_eq!(of_start, finishes[..size]);
    }
}

#[test]
fn decoded_or_as_bytes() {
    for (table, list) in lists_and_tables() {
        let (room, finishes) = built(&table, &list);
        let (edition, table) = (table[EDITION], bytes_of(&table));
        let list = decoded(edition, &table, &list);
        let mut own_room = vec![0; room.len()];
        let mut own_finishes = vec![0; finishes.len()];
        let told = schedule(edition, &table, &list, &mut own_room, &mut own_finishes);
        let count = told.map(|told| 8 * told.commands as usize);
        assert_eq!((count, own_room), (Ok(room.len()), room));
        assert_eq!(own_finishes, finishes);
    }
}

/// "A fresh run to the end reports the last command's cycle plus one (0 for an empty list)."
#[test]
fn a_run_to_the_end_is_the_build() {
    for (table, list) in lists_and_tables() {
        let (room, _) = built(&table, &list);
        let (edition, table) = (table[EDITION], bytes_of(&table));
        let (_, mut c) = start(edition, &table);
        let (told, bytes) = ran(&mut c, &table, &decoded(edition, &table, &list), u32::MAX);
        assert_eq!(bytes, room);
        let gone = commands_of(&room);
        assert_eq!(told.cycles, gone.last().map_or(0, |last| last.cycle + 1));
        assert_eq!(c.cycle, told.cycles);
    }
}

/// By history and by what a state tells, over the longest list there is.
#[test]
fn so_is_a_run_of_256_transactions() {
    let examples = crate::examples::all();
    let longest = examples
        .iter()
        .find(|example| example.head.name == "all-256");
    let input = longest.expect("it's an example").bytes();
    let (table, bytes) = input[2..].split_at(32);
    let (mut schedule, mut commands) = (vec![0; 1 << 16], vec![0; 1 << 16]);
    let mut finishes = [0; 256];
    schedule_bytes(7, table, bytes, &mut schedule, &mut finishes).expect("nothing is refused");
    let (_, mut c) = start(7, table);
    let told = run_bytes(&mut c, 7, table, bytes, u32::MAX, &mut commands);
    // The last transaction is a read, of RL 10 and B 4.
    assert_eq!(told.map(|told| told.cycles), Ok(finishes[255] - 14 + 1));
    assert!(commands == schedule);
}

/// "n cycles and then m give the commands and state of n + m at once": right after each command, and at cycles all along.
#[test]
fn a_run_cut_in_two_gives_the_whole() {
    for (table, list) in lists_and_tables() {
        let (edition, table) = (table[EDITION], bytes_of(&table));
        let list = decoded(edition, &table, &list);
        let (_, mut at_once) = start(edition, &table);
        let (whole, all) = ran(&mut at_once, &table, &list, u32::MAX);
        let all_along = (0..=whole.cycles).step_by(1 + whole.cycles as usize / 300);
        let gone = commands_of(&all);
        for count in all_along.chain(gone.iter().map(|c| c.cycle + 1)) {
            let (_, mut c) = start(edition, &table);
            let (first, start) = ran(&mut c, &table, &list, count);
            let (then, end) = ran(&mut c, &table, &list, u32::MAX - count);
            assert_eq!([start, end].concat(), all);
            assert_eq!(first.cycles, count);
            assert_eq!(first.cycles + then.cycles, whole.cycles);
            assert_eq!(c, at_once);
        }
    }
}

/// One cycle at a time, and no more than one command in each.
#[test]
fn steps_give_the_whole() {
    for (table, list) in lists_and_tables() {
        let (edition, table) = (table[EDITION], bytes_of(&table));
        let bytes = list.concat();
        let list = decoded(edition, &table, &list);
        let (_, mut at_once) = start(edition, &table);
        let (whole, all) = ran(&mut at_once, &table, &list, u32::MAX);
        let (_, mut c) = start(edition, &table);
        let (_, mut by_bytes) = start(edition, &table);
        let mut gone = Vec::new();
        for _ in 0..whole.cycles {
            let mut room = [0; 8];
            let told = step(&mut c, edition, &table, &list, &mut room).expect("nothing is refused");
            assert_eq!((told.cycles, told.commands < 2), (1, true));
            gone.extend_from_slice(&room[..8 * told.commands as usize]);
            let same = step_bytes(&mut by_bytes, edition, &table, &bytes, &mut [0; 8]);
            assert_eq!((same, &by_bytes), (Ok(told), &c));
        }
        assert_eq!((gone, &c), (all, &at_once));
        let told = step(&mut c, edition, &table, &list, &mut []).expect("it's served");
        assert_eq!((told.cycles, told.commands), (0, 0));
        assert_eq!(c, at_once);
    }
}
