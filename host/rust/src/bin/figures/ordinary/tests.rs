//! The ordinary programs say what the model says.

mod idle;
mod serving;

use super::times::LATEST;
use super::*;
use model::desk;
use model::house::*;
use model::sent::{capture, of_schedule, tick, with_ticks, Sent, MOST_GAP};

/// From any start, over the last bank too; now and then all banks, and now and then one beyond a limit. Refreshes where the table has them, and
/// seldom where it has none.
fn list(numbers: &mut Numbers, t: &[u16], size: usize) -> Vec<Transaction> {
    let banks = usize::from(t[1]);
    let mut arrival = 0;
    let mut one = || {
        // At once, a little later, and now and then before the one before it or after the last arrival there is.
        arrival += numbers.of(&[0, 0, 0, 1, 7, 30]);
        let arrival = match numbers.below(120) {
            0 => arrival / 2,
            1 => LATEST + 1,
            _ => arrival,
        };
        if numbers.below(if t[RFC] > 0 { 5 } else { 100 }) == 0 {
            let bc = (numbers.below(20) == 0).into();
            return Transaction::of(&[REFRESH, 0, 0, bc]).arriving(arrival);
        }
        let (start, bi, bc) = match numbers.below(24) {
            0 => (numbers.below(banks), banks, 1),
            1 if numbers.below(4) == 0 => (banks, 1, 1),
            2 if numbers.below(4) == 0 => (banks - 1, banks + 1, 1),
            _ => (numbers.below(banks), 1 + numbers.below(banks.min(4)), 3),
        };
        let (kind, bc) = (numbers.byte() % 2, 1 + numbers.byte() % bc);
        Transaction::of(&[kind, start as u8, bi as u8, bc]).arriving(arrival)
    };
    (0..size).map(|_| one()).collect()
}

/// Of either size.
fn tables() -> Vec<Vec<u16>> {
    let sixteen = [TABLE_A, TABLE_B, TABLE_C, LEAST, GREATEST, REFRESHED];
    let sixteen = sixteen.iter().chain(&ODD).map(|t| t.to_vec());
    let twenty = group_tables().into_iter().chain([TABLE_D]);
    sixteen.chain(twenty.map(|t| t.to_vec())).collect()
}

/// A controller as the host keeps it.
fn plain(c: &desk::Controller) -> skvorzhan::Controller {
    skvorzhan::Controller {
        edition: c.edition,
        cycle: c.cycle,
        acts: c.acts,
        datas: c.datas,
        banks: c.banks.map(|b| skvorzhan::HostBank {
            opened: b.opened,
            act: b.act,
            rd: b.rd,
            wr: b.wr,
        }),
        last: c.last,
        groups: c.groups.map(|g| skvorzhan::HostGroup {
            act: g.act,
            rd: g.rd,
            wr: g.wr,
        }),
        refresh: c.refresh,
        lent: c.lent,
    }
}

/// Lists served step by step, with a number of the controller changed now and then.
#[test]
fn steps_as_the_model_says() {
    let mut numbers = Numbers(5);
    let tables = tables();
    let (mut told, mut refs) = ([0; 3], 0);
    for round in 0..900 {
        let t = &tables[round % tables.len()][..];
        let (edition, table) = (t[0], bytes_of(t));
        let list = list(&mut numbers, t, round % 6);
        let (_, mut right) = desk::start(edition, &table);
        for _ in 0..numbers.below(300) {
            let bank = numbers.below(16);
            match numbers.below(450) {
                0 => right.acts += 1,
                1 => right.datas += 1,
                2 => right.banks[bank].rd = right.cycle,
                3 => right.banks[bank].opened ^= 256,
                4 => right.last[3] = right.cycle.saturating_sub(1),
                5 => right.edition ^= 1 << 16,
                6 => right.refresh = right.cycle.saturating_sub(1),
                7 => right.refresh = right.cycle,
                8 => right.groups[bank % 8].act = right.cycle.saturating_sub(1),
                9 => right.groups[bank % 8].rd = right.cycle.saturating_sub(1),
                10 => right.groups[bank % 8].wr = right.cycle,
                11 => right.lent += 1,
                12 => right.lent = right.lent.saturating_sub(1),
                13 => (right.acts, right.banks[bank].opened) = (1, 1),
                _ => (),
            }
            let mut own = plain(&right);
            let size = if numbers.below(50) == 0 { 7 } else { 8 };
            let (mut room, mut own_room) = ([9; 8], [9; 8]);
            let answer = desk::step(&mut right, edition, &table, &list, &mut room[..size]);
            let own_answer = step(&mut own, edition, &table, &list, &mut own_room[..size]);
            let commands = answer.ok().map(|ran| ran.commands as usize);
            assert_eq!((own_answer, &own), (commands, &plain(&right)));
            assert_eq!(own_room, room);
            told[commands.unwrap_or(2)] += 1;
            refs += u32::from(room[4] == REF);
            if commands.is_none() {
                break;
            }
        }
    }
    assert!(
        told.iter().all(|&n| n > 50) && refs > 20,
        "{told:?}, {refs}"
    );
}

/// Captures of built schedules with some commands far apart, and those with a byte changed.
#[test]
fn captures_as_the_model_says() {
    let mut numbers = Numbers(9);
    let (mut accepted, mut broken, mut refused) = (0, 0, [0; 12]);
    for round in 0..3000 {
        let t = [&TABLE_A[..], &LEAST, &REFRESHED, &TABLE_D, &ODD[1]][round % 5];
        let (edition, table) = (t[0], bytes_of(t));
        let list = [[0, 0, 3, 2], [1, 1, 2, 1], [0, 3, 4, 1]];
        let (bytes, _) = built(t, &list[..round % 4]);
        let mut commands = of_schedule(&bytes);
        for at in 0..commands.len() {
            let by = numbers.of(&[0, 0, 1, 9, 60_000, 65_530, 131_072]);
            commands[at..].iter_mut().for_each(|c| c.0 += by);
        }
        let mut bytes = capture(&with_ticks(&commands, || numbers.byte().into()));
        for _ in 0..round % 3 {
            if bytes.len() > 4 {
                let at = 4 + (256 * numbers.below(256) + numbers.below(256)) % (bytes.len() - 4);
                match numbers.below(3) {
                    0 => bytes[at] = bytes[at].wrapping_sub(1),
                    1 => bytes[at] = numbers.of(&[0, 255]),
                    // The stamp of the record before.
                    _ => bytes.copy_within(at / 4 * 4 - 4..at / 4 * 4 - 2, at / 4 * 4),
                }
            }
        }
        bytes.truncate(bytes.len() - numbers.below(30) / 29);
        let size = 8 * commands.len() + numbers.of(&[0, 0, 3, 8]);
        let (mut room, mut own_room) = (vec![9; size], vec![9; size]);
        let told = desk::judge_capture(edition, &table, &bytes, &mut room);
        let own = judge_capture(edition, &table, &bytes, &mut own_room);
        let right = told.ok().map(|told| {
            let verdict = match told.verdict {
                desk::Verdict::Accepted => None,
                desk::Verdict::Broken { rule, record } => Some((rule, record)),
            };
            (told.commands as usize, verdict)
        });
        assert_eq!(own, right);
        assert!(own_room == room);
        match (told, right) {
            (Err(r), _) => refused[usize::from(r.number)] += 1,
            (_, Some((_, None))) => accepted += 1,
            _ => broken += 1,
        }
    }
    assert!(accepted > 500 && broken > 100, "{accepted}, {broken}");
    let met = |number: usize| refused[number] > 20;
    assert!(met(5) && met(7) && met(11), "{refused:?}");
    // Past the last cycle, and at it.
    let far: Vec<Sent> = (1..=65_537).map(|k| tick(k * MOST_GAP)).collect();
    let mut far = capture(&far);
    let table = bytes_of(&TABLE_A);
    assert_eq!(judge_capture(7, &table, &far, &mut []), Some((0, None)));
    far.extend([0, 0, 255, 0]);
    assert_eq!(judge_capture(7, &table, &far, &mut []), None);
    far.truncate(4);
    assert_eq!(judge_capture(7, &table, &far.repeat(2), &mut []), None);
    assert_eq!(judge_capture(7, &table, &[0; 4 * 69_633], &mut []), None);
}

/// Built schedules, and judged ones with a byte changed.
#[test]
fn as_the_model_says() {
    let mut numbers = Numbers(3);
    let tables = tables();
    let mut verdicts = [0; 13];
    let (mut over, mut refused) = (0, 0);
    for round in 0..600 {
        let t = &tables[round % tables.len()][..];
        let (edition, table) = (t[0], bytes_of(t));
        let list = list(&mut numbers, t, round % 7);
        let due = |x: &Transaction| in_act_queue(x) + in_data_queue(x);
        let due = list.iter().map(due).sum::<u32>() as usize;
        let mut right = (vec![9; 8 * due + 3], vec![9; list.len() + 1]);
        let told =
            desk::schedule(edition, &table, &list, &mut right.0, &mut right.1).map(|s| s.commands);
        let wraps = |x: &Transaction| u16::from(x.start) + u16::from(x.bi) > t[1];
        match told {
            Ok(_) => over += u32::from(list.iter().any(wraps)),
            Err(_) => refused += 1,
        }
        for by_cycles in [false, true] {
            let mut got = (vec![9; 8 * due + 3], vec![9; list.len() + 1]);
            let commands = schedule(edition, &table, &list, &mut got.0, &mut got.1, by_cycles);
            assert_eq!(commands, told.ok().map(|n| n as usize));
            assert!(got == right);
        }
        let mut bytes = right.0[..8 * due].to_vec();
        for _ in 0..30 {
            let (_, verdict) = desk::judge(edition, &table, &bytes).expect("it's judged");
            let verdict = match verdict {
                desk::Verdict::Accepted => None,
                desk::Verdict::Broken { rule, record } => Some((rule, record)),
            };
            verdicts[verdict.map_or(0, |(rule, _)| usize::from(rule))] += 1;
            for looks_back in [false, true] {
                assert_eq!(judge(edition, &table, &bytes, looks_back), Some(verdict));
                assert_eq!(judge(edition ^ 1, &table, &bytes, looks_back), None);
            }
            bytes.copy_from_slice(&right.0[..8 * due]);
            if due > 0 {
                let at = numbers.below(due) * 8 + numbers.of(&[0, 0, 0, 1, 4, 4, 5]);
                bytes[at] = match numbers.below(4) {
                    0 => bytes[at].wrapping_add(1),
                    1 => bytes[at].wrapping_sub(1 + numbers.byte() % 4),
                    2 => numbers.byte() % 7,
                    _ => bytes[at].wrapping_sub(1),
                };
            }
        }
    }
    assert!(verdicts.iter().all(|&n| n > 0), "{verdicts:?}");
    assert!(over > 100 && refused > 10, "{over}, {refused}");
}

/// Every question of any table, each way.
#[test]
fn shortest_patterns_as_the_model_says() {
    let mut numbers = Numbers(77);
    let mut found = [0; 2];
    let tables = tables();
    for round in 0..600 {
        let mut t = tables[round % tables.len()].clone();
        for _ in 0..numbers.below(4) {
            let at = 3 + numbers.below(12);
            t[at] = (t[at] + numbers.of(&[1, 5, 30])).min(1023);
            for (long, short) in LONGS {
                if t.len() > 16 {
                    t[long] = t[long].max(t[short]);
                }
            }
        }
        let (edition, table) = (t[0], bytes_of(&t));
        let (kind, bi, bc) = (
            numbers.byte() % 2,
            1 + numbers.byte() % 3,
            1 + numbers.byte() % 5,
        );
        let most = numbers.of(&[20, 50, 127, 128, 128, 129]);
        let mut room = [9; 48];
        let told = desk::shortest_pattern(edition, &table, kind, bi, bc, most, &mut room);
        let right = told.ok().map(|told| told.length);
        for each in [true, false] {
            let mut own_room = [9; 48];
            let asked = Asked { kind, bi, bc, most };
            let own = shortest(edition, &table, &asked, &mut own_room, each);
            assert_eq!((own, own_room), (right, room), "{t:?} {asked:?}");
        }
        found[usize::from(right.is_some())] += 1;
    }
    assert!(found.iter().all(|&n| n > 100), "{found:?}");
}
