//! Schedules that serve their list, edited.

use super::*;
use model::desk::Served;

/// The records of a built schedule, drawn apart so that no distance is too short, after so many edits: renumbered, exchanged, dropped, repeated and
/// moved, of another kind, to another bank.
fn edited(numbers: &mut Numbers, schedule: &[u8], transactions: usize, edits: usize) -> Vec<u8> {
    let record = |x: &[u8]| (x[4], x[5], u16::from_le_bytes([x[6], x[7]]));
    let mut order: Vec<(u8, u8, u16)> = schedule.chunks_exact(8).map(record).collect();
    for _ in 0..edits {
        if order.is_empty() {
            break;
        }
        let (at, to) = (numbers.below(order.len()), numbers.below(order.len()));
        match numbers.below(8) {
            0 => order[at].2 = numbers.below(transactions + 2) as u16,
            1 => order.swap(at, to),
            2 => (order[at].2, order[to].2) = (order[to].2, order[at].2),
            3 => _ = order.remove(at),
            4 => order.insert(to, order[at]),
            5 => order[at].0 = numbers.byte() % 6,
            6 => order[at].1 = numbers.byte() % 8,
            _ => {
                let moved = order.remove(at);
                order.insert(to, moved);
            }
        }
    }
    loose(&order)
}

#[test]
fn serves_as_the_model_says() {
    let mut numbers = Numbers(7);
    let (mut told, mut refused) = ([0; 3], 0);
    let t = &REFRESHED[..];
    let table = bytes_of(t);
    for round in 0..4000 {
        let list = list(&mut numbers, t, round % 5);
        let mut room = vec![0; 8 * 600];
        let commands = desk::schedule(t[0], &table, &list, &mut room, &mut [0; 5]);
        let commands = commands.map_or(0, |s| s.commands as usize);
        let bytes = edited(&mut numbers, &room[..8 * commands], list.len(), round % 4);
        let right = desk::serves(t[0], &table, &list, &bytes);
        let own = serves(t[0], &table, &list, &bytes);
        assert_eq!(own, right.ok().map(|(_, served)| served), "{list:?}");
        match own {
            None => refused += 1,
            Some(Served::Serves) => told[0] += 1,
            Some(Served::Broken { .. }) => told[1] += 1,
            Some(Served::AtFault { .. }) => told[2] += 1,
        }
    }
    assert!(
        told.iter().all(|&n| n > 300) && refused > 50,
        "{told:?}, {refused}"
    );
}
