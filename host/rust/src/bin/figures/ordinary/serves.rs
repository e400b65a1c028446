//! Does a schedule serve a list: the judge, and then one pass over the records with what each transaction has had.

use model::desk::{Served, Transaction};

use super::{judge, Times, REF, REFRESH};

/// What was seen of a transaction.
#[derive(Clone, Copy)]
struct Seen {
    /// How often each kind of command went to each bank.
    counts: [[u16; 16]; 6],
    /// The place of its last record and of its first REF.
    last: Option<usize>,
    refreshed: Option<usize>,
    at_fault: bool,
}

/// None is a refusal.
pub fn serves(expected: u16, table: &[u8], list: &[Transaction], bytes: &[u8]) -> Option<Served> {
    let t = &Times::read(expected, table)?;
    if !t.admits_all(list) {
        return None;
    }
    if let Some((rule, record)) = judge(expected, table, bytes, false)? {
        return Some(Served::Broken { rule, record });
    }
    let mut seen = vec![
        Seen {
            counts: [[0; 16]; 6],
            last: None,
            refreshed: None,
            at_fault: false,
        };
        list.len()
    ];
    let mut opened = [0; 16];
    let mut highest = 0;
    let mut latest = 0;
    let mut outside = false;
    for (place, c) in bytes.chunks_exact(8).enumerate() {
        let (kind, bank) = (usize::from(c[4]), usize::from(c[5]));
        let number = usize::from(u16::from_le_bytes([c[6], c[7]]));
        if kind == 0 {
            opened[bank] = number;
        }
        if number >= list.len() {
            outside = true;
            continue;
        }
        let x = &list[number];
        let own = &mut seen[number];
        own.counts[kind][bank] += 1;
        own.last = Some(place);
        if kind == usize::from(REF) {
            own.at_fault |= number < highest || x.kind != REFRESH;
            own.refreshed = own.refreshed.or(Some(place));
        } else {
            let turn = turn_of(t, x, c[5]);
            own.at_fault |= turn >= usize::from(x.bi);
            if kind > 0 {
                let writes = kind > 2;
                let due = turn < usize::from(x.bi) && writes == (x.kind == 1);
                let closes = kind % 2 == 0;
                let due = due && (closes || x.bc > 1);
                let key = number * 32 + turn * 2 + usize::from(closes);
                own.at_fault |= !due || opened[bank] != number || key < latest;
                if due {
                    latest = latest.max(key);
                }
            }
        }
        highest = highest.max(number);
    }
    let mut before = None;
    let fault = seen.iter().zip(list).position(|(seen, x)| {
        let early = seen.refreshed.is_some() && seen.refreshed < before;
        before = before.max(seen.last);
        seen.at_fault || early || !has_all(t, x, seen)
    });
    let outside = outside.then_some(list.len());
    Some(match fault.or(outside) {
        Some(transaction) => Served::AtFault { transaction },
        None => Served::Serves,
    })
}

/// Which of the transaction's banks it is, from 0.
fn turn_of(t: &Times, x: &Transaction, bank: u8) -> usize {
    let after = if bank < x.start { t.banks } else { 0 };
    usize::from(bank + after - x.start)
}

/// Whether each of its commands was there as often as it is due.
fn has_all(t: &Times, x: &Transaction, seen: &Seen) -> bool {
    if x.kind == REFRESH {
        return seen.counts[usize::from(REF)][0] == 1;
    }
    let first = if x.kind == 1 { 3 } else { 1 };
    (0..x.bi).all(|turn| {
        let of = |kind: usize| seen.counts[kind][usize::from(t.bank(x, turn))];
        of(0) == 1 && of(first) == u16::from(x.bc) - 1 && of(first + 1) == 1
    })
}
