//! The build: the cycle rule tried against all earlier records.

use super::lists::{check_list, MOST_TRANSACTIONS};
use super::queues::{Queues, Waiting};
use super::straight::Engine;
use crate::records::{refused_by, Command, GroupTable, Refusal, Transaction, REFRESH};
use crate::rules::{first_broken, Record, Times, ACT, REF};

pub struct Built {
    pub commands: Vec<Command>,
    /// One for each transaction.
    pub finishes: Vec<u32>,
}

/// Numbers 3 to 6, and then the build. Room in bytes, and the finishing slice's length.
pub fn build(
    engine: Engine,
    table: &GroupTable,
    list: &[Transaction],
    room: usize,
    slots: usize,
) -> Result<Built, Refusal> {
    check_list(table, list, MOST_TRANSACTIONS)?;
    let queues = Queues::of(table, list);
    let due = queues.acts.len() + queues.datas.len();
    if room < 8 * due {
        return refused_by(table, 5, 0);
    }
    if slots < list.len() {
        return refused_by(table, 6, 0);
    }
    let commands = from_fresh_start(engine, table, &queues);
    let finishes = list
        .iter()
        .enumerate()
        .map(|(number, x)| {
            let of_it = |c: &&Command| c.kind != ACT && usize::from(c.transaction) == number;
            let last = commands.iter().rfind(of_it);
            finish(
                table,
                x,
                last.expect("each has a command to finish by").cycle,
            )
        })
        .collect();
    Ok(Built { commands, finishes })
}

/// From the cycle of its last data command, or of its REF. As request 4 has it, "a read finishes at its last data command + RL + B, a
/// write as before", at that command itself; and as request 5 has it, "a refresh finishes at its cycle + RFC".
fn finish(table: &GroupTable, x: &Transaction, last: u32) -> u32 {
    let t = Times::of(table);
    let after = match x.kind {
        0 => t.rl + t.b,
        REFRESH => t.rfc,
        _ => 0,
    };
    let cycle = u64::from(last) + after;
    cycle
        .try_into()
        .expect("a list is served long before the last of the 32-bit cycles")
}

/// From cycle 0 on, each head against all records that have gone.
fn from_fresh_start(engine: Engine, table: &GroupTable, queues: &Queues) -> Vec<Command> {
    let mut gone: Vec<Record> = Vec::new();
    let mut commands = Vec::new();
    let (mut acts, mut datas) = (0, 0);
    let mut cycle = 0;
    while acts < queues.acts.len() || datas < queues.datas.len() {
        let next_at = |cycle: u32| {
            let goes = |w: &&Waiting| {
                w.is_seen(cycle) && first_broken(table, &gone, &w.as_record(cycle)).is_none()
            };
            let data = queues.datas.get(datas).filter(|w| w.act < acts);
            data.filter(goes)
                .or_else(|| queues.acts.get(acts).filter(goes))
        };
        cycle = engine.next(cycle, u32::MAX, |cycle| next_at(cycle).is_some());
        if let Some(w) = next_at(cycle) {
            if w.kind == ACT || w.kind == REF {
                acts += 1;
            } else {
                datas += 1;
            }
            commands.push(w.at(cycle));
            gone.push(w.as_record(cycle));
        }
        cycle += 1;
    }
    commands
}
