//! The model's two engines, and its schedules.

use model::desk::{self, Controller, Ran, Refusal, Scheduled, Transaction};
use model::house::{room_for, B, RFC, RL};

use super::transactions;

/// A list is built by the model's own way, which holds each command at each cycle that is tried against all before it, where it has at most so
/// many commands times cycles; else by the model's controller.
const BY_HISTORY: u64 = 100_000;

#[rustfmt::skip]
mod types {
    use super::*;

    /// Of a list whose entries are `T`: transactions, or bytes.
    pub type Schedule<T> = fn(u16, &[u8], &[T], &mut [u8], &mut [u32]) -> Result<Scheduled, Refusal>;
    pub type Run<T> = fn(&mut Controller, u16, &[u8], &[T], u32, &mut [u8]) -> Result<Ran, Refusal>;
}

use types::*;

pub struct Engine {
    schedule: Schedule<Transaction>,
    pub schedule_bytes: Schedule<u8>,
    pub schedule_later_bytes: Schedule<u8>,
    pub run: Run<Transaction>,
    pub run_bytes: Run<u8>,
    pub run_later_bytes: Run<u8>,
}

pub static PLAIN: Engine = Engine {
    schedule: desk::schedule,
    schedule_bytes: desk::schedule_bytes,
    schedule_later_bytes: desk::schedule_later_bytes,
    run: desk::run,
    run_bytes: desk::run_bytes,
    run_later_bytes: desk::run_later_bytes,
};

pub static STRAIGHT: Engine = Engine {
    schedule: desk::schedule_straight,
    schedule_bytes: desk::schedule_straight_bytes,
    schedule_later_bytes: desk::schedule_straight_later_bytes,
    run: desk::run_straight,
    run_bytes: desk::run_straight_bytes,
    run_later_bytes: desk::run_straight_later_bytes,
};

pub fn schedule(
    engine: &Engine,
    e: u16,
    table: &[u8],
    list: &[[u8; 8]],
    room: &mut [u8],
    finishes: &mut [u32],
) -> Result<Scheduled, Refusal> {
    let by_controller = built(engine, e, table, list);
    let list = transactions(list);
    match by_controller {
        Ok((told, commands, all))
            if u64::from(told.commands) * u64::from(told.cycles) > BY_HISTORY =>
        {
            // Refused by 5 or 6, before anything is built.
            if room.len() < commands.len() || finishes.len() < all.len() {
                return (engine.schedule)(e, table, &list, room, finishes);
            }
            room[..commands.len()].copy_from_slice(&commands);
            finishes[..all.len()].copy_from_slice(&all);
            Ok(Scheduled {
                edition: told.edition,
                commands: told.commands,
            })
        }
        _ => (engine.schedule)(e, table, &list, room, finishes),
    }
}

/// What the model's controller makes of a list, and the finishing cycles that its commands give.
fn built(
    engine: &Engine,
    e: u16,
    table: &[u8],
    list: &[[u8; 8]],
) -> Result<(Ran, Vec<u8>, Vec<u32>), Refusal> {
    let (_, mut fresh) = desk::start(e, table);
    let mut room = vec![0; room_for(list)];
    let transactions = transactions(list);
    let told = (engine.run)(&mut fresh, e, table, &transactions, u32::MAX, &mut room)?;
    let t = desk::read_table(table)?.map(u32::from);
    let mut finishes = vec![0; list.len()];
    for record in room.chunks_exact(8) {
        let c = desk::read_command(record)?;
        let after = match c.kind {
            0 => continue,
            1 | 2 => t[RL] + t[B],
            5 => t[RFC],
            _ => 0,
        };
        finishes[usize::from(c.transaction)] = c.cycle + after;
    }
    Ok((told, room, finishes))
}
