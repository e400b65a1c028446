//! The calls that start a controller and go on with it, by either engine as those that build a schedule.

use super::admit::{admit, write_commands, Handed};
use crate::records::{Refusal, Transaction, EDITION};
use crate::scheduler::{self, Engine, State as Controller};

/// Numbers 1, 2 and 10. Answers the edition, and hands over a fresh controller: of edition 0 when it refuses.
pub fn start(expected: u16, table: &[u8]) -> (Result<u16, Refusal>, Controller) {
    match admit(expected, table) {
        Ok(table) => (Ok(table[EDITION]), Controller::fresh(&table)),
        Err(refusal) => (Err(refusal), Controller::fresh(&[0])),
    }
}

/// What `run` answers: how many commands were written, and "the number of steps the cycle rule took".
#[derive(Debug, Clone, Copy, PartialEq, Eq)]
pub struct Ran {
    pub edition: u16,
    pub commands: u32,
    pub cycles: u32,
}

fn ran(
    engine: Engine,
    controller: &mut Controller,
    expected: u16,
    table: &[u8],
    list: Handed,
    count: u32,
    room: &mut [u8],
) -> Result<Ran, Refusal> {
    let table = admit(expected, table)?;
    let list = list.list(&table)?;
    let run = scheduler::run(engine, controller, &table, &list, count, room.len())?;
    write_commands(&run.commands, room);
    *controller = run.state;
    Ok(Ran {
        edition: table[EDITION],
        commands: run.commands.len() as u32,
        cycles: run.cycles,
    })
}

/// A call for each engine and each form of the list, of a count of cycles that is handed in or stands here.
macro_rules! run {
    ($($(#[$said:meta])* $name:ident: $engine:ident, $form:ident($list:ty), ($($count:ident)?) $cycles:expr;)*) => {$(
        $(#[$said])*
        pub fn $name(
            controller: &mut Controller,
            expected: u16,
            table: &[u8],
            list: $list,
            $($count: u32,)?
            room: &mut [u8],
        ) -> Result<Ran, Refusal> {
            let list = Handed::$form(list);
            ran(Engine::$engine, controller, expected, table, list, $cycles, room)
        }
    )*};
}

run! {
    /// Numbers 1, 2, 10, 3, 4, 5, 9 and 12. "The host lends its running controller and has it stepped where it lies"; "each run is lent the
    /// whole list so far".
    run: Plain, List(&[Transaction]), (count) count;
    /// The same from the transactions' bytes.
    run_bytes: Plain, Four(&[u8]), (count) count;
    /// The same from records of 8 bytes.
    run_later_bytes: Plain, Eight(&[u8]), (count) count;
    /// One cycle.
    step: Plain, List(&[Transaction]), () 1;
    /// The same from the transactions' bytes.
    step_bytes: Plain, Four(&[u8]), () 1;
    run_straight: Straight, List(&[Transaction]), (count) count;
    run_straight_bytes: Straight, Four(&[u8]), (count) count;
    run_straight_later_bytes: Straight, Eight(&[u8]), (count) count;
    step_straight: Straight, List(&[Transaction]), () 1;
}
