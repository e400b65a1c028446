//! A controller that is run a few cycles at a time, by either engine.

use crate::raw::*;
use crate::Refusal;

/// Refused with 1, 2 and 10. A fresh controller.
pub fn start(expected: u16, table: &[u8]) -> Result<Controller, Refusal> {
    let a = call!(skv_start(expected, &table));
    a.answer.told(a.controller)
}

#[derive(Debug, Clone, Copy, PartialEq, Eq)]
pub struct Ran {
    pub edition: u32,
    pub commands: u32,
    pub cycles: u32,
}

fn ran(a: Answer) -> Result<Ran, Refusal> {
    a.told(Ran {
        edition: a.edition,
        commands: a.count,
        cycles: a.cycles,
    })
}

/// A call for each engine on the controller where it lies, of a count that is handed in, or of one cycle.
macro_rules! run {
    ($($(#[$said:meta])* $name:ident($($count:ident)?): $call:ident;)*) => {$(
        $(#[$said])*
        pub fn $name(
            c: &mut Controller,
            expected: u16,
            table: &[u8],
            list: &[Transaction],
            $($count: u32,)?
            room: &mut [u8],
        ) -> Result<Ran, Refusal> {
            ran(call!($call(c, expected, &table, &list, $($count,)? &mut room)))
        }
    )*};
}

run! {
    /// Refused with 1, 2, 10, 3 to 5, 9 and 12. Each run is lent the whole list so far.
    run(count): skv_run;
    /// One cycle.
    step(): skv_step;
    /// As `run`, by the second engine.
    run_straight(count): skv_run_straight;
    /// As `step`, by the second engine.
    step_straight(): skv_step_straight;
}

/// A call for each engine and each size of the records, with the controller handed in and back.
macro_rules! run_bytes {
    ($($(#[$said:meta])* $name:ident: $call:ident;)*) => {$(
        $(#[$said])*
        pub fn $name(
            c: Controller,
            expected: u16,
            table: &[u8],
            list: &[u8],
            count: u32,
            room: &mut [u8],
        ) -> (Controller, Result<Ran, Refusal>) {
            let a = call!($call(c, expected, &table, &list, count, &mut room));
            (a.controller, ran(a.answer))
        }
    )*};
}

run_bytes! {
    /// As `run`, from the transactions' bytes, with the controller handed in and back.
    run_bytes: skv_run_bytes;
    /// The same from records of 8 bytes.
    run_later_bytes: skv_run_later_bytes;
    /// As `run_bytes`, by the second engine.
    run_straight_bytes: skv_run_straight_bytes;
    /// As `run_later_bytes`, by the second engine.
    run_straight_later_bytes: skv_run_straight_later_bytes;
}
