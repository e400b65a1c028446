//! The calls of the two engines side by side: each of the second's has the parameters and the answer of the plain one's.

use super::*;

#[rustfmt::skip]
mod types {
    use super::*;

    /// Of a list whose entries are `T`: transactions, or bytes.
    pub type Schedule<T> = unsafe extern "C" fn(u16, *const u8, usize, *const T, usize, *mut u8, usize, *mut u32, usize) -> Answer;
    pub type Run = unsafe extern "C" fn(*mut Controller, u16, *const u8, usize, *const Transaction, usize, u32, *mut u8, usize) -> Answer;
    pub type Step = unsafe extern "C" fn(*mut Controller, u16, *const u8, usize, *const Transaction, usize, *mut u8, usize) -> Answer;
    pub type RunBytes = unsafe extern "C" fn(Controller, u16, *const u8, usize, *const u8, usize, u32, *mut u8, usize) -> ControllerAnswer;
}

pub use types::*;

pub struct Engine {
    pub schedule: Schedule<Transaction>,
    pub schedule_bytes: Schedule<u8>,
    pub schedule_later_bytes: Schedule<u8>,
    pub run: Run,
    pub step: Step,
    pub run_bytes: RunBytes,
    pub run_later_bytes: RunBytes,
}

/// Tries each cycle.
pub static PLAIN: Engine = Engine {
    schedule: skv_schedule,
    schedule_bytes: skv_schedule_bytes,
    schedule_later_bytes: skv_schedule_later_bytes,
    run: skv_run,
    step: skv_step,
    run_bytes: skv_run_bytes,
    run_later_bytes: skv_run_later_bytes,
};

/// Goes straight to the next cycle at which a command leaves.
pub static STRAIGHT: Engine = Engine {
    schedule: skv_schedule_straight,
    schedule_bytes: skv_schedule_straight_bytes,
    schedule_later_bytes: skv_schedule_straight_later_bytes,
    run: skv_run_straight,
    step: skv_step_straight,
    run_bytes: skv_run_straight_bytes,
    run_later_bytes: skv_run_straight_later_bytes,
};
