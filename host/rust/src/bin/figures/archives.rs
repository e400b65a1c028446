//! The archives that are measured: the one at hand, and where SKVORZHAN_BEFORE names one from before a change, that too, in the same program:
//! `build.rs` gives its calls names of their own.
//!
//! One from before the controller told the groups has a controller of 300 bytes, which ends in the last RD, WR and REF of all. Where a controller
//! is fresh those are "never", as is all that the present one has from there on but for how many were lent: so the older call is lent the present
//! one's memory, and finds in its first 300 bytes what it would have started from. One from before arrivals has transactions of 4 bytes, and is lent
//! such.

// `build.rs` says `before`; an older compiler doesn't know the lint.
#![allow(unknown_lints, unexpected_cfgs)]

use skvorzhan::raw::engines::{Schedule, Step};
use skvorzhan::raw::{self, Transaction, VerdictAnswer};
use skvorzhan::Controller;

type Judge = unsafe extern "C" fn(u16, *const u8, usize, *const u8, usize) -> VerdictAnswer;

/// A list as it is lent: of decoded transactions as they are, and as they were before arrivals.
pub struct List {
    eight: Vec<Transaction>,
    pub four: Vec<[u8; 4]>,
}

impl List {
    pub fn of(list: &[Transaction]) -> List {
        List {
            eight: list.to_vec(),
            four: list.iter().map(|x| [x.kind, x.start, x.bi, x.bc]).collect(),
        }
    }
}

#[derive(Clone, Copy)]
pub struct Archive {
    /// What is put behind the name of each figure.
    pub name: &'static str,
    /// Whether its transactions have an arrival.
    arrivals: bool,
    schedule: Schedule<Transaction>,
    schedule_bytes: Schedule<u8>,
    step: Step,
    judge: Judge,
}

const NOW: Archive = Archive {
    name: "proved",
    arrivals: true,
    schedule: raw::skv_schedule,
    schedule_bytes: raw::skv_schedule_bytes,
    step: raw::skv_step,
    judge: raw::skv_judge,
};

#[cfg(before)]
#[rustfmt::skip]
mod before {
    use super::*;
    use skvorzhan::raw::Answer;

    extern "C" {
        fn before_skv_schedule(e: u16, t: *const u8, tn: usize, list: *const Transaction, n: usize, room: *mut u8, rn: usize, f: *mut u32, fnn: usize) -> Answer;
        fn before_skv_schedule_bytes(e: u16, t: *const u8, tn: usize, list: *const u8, n: usize, room: *mut u8, rn: usize, f: *mut u32, fnn: usize) -> Answer;
        fn before_skv_step(c: *mut Controller, e: u16, t: *const u8, tn: usize, list: *const Transaction, n: usize, room: *mut u8, rn: usize) -> Answer;
        fn before_skv_judge(e: u16, t: *const u8, tn: usize, bytes: *const u8, n: usize) -> VerdictAnswer;
    }

    pub const BEFORE: Archive = Archive {
        name: "proved, before",
        arrivals: cfg!(before_has_arrivals),
        schedule: before_skv_schedule,
        schedule_bytes: before_skv_schedule_bytes,
        step: before_skv_step,
        judge: before_skv_judge,
    };
}

/// The second engine of the one at hand.
pub const SECOND: Archive = Archive {
    name: "proved, second engine",
    schedule: raw::skv_schedule_straight,
    schedule_bytes: raw::skv_schedule_straight_bytes,
    step: raw::skv_step_straight,
    ..NOW
};

/// The one at hand alone.
pub fn present() -> Vec<Archive> {
    vec![NOW]
}

/// The one at hand first.
pub fn all() -> Vec<Archive> {
    #[cfg(before)]
    return vec![NOW, before::BEFORE];
    #[cfg(not(before))]
    vec![NOW]
}

/// Whether nothing was refused, of a list of either kind: where it starts, and how many entries it has.
fn scheduled<T>(
    call: Schedule<T>,
    expected: u16,
    table: &[u8],
    (list, n): (*const T, usize),
    room: &mut [u8],
    finishes: &mut [u32],
) -> bool {
    let (t, r, f) = (table, room, finishes);
    let told = unsafe {
        let (room, finishes) = (r.as_mut_ptr(), f.as_mut_ptr());
        call(
            expected,
            t.as_ptr(),
            t.len(),
            list,
            n,
            room,
            r.len(),
            finishes,
            f.len(),
        )
    };
    told.refused == 0
}

/// Whether nothing was refused; for a verdict, whether it accepts.
impl Archive {
    fn lent(&self, list: &List) -> (*const Transaction, usize) {
        let at = match self.arrivals {
            true => list.eight.as_ptr(),
            false => list.four.as_ptr() as *const Transaction,
        };
        (at, list.four.len())
    }

    pub fn schedule(
        &self,
        expected: u16,
        table: &[u8],
        list: &List,
        room: &mut [u8],
        finishes: &mut [u32],
    ) -> bool {
        let list = self.lent(list);
        scheduled(self.schedule, expected, table, list, room, finishes)
    }

    pub fn schedule_bytes(
        &self,
        expected: u16,
        table: &[u8],
        list: &[u8],
        room: &mut [u8],
        finishes: &mut [u32],
    ) -> bool {
        let list = (list.as_ptr(), list.len());
        scheduled(self.schedule_bytes, expected, table, list, room, finishes)
    }

    /// How many commands went.
    pub fn step(
        &self,
        c: &mut Controller,
        expected: u16,
        table: &[u8],
        list: &List,
        room: &mut [u8],
    ) -> usize {
        let (t, r) = (table, room);
        let (list, n) = self.lent(list);
        let told = unsafe {
            let room = r.as_mut_ptr();
            (self.step)(c, expected, t.as_ptr(), t.len(), list, n, room, r.len())
        };
        assert_eq!(told.refused, 0);
        told.count as usize
    }

    pub fn judge(&self, expected: u16, table: &[u8], schedule: &[u8]) -> bool {
        let (t, x) = (table, schedule);
        let told = unsafe { (self.judge)(expected, t.as_ptr(), t.len(), x.as_ptr(), x.len()) };
        told.refused == 0 && told.rule == 0
    }
}
