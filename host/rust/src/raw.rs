//! The archive's calls and structs, as `skvorzhan.h` and `skvorzhan_straight.h` declare them. Nothing checks one against the other but the tests.
//!
//! A slice crosses as a pointer and a number of elements. The pointer is never null, even where the number is 0, which holds of every
//! Rust slice; what is lent for writing overlaps nothing else that is lent.

pub mod engines;

#[repr(C)]
#[derive(Debug, Clone, Copy, PartialEq, Eq)]
pub struct Answer {
    pub refused: u32,
    pub position: u32,
    pub edition: u32,
    pub count: u32,
    pub cycles: u32,
}

#[repr(C)]
#[derive(Debug, Clone, Copy, PartialEq, Eq)]
pub struct VerdictAnswer {
    pub refused: u32,
    pub position: u32,
    pub edition: u32,
    pub rule: u32,
    pub copy: u32,
    pub record: u32,
}

#[repr(C)]
#[derive(Debug, Clone, Copy, PartialEq, Eq)]
pub struct CaptureAnswer {
    pub refused: u32,
    pub position: u32,
    pub edition: u32,
    pub count: u32,
    pub rule: u32,
    pub record: u32,
}

#[repr(C)]
#[derive(Debug, Clone, Copy, PartialEq, Eq)]
pub struct ServesAnswer {
    pub refused: u32,
    pub position: u32,
    pub edition: u32,
    pub serves: u32,
    pub rule: u32,
    pub record: u32,
    pub transaction: u32,
}

#[repr(C)]
#[derive(Debug, Clone, Copy, PartialEq, Eq)]
pub struct PatternAnswer {
    pub refused: u32,
    pub position: u32,
    pub edition: u32,
    pub length: u32,
    pub count: u32,
}

#[repr(C)]
#[derive(Debug, Clone, Copy, PartialEq, Eq)]
pub struct TableAnswer {
    pub refused: u32,
    pub position: u32,
    pub edition: u32,
    pub numbers: [u16; 20],
}

#[repr(C)]
#[derive(Debug, Clone, Copy, PartialEq, Eq)]
pub struct TransactionAnswer {
    pub refused: u32,
    pub position: u32,
    pub edition: u32,
    pub kind: u8,
    pub start: u8,
    pub bi: u8,
    pub bc: u8,
    pub arrival: u32,
}

#[repr(C)]
#[derive(Debug, Clone, Copy, PartialEq, Eq)]
pub struct CommandAnswer {
    pub refused: u32,
    pub position: u32,
    pub edition: u32,
    pub cycle: u32,
    pub kind: u8,
    pub bank: u8,
    pub number: u16,
}

#[repr(C)]
#[derive(Debug, Clone, Copy, PartialEq, Eq)]
pub struct CaptureRecordAnswer {
    pub refused: u32,
    pub position: u32,
    pub edition: u32,
    pub stamp: u16,
    pub kind: u8,
    pub bank: u8,
}

#[repr(C)]
#[derive(Debug, Clone, Copy, PartialEq, Eq)]
pub struct Numbers {
    pub numbers: [u16; 16],
}

#[repr(C)]
#[derive(Debug, Clone, Copy, PartialEq, Eq)]
pub struct GroupNumbers {
    pub numbers: [u16; 20],
}

#[repr(C)]
#[derive(Debug, Clone, Copy, PartialEq, Eq)]
pub struct HostBank {
    /// Open unless 0.
    pub opened: u32,
    pub act: u32,
    /// Since that ACT.
    pub rd: u32,
    pub wr: u32,
}

/// The latest of its banks.
#[repr(C)]
#[derive(Debug, Clone, Copy, PartialEq, Eq)]
pub struct HostGroup {
    pub act: u32,
    pub rd: u32,
    pub wr: u32,
}

#[repr(C)]
#[derive(Debug, Clone, Copy, PartialEq, Eq)]
pub struct Controller {
    pub edition: u32,
    /// The next to be tried.
    pub cycle: u32,
    /// How many commands have left each queue; a REF leaves the ACT queue.
    pub acts: u32,
    pub datas: u32,
    pub banks: [HostBank; 16],
    /// Newest first.
    pub last: [u32; 4],
    pub groups: [HostGroup; 8],
    /// The last REF.
    pub refresh: u32,
    /// How many transactions it was lent before.
    pub lent: u32,
}

#[repr(C)]
#[derive(Debug, Clone, Copy, PartialEq, Eq)]
pub struct Transaction {
    /// 0 read, 1 write, 2 refresh; of a refresh `start`, `bi` and `bc` are 0.
    pub kind: u8,
    /// The first bank.
    pub start: u8,
    /// How many, with bank 0 after the table's last.
    pub bi: u8,
    /// Data commands to each.
    pub bc: u8,
    /// The first cycle at which a queue sees it: 0 for one of 4 bytes.
    pub arrival: u32,
}

/// What `skv_start`, `skv_run_bytes` and `skv_run_later_bytes` hand back, and the last two's of the second engine.
#[repr(C)]
#[derive(Debug, Clone, Copy, PartialEq, Eq)]
pub struct ControllerAnswer {
    pub controller: Controller,
    pub answer: Answer,
}

#[rustfmt::skip]
extern "C" {
    pub fn skv_read_table(bytes: *const u8, bytes_len: usize) -> TableAnswer;
    pub fn skv_write_table(numbers: Numbers, out: *mut u8, out_len: usize) -> Answer;
    pub fn skv_write_group_table(numbers: GroupNumbers, out: *mut u8, out_len: usize) -> Answer;
    pub fn skv_read_transaction(bytes: *const u8, bytes_len: usize) -> TransactionAnswer;
    pub fn skv_write_transaction(kind: u8, start: u8, bi: u8, bc: u8, out: *mut u8, out_len: usize) -> Answer;
    pub fn skv_read_later(bytes: *const u8, bytes_len: usize) -> TransactionAnswer;
    pub fn skv_write_later(kind: u8, start: u8, bi: u8, bc: u8, arrival: u32, out: *mut u8, out_len: usize) -> Answer;
    pub fn skv_read_command(bytes: *const u8, bytes_len: usize) -> CommandAnswer;
    pub fn skv_write_command(cycle: u32, kind: u8, bank: u8, number: u16, out: *mut u8, out_len: usize) -> Answer;
    pub fn skv_read_capture_record(bytes: *const u8, bytes_len: usize) -> CaptureRecordAnswer;
    pub fn skv_write_capture_record(stamp: u16, kind: u8, bank: u8, out: *mut u8, out_len: usize) -> Answer;
    pub fn skv_read_transactions(expected: u16, table: *const u8, table_len: usize, bytes: *const u8, bytes_len: usize,
        list: *mut Transaction, list_len: usize) -> Answer;
    pub fn skv_read_later_transactions(expected: u16, table: *const u8, table_len: usize, bytes: *const u8, bytes_len: usize,
        list: *mut Transaction, list_len: usize) -> Answer;
    pub fn skv_schedule(expected: u16, table: *const u8, table_len: usize, list: *const Transaction, list_len: usize,
        commands: *mut u8, commands_len: usize, finishes: *mut u32, finishes_len: usize) -> Answer;
    pub fn skv_schedule_bytes(expected: u16, table: *const u8, table_len: usize, list: *const u8, list_len: usize,
        commands: *mut u8, commands_len: usize, finishes: *mut u32, finishes_len: usize) -> Answer;
    pub fn skv_schedule_later_bytes(expected: u16, table: *const u8, table_len: usize, list: *const u8, list_len: usize,
        commands: *mut u8, commands_len: usize, finishes: *mut u32, finishes_len: usize) -> Answer;
    pub fn skv_judge(expected: u16, table: *const u8, table_len: usize, schedule: *const u8, schedule_len: usize) -> VerdictAnswer;
    pub fn skv_judge_pattern(expected: u16, table: *const u8, table_len: usize, pattern: *const u8, pattern_len: usize,
        length: u32) -> VerdictAnswer;
    pub fn skv_judge_capture(expected: u16, table: *const u8, table_len: usize, capture: *const u8, capture_len: usize,
        commands: *mut u8, commands_len: usize) -> CaptureAnswer;
    pub fn skv_serves(expected: u16, table: *const u8, table_len: usize, list: *const Transaction, list_len: usize,
        schedule: *const u8, schedule_len: usize) -> ServesAnswer;
    pub fn skv_serves_bytes(expected: u16, table: *const u8, table_len: usize, list: *const u8, list_len: usize,
        schedule: *const u8, schedule_len: usize) -> ServesAnswer;
    pub fn skv_serves_later_bytes(expected: u16, table: *const u8, table_len: usize, list: *const u8, list_len: usize,
        schedule: *const u8, schedule_len: usize) -> ServesAnswer;
    pub fn skv_shortest_pattern(expected: u16, table: *const u8, table_len: usize, kind: u8, bi: u8, bc: u8, most: u32,
        pattern: *mut u8, pattern_len: usize) -> PatternAnswer;
    pub fn skv_bound(expected: u16, table: *const u8, table_len: usize, bi: u8, bc: u8) -> Answer;
    pub fn skv_start(expected: u16, table: *const u8, table_len: usize) -> ControllerAnswer;
    pub fn skv_run(c: *mut Controller, expected: u16, table: *const u8, table_len: usize, list: *const Transaction, list_len: usize,
        count: u32, room: *mut u8, room_len: usize) -> Answer;
    pub fn skv_step(c: *mut Controller, expected: u16, table: *const u8, table_len: usize, list: *const Transaction, list_len: usize,
        room: *mut u8, room_len: usize) -> Answer;
    pub fn skv_run_bytes(c: Controller, expected: u16, table: *const u8, table_len: usize, list: *const u8, list_len: usize,
        count: u32, room: *mut u8, room_len: usize) -> ControllerAnswer;
    pub fn skv_run_later_bytes(c: Controller, expected: u16, table: *const u8, table_len: usize, list: *const u8, list_len: usize,
        count: u32, room: *mut u8, room_len: usize) -> ControllerAnswer;
    pub fn skv_schedule_straight(expected: u16, table: *const u8, table_len: usize, list: *const Transaction, list_len: usize,
        commands: *mut u8, commands_len: usize, finishes: *mut u32, finishes_len: usize) -> Answer;
    pub fn skv_schedule_straight_bytes(expected: u16, table: *const u8, table_len: usize, list: *const u8, list_len: usize,
        commands: *mut u8, commands_len: usize, finishes: *mut u32, finishes_len: usize) -> Answer;
    pub fn skv_schedule_straight_later_bytes(expected: u16, table: *const u8, table_len: usize, list: *const u8, list_len: usize,
        commands: *mut u8, commands_len: usize, finishes: *mut u32, finishes_len: usize) -> Answer;
    pub fn skv_run_straight(c: *mut Controller, expected: u16, table: *const u8, table_len: usize, list: *const Transaction,
        list_len: usize, count: u32, room: *mut u8, room_len: usize) -> Answer;
    pub fn skv_step_straight(c: *mut Controller, expected: u16, table: *const u8, table_len: usize, list: *const Transaction,
        list_len: usize, room: *mut u8, room_len: usize) -> Answer;
    pub fn skv_run_straight_bytes(c: Controller, expected: u16, table: *const u8, table_len: usize, list: *const u8, list_len: usize,
        count: u32, room: *mut u8, room_len: usize) -> ControllerAnswer;
    pub fn skv_run_straight_later_bytes(c: Controller, expected: u16, table: *const u8, table_len: usize, list: *const u8,
        list_len: usize, count: u32, room: *mut u8, room_len: usize) -> ControllerAnswer;
}

/// A call of the archive's, each slice handed over as a pointer and a number of elements: `&name` is lent for reading, `&mut name` for writing. The
/// borrows keep them apart, and no pointer of a slice is null; the call asks for nothing more.
macro_rules! call {
    (@ $call:ident($($done:expr,)*)) => {
        unsafe { $call($($done),*) }
    };
    (@ $call:ident($($done:expr,)*) &mut $slice:ident, $($rest:tt)*) => {
        call!(@ $call($($done,)* $slice.as_mut_ptr(), $slice.len(),) $($rest)*)
    };
    (@ $call:ident($($done:expr,)*) &$slice:ident, $($rest:tt)*) => {
        call!(@ $call($($done,)* $slice.as_ptr(), $slice.len(),) $($rest)*)
    };
    (@ $call:ident($($done:expr,)*) $plain:expr, $($rest:tt)*) => {
        call!(@ $call($($done,)* $plain,) $($rest)*)
    };
    ($call:ident($($arguments:tt)*)) => {
        call!(@ $call() $($arguments)*,)
    };
}

pub(crate) use call;
