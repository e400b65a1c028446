//! Prints where each field of the structs in `raw.rs` lies, as `layout.c` does for the header's.

use skvorzhan::raw::*;
use std::mem::{align_of, size_of, MaybeUninit};
use std::ptr::addr_of;

fn size_of_field<T>(_: *const T) -> usize {
    size_of::<T>()
}

macro_rules! layout {
    ($name:literal, $type:ty, $($field:ident),+) => {{
        let place = MaybeUninit::<$type>::uninit();
        let base = place.as_ptr();
        $(
            // Only addresses are taken: nothing is read.
            let field = unsafe { addr_of!((*base).$field) };
            let at = field as usize - base as usize;
            println!("{}.{} at {at}, {} bytes", $name, stringify!($field), size_of_field(field));
        )+
        println!("{} {} bytes, aligned to {}", $name, size_of::<$type>(), align_of::<$type>());
    }};
}

#[rustfmt::skip]
fn main() {
    layout!("skv_answer", Answer, refused, position, edition, count, cycles);
    layout!("skv_verdict_answer", VerdictAnswer, refused, position, edition, rule, copy, record);
    layout!("skv_capture_answer", CaptureAnswer, refused, position, edition, count, rule, record);
    layout!("skv_serves_answer", ServesAnswer, refused, position, edition, serves, rule, record, transaction);
    layout!("skv_pattern_answer", PatternAnswer, refused, position, edition, length, count);
    layout!("skv_table_answer", TableAnswer, refused, position, edition, numbers);
    layout!("skv_transaction_answer", TransactionAnswer, refused, position, edition, kind, start, bi, bc, arrival);
    layout!("skv_command_answer", CommandAnswer, refused, position, edition, cycle, kind, bank, number);
    layout!("skv_capture_record_answer", CaptureRecordAnswer, refused, position, edition, stamp, kind, bank);
    layout!("skv_numbers", Numbers, numbers);
    layout!("skv_group_numbers", GroupNumbers, numbers);
    layout!("skv_transaction", Transaction, kind, start, bi, bc, arrival);
    layout!("skv_bank", HostBank, opened, act, rd, wr);
    layout!("skv_group", HostGroup, act, rd, wr);
    layout!("skv_controller", Controller, edition, cycle, acts, datas, banks, last, groups, refresh, lent);
    layout!("skv_controller_answer", ControllerAnswer, controller, answer);
}
