//! Says which case touched memory that it may not.

use std::os::raw::{c_int, c_void};
use std::sync::atomic::{AtomicBool, AtomicPtr, AtomicU64, AtomicUsize, Ordering::Relaxed};

use crate::case::Case;

extern "C" {
    fn signal(number: c_int, handler: usize) -> usize;
    fn write(fd: c_int, bytes: *const c_void, n: usize) -> isize;
    fn _exit(status: c_int) -> !;
}

const BUS: c_int = 7;
const SEGMENT: c_int = 11;

/// In place of an index: one that isn't drawn, of those that come last.
pub const LAST: u64 = u64::MAX;
/// One with a list of which no entry may be touched.
pub const LONG: u64 = u64::MAX - 1;
/// The one that was asked for.
pub const AGAIN: u64 = u64::MAX - 2;

static SEED: AtomicU64 = AtomicU64::new(0);
static INDEX: AtomicU64 = AtomicU64::new(LAST);
/// Whether that is one of those that are drawn for the two engines alone.
static ENGINES: AtomicBool = AtomicBool::new(false);
/// The call's name.
static NAME: AtomicPtr<u8> = AtomicPtr::new(std::ptr::null_mut());
static LENGTH: AtomicUsize = AtomicUsize::new(0);
static NUMBER: AtomicUsize = AtomicUsize::new(0);

/// In place of the number by which a call must be refused: not known yet.
pub const UNKNOWN: usize = usize::MAX;

/// From now on a touch of a page that traps ends the program with status 1 and the words to run the case again.
pub fn set(seed: u64) {
    SEED.store(seed, Relaxed);
    unsafe {
        for number in [BUS, SEGMENT] {
            signal(number, trapped as extern "C" fn(c_int) as usize);
        }
    }
}

/// The case at hand.
pub fn at(index: u64) {
    INDEX.store(index, Relaxed);
}

/// From now on the cases are drawn for the two engines alone.
pub fn of_engines() {
    ENGINES.store(true, Relaxed);
}

/// Its call, and the number that it must be refused by.
pub fn in_call(case: &Case, number: usize) {
    let name = case.name();
    NAME.store(name.as_ptr() as *mut u8, Relaxed);
    LENGTH.store(name.len(), Relaxed);
    NUMBER.store(number, Relaxed);
}

fn say(text: &[u8]) {
    unsafe {
        write(1, text.as_ptr() as *const c_void, text.len());
    }
}

/// A number's digits with no memory asked for.
fn say_number(mut n: u64) {
    let mut digits = [0; 20];
    let mut at = digits.len();
    loop {
        at -= 1;
        digits[at] = b'0' + (n % 10) as u8;
        n /= 10;
        if n == 0 {
            break;
        }
    }
    say(&digits[at..]);
}

extern "C" fn trapped(_: c_int) {
    let name = NAME.load(Relaxed);
    if !name.is_null() {
        say(unsafe { std::slice::from_raw_parts(name, LENGTH.load(Relaxed)) });
    }
    match NUMBER.load(Relaxed) {
        0 => say(b", not refused,"),
        UNKNOWN => (),
        number => {
            say(b", which is refused by number ");
            say_number(number as u64);
            say(b" and may write to nothing,");
        }
    }
    say(b" touched memory that it may not; ");
    match INDEX.load(Relaxed) {
        LAST => say(b"the case is one of those that come last\n"),
        AGAIN => say(b"the case is the one asked for\n"),
        LONG => say(b"its list is a long one of which no entry may be read\n"),
        index => {
            say(b"again: differ ");
            if ENGINES.load(Relaxed) {
                say(b"engines ");
            }
            say(b"1 --seed ");
            say_number(SEED.load(Relaxed));
            say(b" --from ");
            say_number(index);
            say(b"\n");
        }
    }
    unsafe { _exit(1) }
}
