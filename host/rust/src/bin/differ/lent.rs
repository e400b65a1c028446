//! Memory to lend: between two pages that may not be touched, with noise beside what is lent.

use std::os::raw::{c_int, c_void};
use std::ptr::null_mut;

use crate::numbers::{Noise, GUARD};

extern "C" {
    fn mmap(
        at: *mut c_void,
        n: usize,
        may: c_int,
        flags: c_int,
        fd: c_int,
        from: i64,
    ) -> *mut c_void;
    fn mprotect(at: *mut c_void, n: usize, may: c_int) -> c_int;
}

const NOTHING: c_int = 0;
const READ: c_int = 1;
const READ_AND_WRITE: c_int = 3;
const PRIVATE_AND_ANONYMOUS: c_int = 0x22;
const NOT_RESERVED: c_int = 0x4000;
const PAGE: usize = 4096;

/// So many bytes that trap wherever they are touched.
pub fn untouchable(len: usize) -> *const u8 {
    let flags = PRIVATE_AND_ANONYMOUS | NOT_RESERVED;
    let at = unsafe { mmap(null_mut(), len, NOTHING, flags, -1, 0) };
    assert!(at as isize != -1, "no memory");
    at as *const u8
}

/// So many bytes that may be touched, or only read; the page before and the page after trap.
pub struct Region {
    first: *mut u8,
    size: usize,
    start: usize,
    len: usize,
    filling: u16,
    may: c_int,
}

impl Region {
    pub fn new(longest: usize) -> Region {
        let size = (longest + 2 * GUARD + PAGE - 1) / PAGE * PAGE;
        let all = size + 2 * PAGE;
        let first = unsafe {
            let at = mmap(null_mut(), all, NOTHING, PRIVATE_AND_ANONYMOUS, -1, 0);
            assert!(at as isize != -1, "no memory");
            let first = (at as *mut u8).add(PAGE);
            assert_eq!(mprotect(first as *mut c_void, size, READ_AND_WRITE), 0);
            first
        };
        Region {
            first,
            size,
            start: 0,
            len: 0,
            filling: 0,
            may: READ_AND_WRITE,
        }
    }

    /// From now on a write to it traps, until it is filled again.
    pub fn only_reads(&mut self) {
        self.allow(READ);
    }

    fn allow(&mut self, may: c_int) {
        if self.may != may {
            assert_eq!(
                unsafe { mprotect(self.first as *mut c_void, self.size, may) },
                0
            );
            self.may = may;
        }
    }

    fn part(&self, from: usize, len: usize) -> &[u8] {
        assert!(from + len <= self.size);
        unsafe { std::slice::from_raw_parts(self.first.add(from), len) }
    }

    fn part_mut(&mut self, from: usize, len: usize) -> &mut [u8] {
        assert!(from + len <= self.size);
        unsafe { std::slice::from_raw_parts_mut(self.first.add(from), len) }
    }

    /// How many bytes of noise there are on each side: none where the page ends.
    fn guards(&self) -> (usize, usize) {
        let left = self.start.min(GUARD);
        let right = (self.size - self.start - self.len).min(GUARD);
        (left, right)
    }

    /// So many bytes of noise, with noise beside them. `lies` is as in a case.
    pub fn fill(&mut self, len: usize, lies: u8, noise: &Noise, filling: u16) -> *mut u8 {
        assert!(len + 2 * GUARD <= self.size);
        self.allow(READ_AND_WRITE);
        self.start = match lies {
            0 => self.size - len,
            1 => 0,
            _ => GUARD,
        };
        self.len = len;
        self.filling = filling;
        let (left, right) = self.guards();
        let from = self.start - left;
        let whole = left + len + right;
        self.part_mut(from, whole)
            .copy_from_slice(noise.around(filling, len, left, right));
        unsafe { self.first.add(self.start) }
    }

    /// The same with these bytes in place of the noise.
    pub fn hold(&mut self, bytes: &[u8], lies: u8, noise: &Noise, filling: u16) -> *mut u8 {
        let at = self.fill(bytes.len(), lies, noise, filling);
        let start = self.start;
        self.part_mut(start, bytes.len()).copy_from_slice(bytes);
        at
    }

    /// What was lent, as it is now.
    pub fn now(&self) -> &[u8] {
        self.part(self.start, self.len)
    }

    /// Whether the noise beside it is as it was.
    pub fn beside_is_kept(&self, noise: &Noise) -> bool {
        let (left, right) = self.guards();
        let was = noise.around(self.filling, self.len, left, right);
        self.part(self.start - left, left) == &was[..left]
            && self.part(self.start + self.len, right) == &was[left + self.len..]
    }
}
