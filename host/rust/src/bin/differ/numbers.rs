//! Random numbers (splitmix64), and the noise that lent buffers are filled with.

#[derive(Clone)]
pub struct Random(u64);

impl Random {
    /// Case `index` of a seed, the same wherever the run starts.
    pub fn of(seed: u64, index: u64) -> Random {
        let mut first = Random(seed);
        Random(
            first
                .any()
                .wrapping_add(index.wrapping_mul(0xd129_0b26_84a7_33b5)),
        )
    }

    pub fn any(&mut self) -> u64 {
        self.0 = self.0.wrapping_add(0x9e37_79b9_7f4a_7c15);
        let mut z = self.0;
        z = (z ^ (z >> 30)).wrapping_mul(0xbf58_476d_1ce4_e5b9);
        z = (z ^ (z >> 27)).wrapping_mul(0x94d0_49bb_1331_11eb);
        z ^ (z >> 31)
    }

    pub fn u32(&mut self) -> u32 {
        (self.any() >> 32) as u32
    }

    pub fn u8(&mut self) -> u8 {
        (self.any() >> 56) as u8
    }

    pub fn below(&mut self, n: usize) -> usize {
        ((u64::from(self.u32()) * n as u64) >> 32) as usize
    }

    /// Both ends included.
    pub fn range(&mut self, least: u32, most: u32) -> u32 {
        let span = u64::from(most - least) + 1;
        least + ((u64::from(self.u32()) * span) >> 32) as u32
    }

    pub fn one_in(&mut self, n: usize) -> bool {
        self.below(n) == 0
    }

    pub fn of_these<T: Copy>(&mut self, choices: &[T]) -> T {
        choices[self.below(choices.len())]
    }

    /// A 32-bit number that is small, at an edge, or anything.
    pub fn edge(&mut self) -> u32 {
        match self.below(6) {
            0 => 0,
            1 => 1,
            2 => self.range(2, 300),
            3 => u32::MAX - self.range(0, 2),
            4 => 100_000_000 - 2 + self.range(0, 4),
            _ => self.u32() >> self.below(32),
        }
    }
}

/// The start of a filling may be any number below this.
const FILLINGS: usize = 1 << 16;

/// Bytes of noise on each side of what is lent.
pub const GUARD: usize = 64;

/// What each byte of a lent buffer, and of the guards beside it, is before the call.
pub struct Noise(Vec<u8>);

impl Noise {
    pub fn new(longest: usize) -> Noise {
        let mut numbers = Random(0x5eed);
        let all = FILLINGS + longest + 2 * GUARD;
        Noise((0..all).map(|_| numbers.u8()).collect())
    }

    /// Of a buffer of that size.
    pub fn lent(&self, filling: u16, len: usize) -> &[u8] {
        &self.0[usize::from(filling) + GUARD..][..len]
    }

    /// The same with so many bytes of its guards, left and right.
    pub fn around(&self, filling: u16, len: usize, left: usize, right: usize) -> &[u8] {
        &self.0[usize::from(filling) + GUARD - left..][..left + len + right]
    }
}
