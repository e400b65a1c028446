//! Also used by `tests/tool`.

/// Numbers that look random, the same each time.
pub struct Random(pub u64);

impl Random {
    pub fn next(&mut self) -> u64 {
        self.0 ^= self.0 << 13;
        self.0 ^= self.0 >> 7;
        self.0 ^= self.0 << 17;
        self.0
    }

    pub fn below(&mut self, most: u64) -> u64 {
        self.next() % most
    }

    pub fn bytes(&mut self, count: usize) -> Vec<u8> {
        (0..count).map(|_| self.next() as u8).collect()
    }

    pub fn one<'a, T: ?Sized>(&mut self, all: &[&'a T]) -> &'a T {
        all[self.below(all.len() as u64) as usize]
    }
}

/// What hostile text is put together from.
pub fn pieces() -> Vec<&'static str> {
    let plain = "0 1 7 9 10 24 38 255 256 65535 65536 4294967295 4294967296 99999999999999999999 00 - + -1 +1 0x1 ACT RD RDA WR WRA wra REF act TICK \
                 read write refresh at edition commands length finish accepted record breaks rule = RCD RFC banks # \" \"\" , ; long CCD";
    let odd = [
        "",
        "\t",
        "\r",
        "\u{0}",
        "\u{a0}",
        "\u{2028}",
        "\u{1f980}",
        "\u{feff}",
        "\u{301}",
    ];
    plain.split(' ').chain(odd).collect()
}
