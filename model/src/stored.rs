//! The inputs that are stored for the programs: cases, one behind the other.

/// What is left of an input.
pub struct Bytes<'a>(&'a [u8]);

impl<'a> Bytes<'a> {
    /// Nothing where fewer are left, as for each number.
    pub fn take(&mut self, n: usize) -> Option<&'a [u8]> {
        let taken = self.0.get(..n)?;
        self.0 = &self.0[n..];
        Some(taken)
    }

    fn array<const N: usize>(&mut self) -> Option<[u8; N]> {
        self.take(N)?.try_into().ok()
    }

    pub fn u8(&mut self) -> Option<u8> {
        self.array().map(u8::from_le_bytes)
    }

    pub fn u16(&mut self) -> Option<u16> {
        self.array().map(u16::from_le_bytes)
    }

    pub fn u32(&mut self) -> Option<u32> {
        self.array().map(u32::from_le_bytes)
    }
}

/// How many bytes these are, as a case tells it.
pub fn size_of(bytes: &[u8]) -> [u8; 2] {
    let n: u16 = bytes.len().try_into().expect("a case has 16-bit sizes");
    n.to_le_bytes()
}

/// The cases of an input, each read by `first`, and what is left from where that reads none: a case that is cut short, or nothing.
pub fn read<'a, C>(input: &'a [u8], first: fn(&mut Bytes<'a>) -> Option<C>) -> (Vec<C>, &'a [u8]) {
    let mut cases = Vec::new();
    let mut rest = Bytes(input);
    loop {
        let left = rest.0;
        match first(&mut rest) {
            Some(case) => cases.push(case),
            None => return (cases, left),
        }
    }
}

/// The text of each, and `case` at the end for what is left.
pub fn lines<'a, C>(
    input: &'a [u8],
    first: fn(&mut Bytes<'a>) -> Option<C>,
    text: fn(&C) -> String,
) -> String {
    let (cases, left) = read(input, first);
    let mut out: String = cases.iter().map(text).collect();
    if !left.is_empty() {
        out.push_str("case\n");
    }
    out
}
