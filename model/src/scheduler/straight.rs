//! "A second engine that goes straight to the next cycle at which a command leaves."
//!
//! It works out no cycle: it asks the rules themselves. While nothing goes, a command that breaks no rule at a cycle breaks none at any later
//! one, and a transaction that is seen stays seen; so the cycles at which nothing goes come before all others, and where they end is found by
//! halving.

/// The plain one tries each cycle.
#[derive(Debug, Clone, Copy, PartialEq, Eq)]
pub enum Engine {
    Plain,
    Straight,
}

impl Engine {
    /// The cycle to be tried next, from this one on: this one itself, or the first before the end at which a command goes, else the end.
    pub fn next(self, cycle: u32, end: u32, goes: impl Fn(u32) -> bool) -> u32 {
        match self {
            Engine::Plain => cycle,
            Engine::Straight => first(cycle, end, goes),
        }
    }
}

fn first(mut from: u32, mut to: u32, goes: impl Fn(u32) -> bool) -> u32 {
    while from < to {
        let middle = from + (to - from) / 2;
        if goes(middle) {
            to = middle;
        } else {
            from = middle + 1;
        }
    }
    from
}
