//! Where a cycle stands. The picture's width is bounded: cycles run from left to right in strips of at most `WIDTH`, one below the other as the
//! staves of a score do, and a long stretch in which nothing starts or ends is broken out, with a gap that tells how many cycles it leaves
//! out. The scale is the widest that needs no more strips than the least scale, at which two marks of a lane just stand side by side.

/// Where a strip's first cycle stands.
pub const LEFT: f64 = 152.0;
/// Where its lanes begin: what runs on from the strip before comes in from here. The lanes' names stand left of it.
pub const EDGE: f64 = LEFT - 20.0;
/// Of the cycles of a strip.
pub const WIDTH: f64 = 1240.0;
/// A short schedule's strip is filled up to this, so that the heading has room.
const LEAST_WIDTH: f64 = 860.0;
/// The width of a gap.
pub const GAP: f64 = 30.0;
/// So much of a stretch isn't put into what is left of a strip.
const CORNER: f64 = 260.0;
const WIDEST_SCALE: f64 = 22.0;
/// An idle stretch is broken out where it is longer than both.
const IDLE_CYCLES: i64 = 64;
const IDLE_WIDTH: f64 = 150.0;

/// Cycles without a gap between them.
#[derive(Debug, Clone, Copy, PartialEq)]
pub struct Piece {
    pub from: i64,
    /// The first cycle after.
    pub until: i64,
    pub x: f64,
    /// How many cycles the gap before it leaves out, 0 for no gap.
    pub left_out: i64,
}

#[derive(Debug, Clone, PartialEq)]
pub struct Strip {
    /// Of one cycle.
    pub scale: f64,
    pub pieces: Vec<Piece>,
}

impl Strip {
    pub fn from(&self) -> i64 {
        self.pieces.first().map_or(0, |p| p.from)
    }

    pub fn until(&self) -> i64 {
        self.pieces.last().map_or(0, |p| p.until)
    }

    /// Whether a command of this cycle stands in the strip.
    pub fn holds(&self, cycle: i64) -> bool {
        let within = |p: &Piece| p.from <= cycle && cycle < p.until;
        self.pieces.iter().any(within)
    }

    fn end(&self, p: &Piece) -> f64 {
        p.x + (p.until - p.from) as f64 * self.scale
    }

    pub fn right(&self) -> f64 {
        self.pieces.last().map_or(LEFT, |p| self.end(p))
    }

    /// Never falls from one cycle to a later one. What is left out stands in the gap, what is outside at the strip's edge.
    pub fn x(&self, cycle: i64) -> f64 {
        let mut edge: Option<(i64, f64)> = None;
        for p in &self.pieces {
            if cycle < p.from {
                return match edge {
                    // In the gap, by its share of it.
                    Some((from, x)) => {
                        let share = (cycle - from) as f64 / (p.from - from) as f64;
                        x + (p.x - x) * share
                    }
                    None => (LEFT - p.from.saturating_sub(cycle) as f64 * self.scale).max(EDGE),
                };
            }
            if cycle <= p.until {
                return p.x + (cycle - p.from) as f64 * self.scale;
            }
            edge = Some((p.until, self.end(p)));
        }
        self.right()
    }

    /// Where a span stands in the strip, if any of it does.
    pub fn span(&self, from: i64, until: i64) -> Option<(f64, f64)> {
        if until <= from || until <= self.from() || from >= self.until() {
            return None;
        }
        let (x, end) = (self.x(from), self.x(until));
        (end > x).then_some((x, end))
    }

    /// The cycles that the axis names, so far apart that the names don't meet.
    pub fn ticks(&self, name_width: f64) -> Vec<i64> {
        let mut step = 1;
        'wider: loop {
            for times in [1, 2, 5] {
                if (step * times) as f64 * self.scale >= name_width {
                    step *= times;
                    break 'wider;
                }
            }
            step *= 10;
        }
        let mut all: Vec<i64> = Vec::new();
        let mut free = f64::MIN;
        for p in &self.pieces {
            let first = (p.from + step - 1).div_euclid(step) * step;
            let mut named: Vec<i64> = (0..)
                .map(|n| first + n * step)
                .take_while(|&cycle| cycle < p.until)
                .collect();
            // A piece between gaps has at least one name, or nobody knows where it is.
            if named.is_empty() && p.until - p.from > 1 {
                named.push(p.from + 1);
            }
            for cycle in named {
                let x = self.x(cycle);
                if x >= free {
                    all.push(cycle);
                    free = x + name_width;
                }
            }
        }
        all
    }
}

/// The cycles to show round these ones, in order, where nothing between is idle for long; behind each so much room.
fn stretches(points: &[i64], scale: f64, room: f64) -> Vec<(i64, i64)> {
    let cycles = |width: f64| ((width / scale).ceil() as i64).max(1);
    let mut all: Vec<(i64, i64)> = Vec::new();
    for &point in points {
        let (from, until) = ((point - cycles(14.0)).max(0), point + cycles(room) + 1);
        match all.last_mut() {
            Some((_, end)) if !is_idle(from - *end, scale) => *end = (*end).max(until),
            _ => all.push((from, until)),
        }
    }
    if all.is_empty() {
        all.push((0, 1));
    }
    all
}

fn is_idle(cycles: i64, scale: f64) -> bool {
    cycles > IDLE_CYCLES && cycles as f64 * scale > IDLE_WIDTH
}

/// The strips in which these cycles, in order, stand at a scale; behind each there is so much room for what is written there.
pub fn laid(points: &[i64], scale: f64, room: f64) -> Vec<Strip> {
    let strip = || Strip {
        scale,
        pieces: Vec::new(),
    };
    let mut all = vec![strip()];
    let (mut x, mut end) = (LEFT, None);
    let right = LEFT + WIDTH;
    for (mut from, until) in stretches(points, scale, room) {
        let mut left_out = end.map_or(0, |end: i64| from - end);
        end = Some(until);
        while from < until {
            let gap = if left_out > 0 { GAP } else { 0.0 };
            let free = ((right - x - gap) / scale).floor() as i64;
            // Rather a new strip than a corner of the old one. A fresh strip takes at least one cycle, however wide.
            let corner = (CORNER / scale) as i64 + 1;
            if x > LEFT && free < corner.min(until - from) {
                all.push(strip());
                x = LEFT;
                continue;
            }
            let cycles = free.max(1).min(until - from);
            let piece = Piece {
                from,
                until: from + cycles,
                x: x + gap,
                left_out,
            };
            x = piece.x + cycles as f64 * scale;
            from += cycles;
            left_out = 0;
            if let Some(last) = all.last_mut() {
                last.pieces.push(piece);
            }
        }
    }
    all
}

/// The same at the widest scale that needs no more strips than the least one.
pub fn fitted(points: &[i64], least_scale: f64, room: f64) -> Vec<Strip> {
    let mut best = laid(points, least_scale, room);
    let mut scale = WIDEST_SCALE;
    while scale > least_scale {
        let strips = laid(points, scale, room);
        if strips.len() <= best.len() {
            best = strips;
            break;
        }
        scale *= 0.93;
    }
    if let [only] = &mut best[..] {
        let short = LEFT + LEAST_WIDTH - only.right();
        let more = (short / only.scale).ceil().max(0.0) as i64;
        if let Some(last) = only.pieces.last_mut() {
            last.until += more;
        }
    }
    best
}
