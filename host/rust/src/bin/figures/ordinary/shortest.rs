//! The shortest pattern, by a search of the proved one's kind: length by length, at each length cycle by cycle, and no deeper where no order of
//! the commands that are left gives hope.

use super::{put, Times, LONG_AGO};

/// A type, BI, BC and a greatest length.
#[derive(Debug, Clone, Copy, PartialEq, Eq)]
pub struct Asked {
    pub kind: u8,
    pub bi: u8,
    pub bc: u8,
    pub most: u32,
}

impl Asked {
    pub fn records(&self) -> usize {
        usize::from(self.bi) * (1 + usize::from(self.bc))
    }
}

/// The least length; the records are put into `out`, which has room for them. None where there is none, or where it is refused. `each` tries
/// cycle after cycle for the first that breaks no rule; otherwise that cycle is worked out.
pub fn shortest(
    expected: u16,
    table: &[u8],
    asked: &Asked,
    out: &mut [u8],
    each: bool,
) -> Option<u32> {
    let t = &Times::read(expected, table)?;
    let allowed = asked.kind <= 1 && asked.bi >= 1 && asked.bc >= 1 && asked.bi <= t.banks;
    if !allowed || asked.records() > 6 || !(1..=128).contains(&asked.most) {
        return None;
    }
    let found = match each {
        true => counted::<true>(t, asked).0,
        false => counted::<false>(t, asked).0,
    };
    let (length, steps) = found?;
    for (step, place) in steps[..asked.records()].iter().zip(out.chunks_exact_mut(8)) {
        put(place, step.cycle, step.kind, step.bank, 0);
    }
    Some(length)
}

#[derive(Clone, Copy)]
pub struct Step {
    cycle: i64,
    kind: u8,
    bank: u8,
}

type Steps = [Step; 6];

/// The least length and its records, and how many cycles were tried for a record.
pub fn counted<const EACH: bool>(t: &Times, asked: &Asked) -> (Option<(u32, Steps)>, u64) {
    let first = Step {
        cycle: 0,
        kind: 0,
        bank: 0,
    };
    let mut tried = 0;
    for length in 1..=asked.most {
        let mut search = Search::<EACH> {
            t,
            bi: asked.bi,
            bc: asked.bc,
            write: asked.kind == 1,
            n: asked.records(),
            length: length.into(),
            tried: 0,
        };
        let mut steps = [first; 6];
        let found = search.hope(1, 1, steps) && search.search(search.length - 1, 1, &mut steps);
        tried += search.tried;
        if found {
            return (Some((length, steps)), tried);
        }
    }
    (None, tried)
}

struct Search<'a, const EACH: bool> {
    t: &'a Times,
    bi: u8,
    bc: u8,
    write: bool,
    n: usize,
    length: i64,
    tried: u64,
}

impl<const EACH: bool> Search<'_, EACH> {
    /// What the bank gets next, if it has not had all.
    fn next(&self, steps: &[Step], bank: u8) -> Option<u8> {
        let gone = steps.iter().filter(|step| step.bank == bank).count();
        let last = usize::from(self.bc);
        match gone {
            0 => Some(0),
            _ if gone > last => None,
            _ => Some(1 + 2 * u8::from(self.write) + u8::from(gone == last)),
        }
    }

    /// The first k are placed, and so many cycles are left.
    fn search(&mut self, left: i64, k: usize, steps: &mut Steps) -> bool {
        if k == self.n {
            // All of them were hoped for where they stand.
            return true;
        }
        if left == 0 {
            return false;
        }
        let mut choices: Vec<(u8, u8)> = (0..self.bi)
            .filter_map(|bank| Some((self.next(&steps[..k], bank)?, bank)))
            .collect();
        choices.sort_unstable();
        for (kind, bank) in choices {
            steps[k] = Step {
                cycle: self.length - left,
                kind,
                bank,
            };
            if self.hope(k + 1, k + 1, *steps) && self.search(left - 1, k + 1, steps) {
                return true;
            }
        }
        self.search(left - 1, k, steps)
    }

    /// The first k are placed, and the first m are in this order.
    fn hope(&mut self, k: usize, m: usize, mut steps: Steps) -> bool {
        if m == self.n {
            return self.lift(k, steps);
        }
        for bank in 0..self.bi {
            if let Some(kind) = self.next(&steps[..m], bank) {
                steps[m] = Step {
                    cycle: 0,
                    kind,
                    bank,
                };
                if self.hope(k, m + 1, steps) {
                    return true;
                }
            }
        }
        false
    }

    /// Copy after copy, each record at the first cycle that breaks no rule, which is then its least in every copy; until thirty in a row, five
    /// copies or more, stand at theirs.
    fn lift(&mut self, k: usize, mut steps: Steps) -> bool {
        let mut seen = Seen::none();
        let (mut i, mut off, mut quiet) = (0, 0, 0);
        loop {
            let step = steps[i];
            let bound = step.cycle + off;
            let limit = if i < k { bound } else { self.length - 1 + off };
            let cycle = self.first(&seen, &step, bound.max(seen.last + 1), limit);
            if cycle > limit {
                return false;
            }
            quiet = if cycle > bound { 0 } else { quiet + 1 };
            if quiet == 30 {
                return true;
            }
            steps[i].cycle = cycle - off;
            seen.add(self.t, &step, cycle);
            i += 1;
            if i == self.n {
                i = 0;
                off += self.length;
            }
        }
    }

    /// The first cycle from there on that breaks no rule, or one past the limit.
    fn first(&mut self, seen: &Seen, step: &Step, from: i64, limit: i64) -> i64 {
        if !EACH {
            return from.max(seen.from(self.t, step, self.write));
        }
        let mut cycle = from;
        while cycle <= limit {
            self.tried += 1;
            if !seen.breaks(self.t, step, self.write, cycle) {
                break;
            }
            cycle += 1;
        }
        cycle
    }
}

/// What the rules ask of the commands before. Each bank gets its own in their order, so that no ACT finds it open and no data command shut.
struct Seen {
    last: i64,
    /// Newest first.
    acts: [i64; 4],
    /// Of each bank its ACT, and when its precharge is over.
    banks: [(i64, i64); 3],
    /// The latest ACT and data command of each.
    groups: [(i64, i64); 3],
}

impl Seen {
    fn none() -> Seen {
        Seen {
            last: LONG_AGO,
            acts: [LONG_AGO; 4],
            banks: [(LONG_AGO, LONG_AGO); 3],
            groups: [(LONG_AGO, LONG_AGO); 3],
        }
    }

    /// The latest of what the groups ask of a command: by their latest ACT, or by their latest data command.
    fn by_groups(&self, t: &Times, bank: u8, writes: usize, acts: bool) -> i64 {
        let own = t.group_of(bank);
        let mut from = LONG_AGO;
        for (group, (act, data)) in self.groups[..t.groups.min(3)].iter().enumerate() {
            let apart = t.apart(group == own);
            from = from.max(match acts {
                true => act + apart.rrd,
                false => data + apart.distances[writes][writes],
            });
        }
        from
    }

    fn from(&self, t: &Times, step: &Step, write: bool) -> i64 {
        let (act, closed_until) = self.banks[usize::from(step.bank)];
        let acts = step.kind == 0;
        let by_groups = self.by_groups(t, step.bank, write.into(), acts);
        match acts {
            true => closed_until
                .max(act + t.rc)
                .max(by_groups)
                .max(self.acts[3] + t.faw),
            false => (act + t.rcd).max(by_groups),
        }
    }

    fn breaks(&self, t: &Times, step: &Step, write: bool, cycle: i64) -> bool {
        let (act, closed_until) = self.banks[usize::from(step.bank)];
        let acts = step.kind == 0;
        let by_bank = match acts {
            true => cycle < closed_until || cycle < act + t.rc || cycle < self.acts[3] + t.faw,
            false => cycle < act + t.rcd,
        };
        by_bank || cycle < self.by_groups(t, step.bank, write.into(), acts)
    }

    fn add(&mut self, t: &Times, step: &Step, cycle: i64) {
        self.last = cycle;
        let bank = &mut self.banks[usize::from(step.bank)];
        let group = &mut self.groups[t.group_of(step.bank)];
        match step.kind {
            0 => {
                *bank = (cycle, cycle + t.act_to_act);
                group.0 = cycle;
                self.acts.rotate_right(1);
                self.acts[0] = cycle;
            }
            kind => {
                let delay = if kind > 2 { t.wr_to_act } else { t.rd_to_act };
                bank.1 = bank.1.max(cycle + delay);
                group.1 = cycle;
            }
        }
    }
}
