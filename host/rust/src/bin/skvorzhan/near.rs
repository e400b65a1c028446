//! Why a record is broken, found by asking the judge alone: the least cycle at which it would have been legal, and the earlier command that it is
//! too near to. Nothing here knows a distance.
//!
//! Every rule that looks at cycles asks for at least so many cycles since an earlier command. So a record that keeps a rule at one cycle keeps it
//! at every later one, and a pause put between two records of a legal schedule leaves it legal: that lets both be found by halving.

use crate::desk::Table;
use skvorzhan::{Command, Verdict};

const OPEN_AT_THE_END: u32 = 10;
const OPEN_OR_CLOSED: u32 = 3;
const REFRESH_AT_REST: u32 = 11;
const REF: u8 = 5;

/// A pause after which no earlier command is too near: the greatest distance of a table adds four numbers up to 1,023.
const PAUSE: u32 = 8_192;

#[derive(Debug, Clone, Default, PartialEq, Eq)]
pub struct Why {
    /// The earlier record that it is too near to: of those that hold it up under the broken rule the one that does so longest, and of several the
    /// latest. Of a bank that is open or closed when it should not be, the bank's latest record.
    pub near: Option<usize>,
    /// The least cycle at which the record, after those before it, keeps the rule; another may hold it up for longer.
    pub kept: Option<u32>,
    /// The least cycle at which it breaks no rule; none where no cycle helps.
    pub legal: Option<u32>,
    /// The banks that are open, where that is what is wrong.
    pub open: Vec<u8>,
}

/// Of the verdict that `record` is the first that breaks a rule, and `rule` the first that it breaks.
pub fn why(table: &Table, commands: &[Command], rule: u32, record: usize) -> Why {
    let before = commands.get(..record).unwrap_or(commands);
    let broken = match commands.get(record) {
        Some(c) if rule != OPEN_AT_THE_END => *c,
        _ => return left_open(table, commands),
    };
    // Only the distances count, so all may stand earlier; that makes room behind them.
    let first = before.first().map_or(0, |c| c.cycle.min(broken.cycle));
    let earlier = |c: &Command| Command {
        cycle: c.cycle - first,
        ..*c
    };
    let asked = Asked {
        table,
        before: before.iter().map(earlier).collect(),
        broken: earlier(&broken),
    };
    let kept = asked.least(|found| found != Some(rule));
    let why = match (rule, kept) {
        (OPEN_OR_CLOSED, _) => Why {
            near: latest(before, |c| c.bank == broken.bank),
            ..Why::default()
        },
        (REFRESH_AT_REST, None) => left_open(table, before),
        (_, Some(kept)) => Why {
            near: asked.held_up_by(rule, kept - 1),
            ..Why::default()
        },
        (_, None) => Why::default(),
    };
    let legal = asked.least(|found| found.is_none());
    let as_given = |cycle: u32| cycle.checked_add(first);
    Why {
        kept: kept.and_then(as_given),
        legal: legal.and_then(as_given),
        ..why
    }
}

struct Asked<'a> {
    table: &'a Table,
    /// Legal, but for banks that may be open at its end.
    before: Vec<Command>,
    broken: Command,
}

impl<'a> Asked<'a> {
    fn at(&self, cycle: u32) -> Vec<Command> {
        let broken = Command {
            cycle,
            ..self.broken
        };
        let mut all = self.before.clone();
        all.push(broken);
        all
    }

    /// The rule that the last of the records breaks.
    fn found(&self, all: &[Command]) -> Option<u32> {
        match self.table.judge(all) {
            Ok((_, Verdict::Broken { rule, record, .. })) if record as usize + 1 == all.len() => {
                Some(rule)
            }
            _ => None,
        }
    }

    /// The least cycle at which what is found is as wanted, which it is not at the record's own, and is from some cycle on if at all.
    fn least(&self, wanted: impl Fn(Option<u32>) -> bool) -> Option<u32> {
        let as_wanted = |cycle| wanted(self.found(&self.at(cycle)));
        let (mut not, mut yes) = (self.broken.cycle, u32::MAX);
        if not == yes || !as_wanted(yes) {
            return None;
        }
        while yes - not > 1 {
            let middle = not + (yes - not) / 2;
            if as_wanted(middle) {
                yes = middle;
            } else {
                not = middle;
            }
        }
        Some(yes)
    }

    /// The latest record before which a pause leaves the rule broken by the record at that cycle: a pause after it lets the rule be kept.
    fn held_up_by(&self, rule: u32, cycle: u32) -> Option<usize> {
        let all = self.at(cycle);
        all.last()?.cycle.checked_add(PAUSE)?;
        let broken_after_pause = |place: usize| {
            let mut paused = all.clone();
            for c in &mut paused[place..] {
                c.cycle += PAUSE;
            }
            self.found(&paused) == Some(rule)
        };
        let (mut still, mut not) = (0, self.before.len());
        if not == 0 || broken_after_pause(not) {
            return None;
        }
        while not - still > 1 {
            let middle = still + (not - still) / 2;
            if broken_after_pause(middle) {
                still = middle;
            } else {
                not = middle;
            }
        }
        Some(still)
    }
}

fn latest(before: &[Command], to: impl Fn(&Command) -> bool) -> Option<usize> {
    before.iter().rposition(|c| c.kind != REF && to(c))
}

/// The banks that are open after a legal schedule: those whose own commands, judged alone, end with an open bank.
fn left_open(table: &Table, commands: &[Command]) -> Why {
    let is_open = |bank: &u8| {
        let own = |c: &&Command| c.kind != REF && c.bank == *bank;
        let own: Vec<Command> = commands.iter().filter(own).copied().collect();
        let told = table.judge(&own);
        matches!(told, Ok((_, Verdict::Broken { rule, .. })) if rule == OPEN_AT_THE_END)
    };
    // No table has more than 16 banks.
    let open: Vec<u8> = (0..16).filter(is_open).collect();
    Why {
        near: latest(commands, |c| open.contains(&c.bank)),
        open,
        ..Why::default()
    }
}
