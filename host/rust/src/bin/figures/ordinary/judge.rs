//! The judge in two kinds, which differ in rule 9: by the latest RD and WR of each group, or by looking back over all earlier records.

use super::{State, Times, REF};

/// The broken rule and record; None where it's accepted. The outer None is a refusal.
pub fn judge(
    expected: u16,
    table: &[u8],
    bytes: &[u8],
    looks_back: bool,
) -> Option<Option<(u8, usize)>> {
    let t = &Times::read(expected, table)?;
    if bytes.len() % 8 != 0 || bytes.len() / 8 > 69_632 {
        return None;
    }
    Some(match t.groups {
        1 => judged_by::<false>(t, bytes, looks_back),
        _ => judged_by::<true>(t, bytes, looks_back),
    })
}

fn judged_by<const SEVERAL: bool>(
    t: &Times,
    bytes: &[u8],
    looks_back: bool,
) -> Option<(u8, usize)> {
    if looks_back {
        judged::<SEVERAL>(t, bytes, |_, earlier, new| {
            let near = |old: Record| {
                let apart = t.apart(t.group_of(old.bank) == t.group_of(new.bank));
                old.is_data() && new.cycle < old.cycle + apart.distances[old.writes()][new.writes()]
            };
            earlier.chunks_exact(8).map(Record::read).any(near)
        })
    } else {
        judged::<SEVERAL>(t, bytes, |state, _, new| {
            new.cycle < state.data_after_groups(t, new.bank, new.writes())
        })
    }
}

struct Record {
    cycle: i64,
    kind: u8,
    bank: u8,
}

impl Record {
    fn read(c: &[u8]) -> Record {
        Record {
            cycle: i64::from(u32::from_le_bytes([c[0], c[1], c[2], c[3]])),
            kind: c[4],
            bank: c[5],
        }
    }

    fn is_data(&self) -> bool {
        (1..=4).contains(&self.kind)
    }

    fn writes(&self) -> usize {
        usize::from(self.kind > 2)
    }
}

/// `near` says, from the state and from the bytes of all earlier records, whether a data command breaks rule 9.
fn judged<const SEVERAL: bool>(
    t: &Times,
    bytes: &[u8],
    near: impl Fn(&State<SEVERAL>, &[u8], &Record) -> bool,
) -> Option<(u8, usize)> {
    let mut state = State::fresh();
    let mut last = -1;
    for (record, c) in bytes.chunks_exact(8).enumerate() {
        let new = Record::read(c);
        let near = new.is_data() && near(&state, &bytes[..8 * record], &new);
        if let Some(rule) = broken(t, &state, last, &new, near) {
            return Some((rule, record));
        }
        last = new.cycle;
        match new.kind {
            0 => state.act(t, new.bank, new.cycle),
            REF => state.refresh = new.cycle,
            _ => state.data(t, new.bank, new.writes(), new.kind % 2 == 0, new.cycle),
        }
    }
    let open = state.banks.iter().any(|bank| bank.open);
    open.then_some((10, bytes.len() / 8))
}

fn broken<const SEVERAL: bool>(
    t: &Times,
    state: &State<SEVERAL>,
    last: i64,
    new: &Record,
    near: bool,
) -> Option<u8> {
    let Record { cycle, kind, bank } = *new;
    let known = match kind {
        REF => bank == 0,
        _ => kind < REF && bank < t.banks,
    };
    if !known {
        return Some(1);
    }
    if cycle <= last {
        return Some(2);
    }
    let own = &state.banks[usize::from(bank)];
    let in_refresh = (12, cycle < state.refresh + t.rfc);
    match kind {
        0 => first(&[
            (3, own.open),
            (4, cycle < own.closed_until),
            (5, cycle < own.act + t.rc),
            (6, cycle < state.act_after_groups(t, bank)),
            (7, cycle < state.acts[(state.newest + 1) % 4] + t.faw),
            in_refresh,
        ]),
        REF => first(&[(11, cycle < state.rest_from(t)), in_refresh]),
        _ => first(&[(3, !own.open), (8, cycle < own.act + t.rcd), (9, near)]),
    }
}

fn first(rules: &[(u8, bool)]) -> Option<u8> {
    let broken = rules.iter().find(|(_, broken)| *broken);
    broken.map(|(rule, _)| *rule)
}
