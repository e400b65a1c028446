//! The scheduler in two kinds: by cycles, or passing over those at which nothing goes.

use model::desk::Transaction;

use super::{in_act_queue, in_data_queue, put, State, Times, REF, REFRESH};

/// Where a queue stands: the transaction, the bank within it, and the burst within that.
#[derive(Clone, Copy, Default)]
struct Head {
    number: usize,
    bank: u8,
    burst: u8,
}

impl Head {
    /// Past a bank, or past a refresh.
    fn next_bank(&mut self, x: &Transaction) {
        self.bank += 1;
        if self.bank >= x.bi {
            self.bank = 0;
            self.number += 1;
        }
    }

    /// A refresh has no place in the data queue.
    fn skip_refreshes(&mut self, list: &[Transaction]) {
        while list.get(self.number).map_or(false, |x| x.kind == REFRESH) {
            self.number += 1;
        }
    }

    /// From when its ACT, or its REF, may go; never, while a bank is open that must not be.
    fn goes_from<const SEVERAL: bool>(
        &self,
        t: &Times,
        state: &State<SEVERAL>,
        x: &Transaction,
    ) -> i64 {
        if x.kind == REFRESH {
            return state.rest_from(t).max(state.refresh + t.rfc);
        }
        let bank = t.bank(x, self.bank);
        match state.banks[usize::from(bank)].open {
            true => i64::MAX,
            false => state.act_from(t, bank),
        }
    }
}

/// The commands written, or None where the list or a buffer is refused. By cycles, each is tried in turn; otherwise those at which
/// nothing goes are passed over at once.
pub fn schedule(
    expected: u16,
    table: &[u8],
    list: &[Transaction],
    room: &mut [u8],
    finishes: &mut [u32],
    by_cycles: bool,
) -> Option<usize> {
    let t = &Times::read(expected, table)?;
    let due: u32 = (list.iter())
        .map(|x| in_act_queue(x) + in_data_queue(x))
        .sum();
    let due = due as usize;
    if !t.admits_all(list) || room.len() < 8 * due || finishes.len() < list.len() {
        return None;
    }
    match t.groups {
        1 => scheduled::<false>(t, list, room, finishes, by_cycles, due),
        _ => scheduled::<true>(t, list, room, finishes, by_cycles, due),
    }
}

fn scheduled<const SEVERAL: bool>(
    t: &Times,
    list: &[Transaction],
    room: &mut [u8],
    finishes: &mut [u32],
    by_cycles: bool,
    due: usize,
) -> Option<usize> {
    let mut state = State::<SEVERAL>::fresh();
    let (mut acts, mut datas) = (Head::default(), Head::default());
    let mut cycle = 0;
    let mut places = room.chunks_exact_mut(8).take(due);
    datas.skip_refreshes(list);
    while acts.number < list.len() || datas.number < list.len() {
        let has_act = (datas.number, datas.bank) < (acts.number, acts.bank);
        let data_at = match list.get(datas.number) {
            Some(x) if has_act => {
                let bank = t.bank(x, datas.bank);
                state.data_from(t, bank, x.kind.into()).max(cycle)
            }
            _ => i64::MAX,
        };
        let act_at = match list.get(acts.number) {
            Some(x) => acts
                .goes_from(t, &state, x)
                .max(x.arrival.into())
                .max(cycle),
            None => i64::MAX,
        };
        let at = data_at.min(act_at);
        if by_cycles && at > cycle {
            cycle += 1;
            continue;
        }
        let (kind, bank, number) = if data_at <= act_at {
            let x = &list[datas.number];
            let (bank, writes) = (t.bank(x, datas.bank), usize::from(x.kind));
            let closes = datas.burst + 1 == x.bc;
            state.data(t, bank, writes, closes, at);
            finishes[datas.number] = (at + t.to_finish[writes]) as u32;
            let gone = (1 + 2 * x.kind + closes as u8, bank, datas.number);
            datas.burst += 1;
            if closes {
                datas.burst = 0;
                datas.next_bank(x);
                datas.skip_refreshes(list);
            }
            gone
        } else {
            let (x, number) = (&list[acts.number], acts.number);
            let gone = if x.kind == REFRESH {
                state.refresh = at;
                finishes[number] = (at + t.rfc) as u32;
                (REF, 0, number)
            } else {
                let bank = t.bank(x, acts.bank);
                state.act(t, bank, at);
                (0, bank, number)
            };
            acts.next_bank(x);
            gone
        };
        let place = places.next()?;
        put(place, at, kind, bank, number);
        cycle = at + 1;
    }
    Some(due)
}

/// The same from the transactions' bytes, so many of each.
pub fn schedule_bytes(
    expected: u16,
    table: &[u8],
    (bytes, of_record): (&[u8], usize),
    room: &mut [u8],
    finishes: &mut [u32],
    by_cycles: bool,
) -> Option<usize> {
    if bytes.len() % of_record != 0 {
        return None;
    }
    let list: Vec<Transaction> = bytes.chunks_exact(of_record).map(Transaction::of).collect();
    schedule(expected, table, &list, room, finishes, by_cycles)
}
