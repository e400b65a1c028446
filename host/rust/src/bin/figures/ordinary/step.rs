//! One cycle of a lent controller: all checks, the heads found from the counts, and at most one command.

use model::desk::Transaction;
use skvorzhan::{Controller, HostBank, HostGroup, NEVER};

use super::{in_act_queue, in_data_queue, put, Times, LONG_AGO, REF, REFRESH};

/// A queue's head: the transaction, the bank within it, the burst within that, and the place of its bank's ACT in the ACT queue.
struct Head<'a> {
    x: &'a Transaction,
    number: usize,
    bank: u8,
    burst: u8,
    act: u32,
}

/// After so many commands have left the queue in which a transaction has so many places, so many for each bank; None where it's empty.
fn head(
    list: &[Transaction],
    gone: u32,
    places: impl Fn(&Transaction) -> u32,
    for_each: impl Fn(&Transaction) -> u32,
) -> Option<Head<'_>> {
    let (mut left, mut act) = (gone, 0);
    for (number, x) in list.iter().enumerate() {
        let (here, each) = (places(x), for_each(x));
        if left < here {
            let bank = left / each;
            return Some(Head {
                x,
                number,
                bank: bank as u8,
                burst: (left % each) as u8,
                act: act + bank,
            });
        }
        left -= here;
        act += in_act_queue(x);
    }
    None
}

fn act_head(list: &[Transaction], gone: u32) -> Option<Head<'_>> {
    head(list, gone, in_act_queue, |_| 1)
}

fn data_head(list: &[Transaction], gone: u32) -> Option<Head<'_>> {
    head(list, gone, in_data_queue, |x| x.bc.into())
}

/// Its precharge start + RP.
fn precharged(t: &Times, bank: &HostBank) -> i64 {
    (stored(bank.act) + t.act_to_act)
        .max(stored(bank.rd) + t.rd_to_act)
        .max(stored(bank.wr) + t.wr_to_act)
}

fn stored(cycle: u32) -> i64 {
    if cycle == NEVER {
        LONG_AGO
    } else {
        cycle.into()
    }
}

/// The commands written, or None for a refusal.
pub fn step(
    c: &mut Controller,
    expected: u16,
    table: &[u8],
    list: &[Transaction],
    room: &mut [u8],
) -> Option<usize> {
    let t = &Times::read(expected, table)?;
    if !t.admits_all(list) {
        return None;
    }
    let acts: u32 = list.iter().map(in_act_queue).sum();
    let datas: u32 = list.iter().map(in_data_queue).sum();
    let left = acts.saturating_sub(c.acts) + datas.saturating_sub(c.datas);
    if left > 0 && room.len() < 8 {
        return None;
    }
    let early = |cycle: u32| cycle == NEVER || cycle < c.cycle;
    let banks = &c.banks[..usize::from(t.banks)];
    let stamps = banks
        .iter()
        .all(|b| early(b.act) && early(b.rd) && early(b.wr))
        && c.last.iter().all(|&act| early(act))
        && c.groups[..t.groups]
            .iter()
            .all(|g| early(g.act) && early(g.rd) && early(g.wr))
        && early(c.refresh);
    let counts = c.acts <= acts && c.datas <= datas;
    if c.cycle >= 100_000_000 || c.edition != expected.into() || !stamps || !counts {
        return None;
    }
    if c.datas > 0 && data_head(list, c.datas - 1)?.act >= c.acts {
        return None;
    }
    // More lent before than the list has, or a late piece.
    let (before, new) = (list.get(..c.lent as usize)?, &list[c.lent as usize..]);
    if new.first().map_or(false, |x| x.arrival < c.cycle) {
        return None;
    }
    c.lent = (before.len() + new.len()) as u32;
    if left == 0 {
        return Some(0);
    }
    let now = i64::from(c.cycle);
    c.cycle += 1;
    let seen = |h: &Head| i64::from(h.x.arrival) <= now;
    if let Some(h) = data_head(list, c.datas).filter(|h| h.act < c.acts && seen(h)) {
        let (bank, writes) = (t.bank(h.x, h.bank), usize::from(h.x.kind));
        let own = &mut c.banks[usize::from(bank)];
        let own_group = t.group_of(bank);
        let after = |(place, g): (usize, &HostGroup)| {
            let [after_rd, after_wr] = t.apart(place == own_group).distances;
            (stored(g.rd) + after_rd[writes]).max(stored(g.wr) + after_wr[writes])
        };
        let groups = c.groups[..t.groups].iter().enumerate();
        let from = groups.map(after).fold(stored(own.act) + t.rcd, i64::max);
        if own.opened != 0 && from <= now {
            let closes = h.burst + 1 == h.x.bc;
            own.opened = (!closes).into();
            let group = &mut c.groups[own_group];
            let (of_bank, of_group) = match writes {
                0 => (&mut own.rd, &mut group.rd),
                _ => (&mut own.wr, &mut group.wr),
            };
            *of_bank = now as u32;
            *of_group = now as u32;
            c.datas += 1;
            let kind = 1 + 2 * h.x.kind + closes as u8;
            put(&mut room[..8], now, kind, bank, h.number);
            return Some(1);
        }
    }
    let h = match act_head(list, c.acts).filter(seen) {
        Some(h) if stored(c.refresh) + t.rfc <= now => h,
        _ => return Some(0),
    };
    if h.x.kind == REFRESH {
        let mut banks = c.banks[..usize::from(t.banks)].iter();
        if !banks.all(|b| b.opened == 0 && precharged(t, b) <= now) {
            return Some(0);
        }
        c.refresh = now as u32;
        c.acts += 1;
        put(&mut room[..8], now, REF, 0, h.number);
        return Some(1);
    }
    let bank = t.bank(h.x, h.bank);
    let own = &mut c.banks[usize::from(bank)];
    let own_group = t.group_of(bank);
    let after = |(place, g): (usize, &HostGroup)| stored(g.act) + t.apart(place == own_group).rrd;
    let groups = c.groups[..t.groups].iter().enumerate();
    let from = (precharged(t, own))
        .max(stored(own.act) + t.rc)
        .max(groups.map(after).fold(LONG_AGO, i64::max))
        .max(stored(c.last[3]) + t.faw);
    if own.opened != 0 || from > now {
        return Some(0);
    }
    own.opened = 1;
    own.act = now as u32;
    (own.rd, own.wr) = (NEVER, NEVER);
    c.last = [now as u32, c.last[0], c.last[1], c.last[2]];
    c.groups[own_group].act = now as u32;
    c.acts += 1;
    put(&mut room[..8], now, 0, bank, h.number);
    Some(1)
}
