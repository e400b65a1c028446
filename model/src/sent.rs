//! What an analyser sends: a schedule written as a capture, "with ticks only at cycles without a command, one at most in each".

use crate::capture::write_capture_record;
use crate::records::{commands_of, Command};

/// A cycle with a command's kind and bank, or a tick's.
pub type Sent = (u64, u8, u8);

/// The kind and the bank of a tick.
pub const TICK: (u8, u8) = (255, 0);

pub fn tick(cycle: u64) -> Sent {
    (cycle, TICK.0, TICK.1)
}

/// The commands of a schedule's bytes.
pub fn of_schedule(bytes: &[u8]) -> Vec<Sent> {
    let one = |c: &Command| (c.cycle.into(), c.kind, c.bank);
    commands_of(bytes).iter().map(one).collect()
}

/// The same so many cycles later.
pub fn later(sent: &[Sent], by: u64) -> Vec<Sent> {
    sent.iter().map(|s| (s.0 + by, s.1, s.2)).collect()
}

/// The capture's bytes: the stamp is what 16 bits hold of the cycle.
pub fn capture(sent: &[Sent]) -> Vec<u8> {
    let one = |&(cycle, kind, bank): &Sent| record(cycle as u16, kind, bank);
    sent.iter().flat_map(one).collect()
}

pub fn record(stamp: u16, kind: u8, bank: u8) -> [u8; 4] {
    let mut out = [0; 4];
    write_capture_record(stamp, kind, bank, &mut out).expect("there is room");
    out
}

pub fn tick_record(stamp: u16) -> [u8; 4] {
    record(stamp, TICK.0, TICK.1)
}

/// The greatest gap that stamps can tell, and the greatest cycle of a first record.
pub const MOST_GAP: u64 = 65_535;

/// Commands in order of cycle, with ticks before each that would come too late, "sent so that no gap reaches 65,536": each tick as late
/// as it may be but for so many cycles, at most 65,534.
pub fn with_ticks(commands: &[Sent], mut before_latest: impl FnMut() -> u64) -> Vec<Sent> {
    let mut sent = Vec::new();
    let mut latest = MOST_GAP;
    for &command in commands {
        while command.0 > latest {
            let at = latest - before_latest().min(MOST_GAP - 1);
            sent.push(tick(at));
            latest = at + MOST_GAP;
        }
        sent.push(command);
        latest = command.0 + MOST_GAP;
    }
    sent
}
