//! The reader of captures, which writes their commands into a buffer, and the judge of those.

use super::{judge, put, Times};

/// How many commands were written, and the broken rule and record; None within where they are accepted. The outer None is a refusal.
pub fn judge_capture(
    expected: u16,
    table: &[u8],
    capture: &[u8],
    room: &mut [u8],
) -> Option<(usize, Option<(u8, usize)>)> {
    Times::read(expected, table)?;
    if capture.len() % 4 != 0 || capture.len() / 4 > 69_632 {
        return None;
    }
    let count = checked(capture)?;
    let room = room.get_mut(..8 * count)?;
    write(capture, room);
    let verdict = judge(expected, table, room, false)?;
    Some((count, verdict))
}

/// How far the analyser's counter has come.
struct Clock {
    stamp: Option<u16>,
    cycle: i64,
}

impl Clock {
    const SET: Clock = Clock {
        stamp: None,
        cycle: 0,
    };

    /// The true cycle of the next stamp; None for one that is refused.
    fn at(&mut self, record: &[u8]) -> Option<i64> {
        let stamp = u16::from_le_bytes([record[0], record[1]]);
        let gap = stamp.wrapping_sub(self.stamp.unwrap_or(0));
        if gap == 0 && self.stamp.is_some() {
            return None;
        }
        self.stamp = Some(stamp);
        self.cycle += i64::from(gap);
        (self.cycle <= u32::MAX.into()).then_some(self.cycle)
    }
}

fn is_tick(record: &[u8]) -> bool {
    record[2..] == [255, 0]
}

/// The number of commands, of a capture that is not refused.
fn checked(capture: &[u8]) -> Option<usize> {
    let mut clock = Clock::SET;
    let mut count = 0;
    for record in capture.chunks_exact(4) {
        clock.at(record)?;
        count += usize::from(!is_tick(record));
    }
    Some(count)
}

fn write(capture: &[u8], room: &mut [u8]) {
    let mut clock = Clock::SET;
    let mut places = room.chunks_exact_mut(8);
    for record in capture.chunks_exact(4) {
        let cycle = clock.at(record).unwrap_or(0);
        if !is_tick(record) {
            if let Some(place) = places.next() {
                put(place, cycle, record[2], record[3], 0);
            }
        }
    }
}
