//! Request 6: true cycles round the wrap, ticks, number 11, the order of the numbers, and the verdict.

mod round_trip;

use super::refusals::{told, Told};
use crate::desk::*;
use crate::house::*;
use crate::records::CCD;
use crate::rules::{ACT, MOST_RECORDS, RDA};
use crate::sent::*;

const UNTOUCHED: u8 = 0xa5;

/// The answer, and the whole room afterwards.
fn judged(bytes: &[u8], room: usize) -> (Result<Captured, Refusal>, Vec<u8>) {
    let mut room = vec![UNTOUCHED; room];
    let answer = judge_capture(7, &bytes_of(&TABLE_A), bytes, &mut room);
    (answer, room)
}

/// The cycles, kinds and banks that are written of such records.
fn read(records: &[[u8; 4]]) -> Vec<Sent> {
    let due = records.iter().filter(|r| r[2..] != [255, 0]).count();
    let (answer, room) = judged(&records.concat(), 8 * due + 3);
    let told = answer.expect("it's read");
    assert_eq!(told.commands as usize, due);
    assert_eq!(room[8 * due..], [UNTOUCHED; 3]);
    assert!(room[..8 * due].chunks(8).all(|c| c[6..] == [0, 0]));
    of_schedule(&room[..8 * due])
}

/// The numbers, of a capture with room for every record, of which no byte is then changed.
fn refusal(bytes: &[u8]) -> Told {
    let size = 2 * bytes.len() + 8;
    let (answer, room) = judged(bytes, size);
    assert_eq!(room, vec![UNTOUCHED; size]);
    told(answer)
}

fn verdict(bytes: &[u8]) -> Verdict {
    let (answer, _) = judged(bytes, 2 * bytes.len());
    answer.expect("it's judged").verdict
}

fn broken(rule: u8, record: usize) -> Verdict {
    Verdict::Broken { rule, record }
}

/// So many ticks, each 65,535 cycles after the one before it, the first at 65,535.
fn far(ticks: usize) -> Vec<[u8; 4]> {
    let one = |k| record(65_535 - (k % 65_536) as u16, TICK.0, TICK.1);
    (0..ticks).map(one).collect()
}

#[test]
fn the_first_record_has_its_own_stamp() {
    for stamp in [0, 1, 255, 256, 32_767, 32_768, 65_535] {
        assert_eq!(read(&[record(stamp, ACT, 3)]), [(stamp.into(), ACT, 3)]);
    }
}

/// Gaps from 1 to 65,535, those over the wrap among them, and as many wraps as there are gaps.
#[test]
fn wraps_at_each_place() {
    for first in [0, 1, 2, 100, 32_768, 65_534, 65_535] {
        for gap in [1, 2, 99, 32_767, 32_768, 65_534, 65_535_u16] {
            let stamps: Vec<u16> = (0..6)
                .map(|k| gap.wrapping_mul(k).wrapping_add(first))
                .collect();
            let records: Vec<[u8; 4]> = stamps.iter().map(|&s| record(s, ACT, 0)).collect();
            let right: Vec<Sent> = (0..6)
                .map(|k| (u64::from(first) + k * u64::from(gap), ACT, 0))
                .collect();
            assert_eq!(read(&records), right);
        }
    }
    for place in 1..5 {
        let stamp = |k| if k < place { 65_530 + k } else { k };
        let records: Vec<[u8; 4]> = (0..5).map(|k| record(stamp(k), ACT, 0)).collect();
        let cycle = |k: u16| u64::from(stamp(k)) + if k < place { 0 } else { 65_536 };
        let right: Vec<Sent> = (0..5).map(|k| (cycle(k), ACT, 0)).collect();
        assert_eq!(read(&records), right);
    }
}

/// Dropped wherever they stand, and each carries the cycle on over a wrap.
#[test]
fn ticks() {
    let (act, rda) = (record(0, ACT, 0), record(10, RDA, 0));
    let tick = tick_record;
    assert_eq!(read(&[tick(5)]), []);
    assert_eq!(
        read(&[tick(65_535), act, rda]),
        [(65_536, ACT, 0), (65_546, RDA, 0)]
    );
    assert_eq!(read(&[act, tick(9), rda]), [(0, ACT, 0), (10, RDA, 0)]);
    assert_eq!(
        read(&[act, rda, tick(11), tick(9)]),
        [(0, ACT, 0), (10, RDA, 0)]
    );
    let row = [act, tick(65_535), tick(65_534), tick(65_533), tick(11), rda];
    assert_eq!(
        read(&row),
        [(0, ACT, 0), (3 * 65_536 + 65_536 + 10, RDA, 0)]
    );
    assert_eq!(verdict(&row.concat()), Verdict::Accepted);
}

/// Kind 255 with another bank is a command, and so is every other kind.
#[test]
fn kinds() {
    for kind in 0..=255 {
        for bank in [0, 1, 255] {
            let right = match (kind, bank) {
                TICK => vec![],
                _ => vec![(9, kind, bank)],
            };
            assert_eq!(read(&[record(9, kind, bank)]), right);
        }
    }
    for kind in [6, 254] {
        assert_eq!(verdict(&record(0, kind, 0)), broken(1, 0));
    }
    assert_eq!(verdict(&record(0, 255, 1)), broken(1, 0));
    assert_eq!(verdict(&record(0, 255, 0)), Verdict::Accepted);
}

/// "At the lowest such record", ticks counted; "the one before it" may be a tick.
#[test]
fn a_stamp_equal_to_the_one_before() {
    let kinds = [(ACT, 0), TICK, (255, 1)];
    for (before, second) in kinds.iter().flat_map(|&b| kinds.map(|k| (b, k))) {
        for stamp in [0, 7, 65_535] {
            let pair = [
                record(stamp, before.0, before.1),
                record(stamp, second.0, second.1),
            ];
            assert_eq!(refusal(&pair.concat()), (11, 1, 7));
            for n in [1, 2, 9] {
                let first = (0..n).map(|k| record(stamp.wrapping_sub(k + 1), TICK.0, TICK.1));
                let mut records: Vec<[u8; 4]> = first.collect();
                records.reverse();
                records.extend(pair);
                records.extend(pair);
                assert_eq!(refusal(&records.concat()), (11, u32::from(n) + 1, 7));
            }
        }
    }
}

/// 65,537 records reach 4,294,967,295, and one cycle more is refused, for a tick too.
#[test]
fn the_last_cycle() {
    let ticks = far(65_536);
    for (kind, bank) in [(ACT, 0), TICK] {
        let last = [ticks.clone(), vec![record(65_535, kind, bank)]].concat();
        let commands = usize::from((kind, bank) != TICK);
        let (answer, room) = judged(&last.concat(), 8);
        assert_eq!(answer.map(|told| told.commands as usize), Ok(commands));
        if commands == 1 {
            assert_eq!(room, command(NEVER, ACT, 0, 0));
        }
        let past = [last.clone(), vec![record(0, kind, bank)]].concat();
        assert_eq!(refusal(&past.concat()), (11, 65_537, 7));
        let again = [last, vec![record(65_535, kind, bank)]].concat();
        assert_eq!(refusal(&again.concat()), (11, 65_537, 7));
    }
    // A gap that would go past it from a cycle before.
    let over = [ticks, vec![record(65_534, ACT, 0), record(65_533, ACT, 0)]].concat();
    assert_eq!(refusal(&over.concat()), (11, 65_537, 7));
}

#[test]
fn as_many_records_as_there_may_be() {
    let records = |n: usize| -> Vec<[u8; 4]> { (0..n).map(|k| record(k as u16, 9, 9)).collect() };
    let (answer, room) = judged(&records(MOST_RECORDS).concat(), 8 * MOST_RECORDS);
    let right = Captured {
        edition: 7,
        commands: MOST_RECORDS as u32,
        verdict: broken(1, 0),
    };
    assert_eq!(answer, Ok(right));
    let last = command(MOST_RECORDS as u32 - 1, 9, 9, 0);
    assert_eq!(room[8 * MOST_RECORDS - 8..], last);
    assert_eq!(refusal(&records(MOST_RECORDS + 1).concat()), (7, 0, 7));
    assert_eq!(refusal(&records(MOST_RECORDS).concat()[1..]), (7, 0, 7));
    assert_eq!(refusal(&[0; 4 * MOST_RECORDS]), (11, 1, 7));
}

/// 1, 2, 10, 7, 11, 5, and no byte changes.
#[test]
fn the_order_of_the_numbers() {
    let a = bytes_of(&TABLE_A);
    let ccd_1 = bytes_of(&with(&[(CCD, 1)]));
    let (one, other) = (record(0, ACT, 0), record(1, ACT, 0));
    let (good, same) = ([one, other].concat(), [one, one].concat());
    let odd = [&same[..], &[0]].concat();
    let long = [0; 4 * MOST_RECORDS + 4];
    for (expected, table, bytes, size, number) in [
        (8, &a[..31], &odd[..], 0, (1, 0, 0)),
        (8, &ccd_1, &odd, 0, (2, 0, 0)),
        (8, &a, &odd, 0, (10, 7, 7)),
        (0, &a, &good, 16, (10, 7, 7)),
        (7, &a, &odd, 0, (7, 0, 7)),
        (7, &a, &long, 0, (7, 0, 7)),
        (7, &a, &same, 0, (11, 1, 7)),
        (7, &a, &good, 0, (5, 0, 7)),
        (7, &a, &good, 15, (5, 0, 7)),
    ] {
        let mut room = vec![UNTOUCHED; size];
        let answer = judge_capture(expected, table, bytes, &mut room);
        assert_eq!(told(answer), number);
        assert_eq!(room, vec![UNTOUCHED; size]);
    }
    assert!(judged(&good, 16).0.is_ok());
    // A tick asks for no room, nor does nothing.
    assert!(
        judged(&[good, record(2, TICK.0, TICK.1).to_vec()].concat(), 16)
            .0
            .is_ok()
    );
    assert_eq!(
        judged(&[], 0).0.map(|told| told.verdict),
        Ok(Verdict::Accepted)
    );
}

/// Record numbers count the commands that are written; for rule 10 the number is their count. All stay written.
#[test]
fn verdicts_against_it() {
    let tick = tick_record;
    let early = [
        tick(0),
        record(1, ACT, 0),
        tick(2),
        record(10, RDA, 0),
        tick(60),
        record(59, ACT, 0),
    ];
    for (records, right) in [
        (&early[..4], broken(8, 1)),
        (&early[..], broken(8, 1)),
        (&early[..3], broken(10, 1)),
        (&early[..1], Verdict::Accepted),
    ] {
        assert_eq!(verdict(&records.concat()), right);
    }
    let right = [(1, ACT, 0), (10, RDA, 0), (65_595, ACT, 0)];
    assert_eq!(read(&early), right);
}

#[test]
fn one_record() {
    for bytes in [&[][..], &[1], &[1, 2, 3], &[1, 2, 3, 4, 5]] {
        assert_eq!(told(read_capture_record(bytes)), (7, 0, 0));
    }
    let r = read_capture_record(&[0x34, 0x12, 5, 6]).expect("any 4 bytes are one");
    assert_eq!((r.stamp, r.kind, r.bank), (0x1234, 5, 6));
    let mut room = [UNTOUCHED; 5];
    for size in 0..4 {
        assert_eq!(
            told(write_capture_record(0x1234, 5, 6, &mut room[..size])),
            (5, 0, 0)
        );
    }
    assert_eq!(room, [UNTOUCHED; 5]);
    assert_eq!(write_capture_record(0x1234, 5, 6, &mut room), Ok(0));
    assert_eq!(room, [0x34, 0x12, 5, 6, UNTOUCHED]);
    assert_eq!(read_capture_record(&room[..4]), Ok(r));
}
