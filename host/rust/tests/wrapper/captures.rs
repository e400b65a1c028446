//! Captures, from records that are written one by one.

use super::*;

fn record(stamp: u16, kind: u8, bank: u8) -> [u8; 4] {
    let mut out = [5; 5];
    let r = CaptureRecord { stamp, kind, bank };
    assert_eq!(write_capture_record(r, &mut out), Ok(()));
    assert_eq!(read_capture_record(&out[..4]), Ok(r));
    assert_eq!(out[4], 5);
    [out[0], out[1], out[2], out[3]]
}

fn tick(stamp: u16) -> [u8; 4] {
    record(stamp, 255, 0)
}

/// The answer with room for so many commands, and the commands.
fn judged(records: &[[u8; 4]], room: usize) -> (Result<Captured, Refusal>, Vec<Told>) {
    let mut commands = vec![5; 8 * room + 1];
    let answer = judge_capture(7, &bytes(A), &records.concat(), &mut commands[..8 * room]);
    assert_eq!(commands.pop(), Some(5));
    let written = answer.map_or(0, |told| told.commands as usize);
    assert!(commands[8 * written..].iter().all(|&b| b == 5));
    let command = |c: &[u8]| {
        let c = read_command(c).expect("8 bytes are a command");
        (c.cycle, c.kind, c.bank, c.number)
    };
    let commands = commands.chunks(8).take(written).map(command).collect();
    (answer, commands)
}

fn captured(commands: u32, verdict: Verdict) -> Result<Captured, Refusal> {
    Ok(Captured {
        edition: 7,
        commands,
        verdict,
    })
}

/// Example 3 of document 01, sent so that the wrap stands at each place, with ticks before and between.
#[test]
fn round_the_wrap() {
    let (write, read) = (transaction(1, 0, 1, 1), transaction(0, 0, 1, 1));
    let (built, _, _) = built(&[write, read]);
    for later in [0, 65_535, 65_530, 65_500, 65_482, 65_481] {
        let stamp = |cycle: u32| (cycle + later) as u16;
        let mut records = vec![tick(stamp(0).wrapping_sub(9))];
        for &(cycle, kind, bank, _) in &built {
            records.push(record(stamp(cycle), kind, bank));
            records.push(tick(stamp(cycle).wrapping_add(1)));
        }
        let later = later + if later < 9 { 65_536 } else { 0 };
        let (answer, commands) = judged(&records, 5);
        assert_eq!(answer, captured(4, Verdict::Accepted));
        let right = built
            .iter()
            .map(|&(cycle, kind, bank, _)| (cycle + later, kind, bank, 0));
        assert!(right.eq(commands));
    }
}

/// The verdict's record counts commands; those after it are written too.
#[test]
fn verdicts() {
    let early = [
        tick(0),
        record(1, 0, 0),
        tick(2),
        record(10, 2, 0),
        record(9, 255, 1),
    ];
    let broken = |rule, record| Verdict::Broken {
        rule,
        copy: 0,
        record,
    };
    let (answer, commands) = judged(&early, 3);
    assert_eq!(answer, captured(3, broken(8, 1)));
    assert_eq!(commands, [(1, 0, 0, 0), (10, 2, 0, 0), (65_545, 255, 1, 0)]);
    assert_eq!(judged(&early[..2], 1).0, captured(1, broken(10, 1)));
    assert_eq!(judged(&early[4..], 1).0, captured(1, broken(1, 0)));
    assert_eq!(judged(&early[..1], 0).0, captured(0, Verdict::Accepted));
    assert_eq!(judged(&[], 0).0, captured(0, Verdict::Accepted));
}

/// 7, 11, 5, in this order.
#[test]
fn refusals() {
    let same = [tick(3), tick(4), record(4, 0, 0), record(4, 0, 0)];
    let (table, mut room) = (bytes(A), [5; 16]);
    let odd = [&same.concat()[..], &[0]].concat();
    assert_eq!(refused(judge_capture(7, &table, &odd, &mut [])), (7, 0, 7));
    let long = vec![0; 4 * 69_633];
    assert_eq!(refused(judge_capture(7, &table, &long, &mut [])), (7, 0, 7));
    assert_eq!(refused(judged(&same, 0).0), (11, 2, 7));
    let good = [tick(3), record(4, 0, 0), record(3, 0, 0)].concat();
    assert_eq!(
        refused(judge_capture(7, &table, &good, &mut room[..15])),
        (5, 0, 7)
    );
    assert_eq!(room, [5; 16]);
    assert!(judge_capture(7, &table, &good, &mut room).is_ok());
    let r = CaptureRecord {
        stamp: 1,
        kind: 2,
        bank: 3,
    };
    let mut out = [5; 4];
    assert_eq!(refused(write_capture_record(r, &mut out[..3])), (5, 0, 0));
    assert_eq!(out, [5; 4]);
    assert_eq!(refused(read_capture_record(&out[..3])), (7, 0, 0));
    assert_eq!(refused(read_capture_record(&[0; 5])), (7, 0, 0));
}
