//! "For any legal schedule, written as a capture .., reading it gives the schedule's cycles, kinds and banks again."

use super::*;
use crate::hostile_listing::any_list;
use crate::records::EDITION;

/// The cases' numbers go to 255 only.
fn below(numbers: &mut Numbers, n: u64) -> u64 {
    let any = (0..4).fold(0, |any, _| 256 * any + u64::from(numbers.byte()));
    any % n
}

/// The same commands with some of the distances between neighbours made greater, up to so many cycles, and the first perhaps later: no
/// rule minds that.
fn spread(numbers: &mut Numbers, commands: &[Sent], one_in: usize, most: u64) -> Vec<Sent> {
    let mut by = 0;
    let moved = commands.iter().map(|&(cycle, kind, bank)| {
        if numbers.below(one_in) == 0 {
            by += below(numbers, most);
        }
        (cycle + by, kind, bank)
    });
    moved.collect()
}

/// More ticks: at cycles without a command or tick, and after the last.
fn more_ticks(numbers: &mut Numbers, sent: &mut Vec<Sent>) {
    for _ in 0..numbers.below(20) {
        let last = sent.last().map_or(0, |s| s.0);
        let at = match numbers.below(3) {
            0 => below(numbers, last.min(MOST_GAP) + 1),
            1 => last + 1 + below(numbers, MOST_GAP),
            _ => last.saturating_sub(numbers.below(3) as u64) + 1,
        };
        let place = sent.iter().position(|s| s.0 >= at);
        match place {
            Some(place) if sent[place].0 == at => (),
            Some(place) => sent.insert(place, tick(at)),
            None => sent.push(tick(at)),
        }
    }
}

/// Each clause of the sentence.
fn is_written_as_asked(schedule: &[Sent], sent: &[Sent]) {
    assert!(sent.len() <= MOST_RECORDS);
    assert!(sent.windows(2).all(|pair| pair[0].0 < pair[1].0));
    assert!(sent.iter().all(|s| s.0 <= NEVER.into()));
    assert!(sent.first().map_or(true, |s| s.0 < 65_536));
    assert!(sent.windows(2).all(|pair| pair[1].0 - pair[0].0 < 65_536));
    let commands = sent.iter().filter(|s| (s.1, s.2) != TICK);
    assert!(commands.eq(schedule));
}

#[test]
fn schedules_come_back() {
    let mut numbers = Numbers(6);
    let tables = [TABLE_A, TABLE_B, TABLE_C, LEAST, GREATEST, REFRESHED];
    let tables: Vec<Table> = tables.into_iter().chain(ODD).collect();
    let (mut wraps, mut ticks, mut bare) = (0, 0, 0);
    for round in 0..400 {
        let table = tables[round % tables.len()];
        let list = any_list(&table, round % 7, (4, 3), &mut numbers);
        let (bytes, _) = built(&table, &list);
        let (one_in, most) = [
            (1, 1),
            (2, 60_000),
            (3, 300_000),
            (1, 2_000),
            (8, 90_000_000),
        ][round % 5];
        let schedule = spread(&mut numbers, &of_schedule(&bytes), one_in, most);
        let near = [1, 2, 300, 65_535][round % 4];
        let mut sent = with_ticks(&schedule, || below(&mut numbers, near));
        more_ticks(&mut numbers, &mut sent);
        is_written_as_asked(&schedule, &sent);
        let mut room = vec![UNTOUCHED; bytes.len() + 1];
        let answer = judge_capture(
            table[EDITION],
            &bytes_of(&table),
            &capture(&sent),
            &mut room,
        );
        let right = Captured {
            edition: table[EDITION],
            commands: schedule.len() as u32,
            verdict: Verdict::Accepted,
        };
        assert_eq!((answer, room.pop()), (Ok(right), Some(UNTOUCHED)));
        assert_eq!(of_schedule(&room), schedule);
        wraps += usize::from(sent.last().map_or(false, |s| s.0 > MOST_GAP));
        ticks += usize::from(sent.len() > schedule.len());
        bare += usize::from(sent.len() == schedule.len() && !sent.is_empty());
    }
    assert!(
        wraps > 200 && ticks > 300 && bare > 10,
        "{wraps}, {ticks}, {bare}"
    );
}

/// As late as 32 bits hold: the last command at 4,294,967,295.
#[test]
fn up_to_the_last_cycle() {
    let (bytes, _) = built(&TABLE_A, &[[0, 0, 4, 2], [1, 3, 6, 3]]);
    let mut schedule = of_schedule(&bytes);
    let last = schedule.last().expect("there are commands").0;
    schedule
        .iter_mut()
        .for_each(|s| s.0 += u64::from(NEVER) - last);
    let sent = with_ticks(&schedule, || 0);
    is_written_as_asked(&schedule, &sent);
    assert_eq!(verdict(&capture(&sent)), Verdict::Accepted);
    let records: Vec<[u8; 4]> = capture(&sent)
        .chunks(4)
        .map(|r| [r[0], r[1], r[2], r[3]])
        .collect();
    assert_eq!(read(&records), schedule);
}
