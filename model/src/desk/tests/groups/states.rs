//! Runs from states that tell each group's latest ACT, RD and WR.

use super::*;
use crate::desk::tests::refusals::Told;

/// From cycle 100 under table D, with one command of bank 1 next, an ACT or a data command: at which cycle it goes, or the refusal.
fn goes_at(kind: u8, opened: bool, change: &dyn Fn(&mut Controller)) -> Result<u32, Told> {
    let mut c = Controller::fresh(&TABLE_D);
    (c.cycle, c.acts, c.banks[1].opened, c.lent) = (100, opened.into(), opened.into(), 1);
    change(&mut c);
    let (mut room, table) = ([0; 16], bytes_of(&TABLE_D));
    let answer = run_bytes(&mut c, 7, &table, &[kind, 1, 1, 1], 60, &mut room);
    match answer {
        Ok(_) => Ok(read_command(&room[..8]).expect("8 bytes").cycle),
        Err(r) => Err((r.number, r.position, r.edition)),
    }
}

/// "In a run rule 9 reads the groups' reads and writes, and rule 6 the groups' latest ACTs, no longer the first of the four."
#[test]
fn what_the_rules_read() {
    for group in 0..8 {
        // Group 1 is the bank's own; those from 4 on are not the table's.
        let by = |long: u32, short: u32| match group {
            1 => 99 + long,
            0..=3 => 99 + short,
            _ => 100,
        };
        let act = goes_at(0, false, &|c| c.groups[group].act = 99);
        assert_eq!(act, Ok(by(20, 6)));
        for (kind, of_rd, of_wr) in [(0, by(9, 4), by(25, 18)), (1, by(13, 8), by(9, 4))] {
            let after_rd = goes_at(kind, true, &|c| c.groups[group].rd = 99);
            let after_wr = goes_at(kind, true, &|c| c.groups[group].wr = 99);
            assert_eq!((after_rd, after_wr), (Ok(of_rd), Ok(of_wr)));
        }
        // An ACT is held by no read or write, and a data command by no ACT but its bank's.
        let data = goes_at(0, true, &|c| c.groups[group].act = 99);
        let act = goes_at(0, false, &|c| {
            (c.groups[group].rd, c.groups[group].wr) = (99, 99)
        });
        assert_eq!((data, act), (Ok(100), Ok(100)));
    }
    assert_eq!(goes_at(0, false, &|c| c.last = [99, 98, 97, 60]), Ok(100));
    assert_eq!(goes_at(0, false, &|c| c.last = [99, 98, 97, 96]), Ok(128));
}

/// Number 9 looks at the table's groups, each of the three numbers, and not past them; the first of the four is still a stored cycle.
#[test]
fn number_9() {
    for group in 0..8 {
        for stored in [100, 101, NEVER - 1] {
            let number = if group < 4 { Err((9, 0, 7)) } else { Ok(100) };
            assert_eq!(goes_at(0, false, &|c| c.groups[group].act = stored), number);
            assert_eq!(goes_at(0, false, &|c| c.groups[group].rd = stored), number);
            assert_eq!(goes_at(0, false, &|c| c.groups[group].wr = stored), number);
        }
        assert!(goes_at(0, false, &|c| c.groups[group].act = NEVER).is_ok());
    }
    for place in 0..4 {
        assert_eq!(goes_at(0, false, &|c| c.last[place] = 100), Err((9, 0, 7)));
    }
}

/// "Nothing kept past the table's groups is read or changed", whatever bits stand there; within them each command is noted in its group.
#[test]
fn past_the_groups() {
    for table in group_tables() {
        let (groups, banks) = (usize::from(table[GROUPS]), table[BANKS] as u8);
        let list = [[1, banks - 1, banks.min(4), 2], [0, banks / 2, 1, 1]];
        let (edition, bytes) = (table[EDITION], bytes_of(&table));
        let (_, mut clean) = start(edition, &bytes);
        let mut c = clean.clone();
        for (n, group) in (0..).zip(&mut c.groups[groups..]) {
            (group.act, group.rd, group.wr) = (n, NEVER - 1 - n, 7 * n);
        }
        let kept = c.groups;
        let (mut room, mut same) = (vec![0; room_for(&list)], vec![0; room_for(&list)]);
        let run = |c: &mut Controller, room: &mut [u8]| {
            run_bytes(c, edition, &bytes, &list.concat(), u32::MAX, room)
        };
        assert_eq!(run(&mut c, &mut room), run(&mut clean, &mut same));
        assert_eq!(room, same);
        assert_eq!(c.groups[groups..], kept[groups..]);
        assert_eq!(c.groups[..groups], clean.groups[..groups]);
        let mut latest = [Group {
            act: NEVER,
            rd: NEVER,
            wr: NEVER,
        }; 8];
        for gone in commands_of(&room) {
            let group = &mut latest[usize::from(gone.bank) % groups];
            match gone.kind {
                ACT => group.act = gone.cycle,
                RD | RDA => group.rd = gone.cycle,
                _ => group.wr = gone.cycle,
            }
        }
        assert_eq!(clean.groups, latest);
    }
}
