//! Runs from states that tell a last REF, or none.

use super::*;
use crate::rules::RD;

/// From a state under table A with RFC 50 and a list that was lent before: what goes in so many cycles.
fn ran(c: &Controller, list: &[[u8; 4]], count: u32) -> Result<Vec<(u32, u8)>, Refusal> {
    let (mut c, mut room) = (c.clone(), vec![0; room_for(list)]);
    c.lent = list.len() as u32;
    let table = bytes_of(&REFRESHED);
    let told = run_bytes(&mut c, 70, &table, &list.concat(), count, &mut room)?;
    let gone = commands_of(&room[..8 * told.commands as usize]);
    Ok(gone.iter().map(|c| (c.cycle, c.kind)).collect())
}

/// "The running state tells the last REF's cycle": "never" in a fresh one, a stored cycle for number 9, and what rule 12 reads.
#[test]
fn the_last_refresh() {
    let mut c = Controller::fresh(&REFRESHED);
    assert_eq!(c.refresh, NEVER);
    c.cycle = 100;
    for (last, first) in [
        (NEVER, 100),
        (0, 100),
        (49, 100),
        (50, 100),
        (51, 101),
        (99, 149),
    ] {
        c.refresh = last;
        assert_eq!(
            ran(&c, &[READ], 60),
            Ok(vec![(first, ACT), (first + 10, RDA)])
        );
        assert_eq!(ran(&c, &[REFRESH], 60), Ok(vec![(first, REF)]));
    }
    for last in [100, 101, NEVER - 1] {
        c.refresh = last;
        assert_eq!(told(ran(&c, &[READ], 60)), (9, 0, 70));
        assert_eq!(told(ran(&c, &[], 0)), (9, 0, 70));
    }
    // What it leaves behind.
    let (_, mut c) = start(70, &bytes_of(&REFRESHED));
    let list = [transaction(0, 0, 1, 1), refresh()];
    run(&mut c, 70, &bytes_of(&REFRESHED), &list, 99, &mut [0; 24]).expect("nothing is refused");
    let mut same = Controller::fresh(&REFRESHED);
    (same.cycle, same.acts, same.datas, same.refresh, same.lent) = (39, 2, 1, 38, 2);
    (same.banks[0].act, same.banks[0].rd) = (0, 10);
    same.last[0] = 0;
    (same.groups[0].act, same.groups[0].rd) = (0, 10);
    assert_eq!(c, same);
}

/// Rule 11 by what a state tells: an open bank bars for good, a bank whose ACT is "never" counts its RD and WR, and what lies past the
/// table's banks is not read.
#[test]
fn refreshes_from_strange_states() {
    let mut fresh = Controller::fresh(&REFRESHED);
    fresh.cycle = 100;
    let goes_at = |change: &dyn Fn(&mut Controller)| {
        let mut c = fresh.clone();
        change(&mut c);
        ran(&c, &[REFRESH], 99).map(|gone| gone.first().map(|c| c.0))
    };
    assert_eq!(goes_at(&|_| ()), Ok(Some(100)));
    for bank in 0..8 {
        assert_eq!(goes_at(&|c| c.banks[bank].opened = 1), Ok(None));
        assert_eq!(goes_at(&|c| c.banks[bank].act = 99), Ok(Some(137)));
        assert_eq!(goes_at(&|c| c.banks[bank].rd = 99), Ok(Some(115)));
        assert_eq!(goes_at(&|c| c.banks[bank].wr = 99), Ok(Some(133)));
    }
    for bank in 8..16 {
        assert_eq!(goes_at(&|c| c.banks[bank].opened = 1), Ok(Some(100)));
        assert_eq!(goes_at(&|c| c.banks[bank].act = NEVER - 1), Ok(Some(100)));
    }
    // It is no ACT and no data command: RC, RRD, FAW and the distances don't hold it.
    assert_eq!(goes_at(&|c| c.last = [99; 4]), Ok(Some(100)));
    let latest = Group {
        act: 99,
        rd: 99,
        wr: 99,
    };
    assert_eq!(goes_at(&|c| c.groups = [latest; 8]), Ok(Some(100)));
    // RFC doesn't hold a data command, and the data command is first when both could go.
    let mut open = fresh.clone();
    (open.banks[3].opened, open.acts, open.refresh) = (1, 1, 99);
    let list = [[0, 3, 1, 2], REFRESH];
    let gone = vec![(100, RD), (104, RDA), (149, REF)];
    assert_eq!(ran(&open, &list, 99), Ok(gone));
}

/// "REFs count as places": the data command behind a REF has had its ACT once two have left the ACT queue.
#[test]
fn places_in_the_queue() {
    let mut c = Controller::fresh(&REFRESHED);
    c.cycle = 100;
    let list = [REFRESH, READ, REFRESH, WRITE];
    for (acts, datas, refused) in [
        (1, 0, false),
        (1, 1, true),
        (2, 1, false),
        (3, 2, true),
        (4, 2, false),
        (4, 3, true),
        (5, 2, true),
    ] {
        (c.acts, c.datas) = (acts, datas);
        let answer = ran(&c, &list, 0);
        assert_eq!(answer.is_err(), refused, "{acts} {datas}");
    }
    // An open bank is not enough: the REF has gone, the ACT has not.
    (c.acts, c.datas, c.banks[0].opened) = (1, 0, 1);
    assert_eq!(ran(&c, &list, 99), Ok(vec![]));
    c.acts = 2;
    let gone = vec![(100, RDA), (116, REF), (166, ACT), (176, WRA)];
    assert_eq!(ran(&c, &list, 99), Ok(gone));
}
