//! Patterns worked out by hand, and the refusals.

use super::plain::all_asked;
use super::*;
use crate::house::*;

fn of(table: &[u16], kind: u8, bi: u8, bc: u8) -> Option<(u32, Vec<Placed>)> {
    let most = 128;
    let told = shortest(&whole(table), &Asked { kind, bi, bc, most }, 48).ok()?;
    let placed = |c: &Command| (u64::from(c.cycle), c.kind, c.bank);
    Some((told.0, told.1.iter().map(placed).collect()))
}

/// Example 8 and example 10: no shorter pattern of one read is accepted.
#[test]
fn one_read() {
    let read = vec![(0, ACT, 0), (10, RDA, 0)];
    assert_eq!(of(&TABLE_A, 0, 1, 1), Some((38, read.clone())));
    assert_eq!(of(&TABLE_B, 0, 1, 1), Some((39, read)));
}

/// A write's tail: the next ACT comes 10 + 8 + 4 + 12 + 10 after the ACT.
#[test]
fn one_write() {
    let write = vec![(0, ACT, 0), (10, WRA, 0)];
    assert_eq!(of(&TABLE_A, 1, 1, 1), Some((44, write)));
}

/// "ACT1 at 8, not 6": at 6 the second bank's last write would come too late for its next ACT, or the first's would.
#[test]
fn the_earliest_second_act_need_not_fit() {
    let (length, pattern) = of(&TABLE_A, 1, 2, 2).expect("it fits");
    assert_eq!((length, pattern[1]), (48, (8, ACT, 1)));
}

/// In two groups the banks take turns: CCD across, the long one within.
#[test]
fn banks_of_two_groups_take_turns() {
    let table = grouped(&TABLE_A, 2, [30, 6, 6]);
    let (length, pattern) = of(&table, 0, 2, 2).expect("it fits");
    let banks: Vec<u8> = pattern.iter().filter(|p| p.1 != ACT).map(|p| p.2).collect();
    assert_eq!((length, banks), (60, vec![0, 1, 0, 1]));
}

fn refusal(asked: Asked, room: usize) -> Option<u8> {
    let told = shortest(&whole(&with(&[(BANKS, 2)])), &asked, room).err();
    told.map(|r| {
        assert_eq!((r.position, r.edition), (0, 7));
        r.number
    })
}

#[test]
fn refusals() {
    let asked = |kind, bi, bc, most| Asked { kind, bi, bc, most };
    for (kind, bi, bc, most, number) in [
        (0, 2, 2, 128, None),
        (2, 1, 1, 128, Some(4)),
        (255, 1, 1, 128, Some(4)),
        (0, 0, 1, 128, Some(4)),
        (0, 1, 0, 128, Some(4)),
        (0, 1, 5, 128, None),
        (0, 1, 6, 128, Some(4)),
        (0, 3, 1, 128, Some(4)),
        (0, 255, 255, 128, Some(4)),
        (0, 16, 15, 128, Some(4)),
        (1, 2, 2, 0, Some(4)),
        (1, 2, 2, 129, Some(4)),
        (1, 2, 2, u32::MAX, Some(4)),
        (0, 1, 1, 38, None),
        (0, 1, 1, 37, Some(13)),
        (0, 1, 1, 1, Some(13)),
    ] {
        assert_eq!(
            refusal(asked(kind, bi, bc, most), 48),
            number,
            "{kind} {bi} {bc} {most}"
        );
    }
    assert_eq!(refusal(asked(0, 1, 1, 128), 16), None);
    assert_eq!(refusal(asked(0, 1, 1, 128), 15), Some(5));
    // 4 goes before 5, and 5 before 13.
    assert_eq!(refusal(asked(0, 1, 1, 129), 0), Some(4));
    assert_eq!(refusal(asked(0, 1, 1, 1), 0), Some(5));
}

/// Banks 1: what asks for two gets number 4; nothing else does.
#[test]
fn bi_above_banks() {
    let table = whole(&with(&[(BANKS, 1)]));
    for asked in all_asked(128) {
        let told = shortest(&table, &asked, 48).err().map(|r| r.number);
        assert_eq!(told == Some(4), asked.bi > 1);
    }
}
