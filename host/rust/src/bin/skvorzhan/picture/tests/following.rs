use super::super::follows::{Follows, Opened};
use super::super::Finish;
use super::{commands, example_5, scene, TABLE_A};

/// From, precharge start and precharged, of each bank in turn.
fn spans(opened: &[Opened]) -> Vec<(u8, i64, i64, i64)> {
    let one = |o: &Opened| (o.bank, o.from, o.start, o.precharged);
    opened.iter().map(one).collect()
}

#[test]
fn example_5_opens_four_banks() {
    let follows = Follows::of(&example_5());
    let right = [
        (0, 0, 28, 38),
        (1, 6, 34, 44),
        (2, 12, 40, 50),
        (3, 19, 47, 57),
    ];
    assert_eq!(spans(&follows.opened), right);
}

/// docs/PINS.md: "32 (20 to 51, each)".
#[test]
fn example_5_holds_the_pins_from_20_to_51() {
    let follows = Follows::of(&example_5());
    let bursts: Vec<_> = follows.bursts.iter().map(|h| (h.from, h.until)).collect();
    let right: Vec<_> = (0..8).map(|n| (20 + 4 * n, 24 + 4 * n)).collect();
    assert_eq!(bursts, right);
}

/// "Precharge counted from the closing command alone": the write before it decides.
#[test]
fn example_11_precharges_from_the_write() {
    let mut table = TABLE_A;
    table[12] = 2;
    let all = [(0, 0, 0, 0), (10, 3, 0, 0), (28, 2, 0, 0)];
    let follows = Follows::of(&scene(table, commands(&all)));
    assert_eq!(spans(&follows.opened), [(0, 0, 34, 44)]);
}

#[test]
fn a_bank_that_is_never_closed_is_open_to_the_end() {
    let follows = Follows::of(&scene(TABLE_A, commands(&[(5, 0, 2, 0), (20, 1, 2, 0)])));
    assert_eq!(spans(&follows.opened), [(2, 5, i64::MAX, i64::MAX)]);
    assert!(!follows.opened[0].closed);
}

#[test]
fn a_count_starts_at_the_later_of_arrival_and_predecessor() {
    let finish = |transaction, kind, arrival, finish| Finish {
        transaction,
        kind,
        arrival,
        finish,
        promised: u32::MAX,
    };
    let mut scene = scene(TABLE_A, Vec::new());
    // A read of 24 had its last command at 10, a write of 40 at 40; a refresh counts to its finish.
    scene.finishes = vec![
        finish(0, 0, 0, 24),
        finish(1, 1, 0, 40),
        finish(2, 2, 30, 120),
        finish(3, 0, 500, 524),
        finish(4, 0, 500, 562),
    ];
    assert_eq!(Follows::of(&scene).counts, [0, 10, 40, 500, 510]);
}
