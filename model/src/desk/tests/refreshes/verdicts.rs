//! Rules 1, 11 and 12 by the judge, and patterns with refreshes.

use super::*;
use crate::records::{whole, RRD};
use crate::rules::{first_broken, Record, Times, RD, WR};

/// The rule and the record that the judge names, if any.
fn broken(table: &[u16], records: &[(u32, u8, u8)]) -> Option<(u8, usize)> {
    let bytes: Vec<u8> = records
        .iter()
        .flat_map(|&(cycle, kind, bank)| command(cycle, kind, bank, 0))
        .collect();
    match judge(table[EDITION], &bytes_of(table), &bytes).expect("whole records") {
        (_, Verdict::Accepted) => None,
        (_, Verdict::Broken { rule, record }) => Some((rule, record)),
    }
}

/// "Rule 1 admits kind 5 with bank 0 only", under every table.
#[test]
fn rule_1() {
    for table in [TABLE_A, REFRESHED, GREATEST] {
        assert_eq!(broken(&table, &[(0, REF, 0)]), None);
        for bank in 1..=255 {
            assert_eq!(broken(&table, &[(0, REF, bank)]), Some((1, 0)));
        }
        for kind in 6..=255 {
            assert_eq!(broken(&table, &[(0, kind, 0)]), Some((1, 0)));
        }
    }
}

/// A REF is judged by rules 1, 2 and 11 where RFC is 0: rule 12 can't break.
#[test]
fn without_refresh() {
    assert_eq!(
        broken(&TABLE_A, &[(0, REF, 0), (1, REF, 0), (2, REF, 0)]),
        None
    );
    assert_eq!(broken(&TABLE_A, &[(1, REF, 0), (1, REF, 0)]), Some((2, 1)));
    let read = [(1, ACT, 0), (11, RDA, 0)];
    assert_eq!(
        broken(&TABLE_A, &[&[(0, REF, 0)], &read[..]].concat()),
        None
    );
    for (cycle, told) in [(38, Some((11, 2))), (39, None)] {
        let records = [&read[..], &[(cycle, REF, 0)]].concat();
        assert_eq!(broken(&TABLE_A, &records), told);
    }
}

/// Whether the last record, put at this cycle and at the one before it, breaks this rule at the earlier alone.
fn just_kept(table: &[u16], before: &[(u32, u8, u8)], last: (u32, u8, u8), rule: u8) {
    let (cycle, kind, bank) = last;
    let told = |cycle| broken(table, &[before, &[(cycle, kind, bank)]].concat());
    assert_eq!(told(cycle - 1), Some((rule, before.len())));
    assert_ne!(told(cycle).map(|(rule, _)| rule), Some(rule));
    assert!(matches!(told(cycle), None | Some((10, _))));
}

/// "Before a bank's precharge start + RP": by ACT + RAS, RD + RTP, WR + WL + B + WR, of bank 0 and of others.
#[test]
fn rule_11() {
    for bank in [0, 3, 7] {
        let after = |closing, at| [(0, ACT, bank), (at, closing, bank)];
        just_kept(&REFRESHED, &after(RDA, 10), (38, REF, 0), 11);
        just_kept(&REFRESHED, &after(RDA, 30), (46, REF, 0), 11);
        just_kept(&REFRESHED, &after(WRA, 10), (44, REF, 0), 11);
        let write_then_read = [(0, ACT, bank), (10, WR, bank), (28, RDA, bank)];
        let short_rtp = with(&[(RFC, 50), (12, 2)]);
        just_kept(&short_rtp, &write_then_read, (44, REF, 0), 11);
        // However late, while a bank is open.
        for before in [&after(RD, 10)[..], &after(WR, 10), &after(RD, 10)[..1]] {
            let records = [before, &[(60_000, REF, 0)]].concat();
            assert_eq!(broken(&REFRESHED, &records), Some((11, before.len())));
        }
    }
    // Two banks are closed, and the one that was closed first is ready last.
    let two = [(0, ACT, 0), (6, ACT, 1), (16, WRA, 1), (34, RDA, 0)];
    just_kept(&REFRESHED, &two, (50, REF, 0), 11);
}

/// "An ACT or REF less than RFC after a REF", whatever stands between.
#[test]
fn rule_12() {
    for rfc in [1, 2, 50, 255, 256, 1023] {
        let table = with(&[(RFC, rfc)]);
        let rfc = u32::from(rfc);
        if rfc > 1 {
            just_kept(&table, &[(9, REF, 0)], (9 + rfc, REF, 0), 12);
            just_kept(&table, &[(9, REF, 0)], (9 + rfc, ACT, 5), 12);
        }
        assert_eq!(broken(&table, &[(9, REF, 0), (9 + rfc, REF, 0)]), None);
    }
    let rfc_1023 = with(&[(RFC, 1023)]);
    let read = [(0, ACT, 0), (10, RDA, 0), (38, REF, 0)];
    just_kept(&rfc_1023, &read, (1061, ACT, 0), 12);
}

/// "Both are tested after rule 9": an ACT that breaks 5, 6 or 7 too is told that one. No REF breaks 11 and 12 at once, since no ACT comes
/// within RFC of the REF before it.
#[test]
fn the_order_of_the_rules() {
    let read = [(0, ACT, 0), (10, RDA, 0), (38, REF, 0)];
    for (place, bank, rule) in [(RC, 0, 5), (RRD, 1, 6)] {
        let table = with(&[(RFC, 50), (place, 60)]);
        let told = |cycle| broken(&table, &[&read[..], &[(cycle, ACT, bank)]].concat());
        assert_eq!(told(38), Some((2, 3)));
        assert_eq!(told(59), Some((rule, 3)));
        assert_eq!(told(60), Some((12, 3)));
        assert_eq!(told(87), Some((12, 3)));
        assert_eq!(told(88), Some((10, 4)));
    }
    let acts: Vec<(u32, u8, u8)> = (0..4).map(|k| (6 * k, ACT, k as u8)).collect();
    let reads = (0..4).map(|k| (30 + 4 * k, RDA, k as u8));
    let four: Vec<(u32, u8, u8)> = acts
        .into_iter()
        .chain(reads)
        .chain([(60, REF, 0)])
        .collect();
    let table = with(&[(RFC, 50), (FAW, 80)]);
    let told = |cycle| broken(&table, &[&four[..], &[(cycle, ACT, 7)]].concat());
    assert_eq!((told(79), told(80)), (Some((7, 9)), Some((12, 9))));
    assert_eq!((told(109), told(110)), (Some((12, 9)), Some((10, 10))));
}

/// A REF is no ACT: it is not among rule 6's, nor among rule 7's four, and it opens and closes nothing.
#[test]
fn no_act() {
    let rfc_1 = with(&[(RFC, 1), (RRD, 30), (FAW, 255)]);
    let refs = [(0, REF, 0), (1, REF, 0), (2, REF, 0), (3, REF, 0)];
    let told = |end: &[(u32, u8, u8)]| broken(&rfc_1, &[&refs[..], end].concat());
    assert_eq!(told(&[(4, ACT, 0), (14, RDA, 0)]), None);
    assert_eq!(told(&[(14, RDA, 0)]), Some((3, 4)));
    let read = [(4, ACT, 0), (14, RDA, 0)];
    assert_eq!(
        told(&[&read[..], &[(42, REF, 0), (43, ACT, 0)]].concat()),
        Some((10, 8))
    );
    assert_eq!(
        told(&[&read[..], &[(42, REF, 0), (43, RD, 0)]].concat()),
        Some((3, 7))
    );
    let mut five = vec![];
    for k in 0..5 {
        five.extend([
            (40 * k, ACT, 0),
            (40 * k + 10, RDA, 0),
            (40 * k + 39, REF, 0),
        ]);
    }
    five.truncate(14);
    assert_eq!(broken(&rfc_1, &five), Some((7, 12)));
    (five[12].0, five[13].0) = (255, 265);
    assert_eq!(broken(&rfc_1, &five), None);
}

/// A pattern that is legal once and is broken in its second copy, by rule 12 or 11.
#[test]
fn patterns() {
    let verdict = |records: &[(u32, u8, u8)], length| {
        let bytes: Vec<u8> = records
            .iter()
            .flat_map(|&(cycle, kind, bank)| command(cycle, kind, bank, 0))
            .collect();
        judge_pattern(70, &bytes_of(&REFRESHED), &bytes, length).map(|told| told.1)
    };
    let record = 0;
    let broken = |rule, copy| Ok(PatternVerdict::Broken { rule, copy, record });
    let accepted = Ok(PatternVerdict::Accepted);
    assert_eq!(verdict(&[(0, REF, 0)], 50), accepted);
    assert_eq!(verdict(&[(0, REF, 0)], 49), broken(12, 2));
    let refresh_last = [(0, ACT, 0), (10, RDA, 0), (38, REF, 0)];
    assert_eq!(verdict(&refresh_last, 88), accepted);
    assert_eq!(verdict(&refresh_last, 87), broken(12, 2));
    assert_eq!(verdict(&refresh_last, 38), broken(2, 2));
    let refresh_first = [(0, REF, 0), (50, ACT, 0), (60, WRA, 0)];
    assert_eq!(verdict(&refresh_first, 94), accepted);
    assert_eq!(verdict(&refresh_first, 93), broken(11, 2));
}

/// "Five copies decide": of twelve, the first that fails is 1, 2, 3 or 5, and after the second only by rule 7.
#[test]
fn five_copies_decide() {
    let mut numbers = Numbers(31);
    let mut seen = std::collections::BTreeSet::new();
    for _ in 0..4000 {
        let faw = numbers.of(&[5, 40, 90, 200]);
        let table = with(&[(RFC, numbers.of(&[0, 1, 7, 30, 80])), (FAW, faw)]);
        let (bytes, length) = any_pattern(&table, &mut numbers);
        let verdict = judge_pattern(7, &bytes_of(&table), &bytes, length);
        if let Ok((_, PatternVerdict::Broken { rule, copy, .. })) = verdict {
            assert!([1, 2, 3, 5].contains(&copy) && (copy < 3 || rule == 7));
            seen.insert((rule, copy));
        }
    }
    for both in [(11, 2), (12, 2), (7, 3), (7, 5)] {
        assert!(seen.contains(&both), "{both:?}");
    }
}

/// Reads, writes and refreshes one after the other, each as early as can be, and a length near the least.
fn any_pattern(table: &[u16], numbers: &mut Numbers) -> (Vec<u8>, u32) {
    let whole = whole(table);
    let mut records: Vec<Record> = Vec::new();
    let mut put = |kind, bank| {
        let from = records.last().map_or(0, |last| last.cycle + 1);
        let at = |cycle| Record { cycle, kind, bank };
        let fine = |&cycle: &u64| first_broken(&whole, &records, &at(cycle)).is_none();
        let cycle = (from..).find(fine).expect("time breaks no rule");
        records.push(at(cycle));
    };
    for _ in 0..1 + numbers.below(4) {
        let bank = numbers.below(3) as u8;
        match numbers.below(3) {
            0 => put(REF, 0),
            closing => {
                put(ACT, bank);
                put([RDA, WRA][closing - 1], bank);
            }
        }
    }
    let command = |r: &Record| command(r.cycle as u32, r.kind, r.bank, 0);
    let last = records[records.len() - 1].cycle;
    let length = last + 1 + numbers.below(100) as u64 % (Times::of(&whole).rfc + 60);
    (records.iter().flat_map(command).collect(), length as u32)
}
