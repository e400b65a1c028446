//! An edition that is not expected.

use super::*;

/// Every call that is lent a table: the table that is refused by 1 or 2 first, then another edition, then all else.
#[test]
fn editions() {
    let (short, mut ccd_1, mut none) = (bytes(A)[..31].to_vec(), bytes(A), bytes(A));
    ccd_1[6] = 1;
    none[0] = 0;
    let mut large = A;
    large[0] = 65_535;
    for (expected, table, told) in [
        (0, &short[..], (1, 0, 0)),
        (7, &short, (1, 0, 0)),
        (8, &ccd_1, (2, 0, 0)),
        (0, &none, (2, 0, 0)),
        (0, &bytes(A), (10, 7, 7)),
        (6, &bytes(A), (10, 7, 7)),
        (8, &bytes(A), (10, 7, 7)),
        (7 << 8, &bytes(A), (10, 7, 7)),
        (0, &bytes(large), (10, 65_535, 65_535)),
        (65_534, &bytes(large), (10, 65_535, 65_535)),
    ] {
        first_of_all(expected, table, told);
    }
}

/// With nothing else wrong, and with each other thing wrong.
fn first_of_all(e: u16, table: &[u8], told: (u32, u32, u32)) {
    let (good, beyond) = (transaction(0, 0, 1, 1), transaction(0, 8, 1, 1));
    let mut fresh = start(7, &bytes(A)).expect("the table is accepted");
    assert_eq!(refused(start(e, table)), told);
    for list in [&[good][..], &[beyond], &[good; 257]] {
        for (size, slots, odd) in [(4_112, 257, 0), (4_112, 257, 1), (0, 0, 0)] {
            let (mut room, mut places) = (vec![5; size], vec![5; slots]);
            let mut decoded = vec![beyond; slots];
            let bytes: Vec<u8> = list
                .iter()
                .flat_map(|x| [x.kind, x.start, x.bi, x.bc])
                .chain(vec![9; odd])
                .collect();
            for decode in [read_transactions, read_later_transactions] {
                assert_eq!(refused(decode(e, table, &bytes, &mut decoded)), told);
            }
            assert_eq!(
                refused(schedule(e, table, list, &mut room, &mut places)),
                told
            );
            for build in [schedule_bytes, schedule_later_bytes] {
                let answer = build(e, table, &bytes, &mut room, &mut places);
                assert_eq!(refused(answer), told);
            }
            for (edition, cycle) in [(7, 0), (e.into(), 0), (7, 100_000_000)] {
                fresh.edition = edition;
                fresh.cycle = cycle;
                let mut c = fresh;
                assert_eq!(refused(run(&mut c, e, table, list, 9, &mut room)), told);
                assert_eq!(refused(step(&mut c, e, table, list, &mut room)), told);
                assert_eq!(c, fresh);
                for run in [run_bytes, run_later_bytes] {
                    let (c, ran) = run(c, e, table, &bytes, 9, &mut room);
                    assert_eq!((refused(ran), c), (told, fresh));
                }
            }
            assert!(room.iter().all(|&b| b == 5) && places.iter().all(|&n| n == 5));
            assert!(decoded.iter().all(|&x| x == beyond));
        }
    }
    for size in [0, 8, 9] {
        assert_eq!(refused(judge(e, table, &vec![0; size])), told);
        for length in [0, 40] {
            assert_eq!(
                refused(judge_pattern(e, table, &vec![0; size], length)),
                told
            );
        }
    }
    for (size, room) in [(0, 0), (8, 16), (8, 0), (9, 18)] {
        let mut commands = vec![5; room];
        let answer = judge_capture(e, table, &vec![0; size], &mut commands);
        assert_eq!((refused(answer), commands), (told, vec![5; room]));
    }
    for bi in [1, 9, 0] {
        assert_eq!(refused(bound(e, table, bi, 1)), told);
    }
}
