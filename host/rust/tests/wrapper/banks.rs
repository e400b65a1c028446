//! Transactions that go over the last bank.

use super::*;

/// Example 12: with 8 banks, bank 0 comes after bank 7.
#[test]
fn over_the_last_bank() {
    let (commands, finishes, built_bytes) = built(&[transaction(0, 7, 2, 1)]);
    assert_eq!(
        commands,
        [(0, 0, 7, 0), (6, 0, 0, 0), (10, 2, 7, 0), (16, 2, 0, 0)]
    );
    assert_eq!(finishes, [30]);
    let accepted = Ok((7, Verdict::Accepted));
    assert_eq!(judge(7, &bytes(A), &built_bytes), accepted);
    // All banks, from every start.
    for start in 0..8 {
        let list = [transaction(1, start, 8, 2), transaction(0, start, 8, 1)];
        let (commands, _, _) = built(&list);
        let acts = commands.iter().filter(|c| c.1 == 0);
        let banks: Vec<u8> = acts.map(|c| c.2).collect();
        let order: Vec<u8> = (0..16).map(|k| (start + k) % 8).collect();
        assert_eq!(banks, order);
    }
    let mut places = [transaction(0, 0, 1, 1); 3];
    let told = read_transactions(7, &bytes(A), &[1, 7, 8, 1, 0, 7, 2, 16], &mut places);
    assert_eq!(told.map(|d| d.transactions), Ok(2));
    assert_eq!(places[0], transaction(1, 7, 8, 1));
    for bad in [[0, 8, 1, 1], [0, 0, 9, 1], [0, 7, 9, 1]] {
        let list = [[1, 7, 8, 1], bad].concat();
        let told = read_transactions(7, &bytes(A), &list, &mut places);
        assert_eq!(refused(told), (4, 1, 7));
    }
    for (record, told) in [
        ([1, 15, 16, 16], Ok(transaction(1, 15, 16, 16))),
        ([1, 16, 1, 1], Err((4, 0, 0))),
        ([1, 0, 17, 1], Err((4, 0, 0))),
    ] {
        let got = read_transaction(&record);
        assert_eq!(got.map_err(|r| (r.number, r.position, r.edition)), told);
    }
}
