//! Does a schedule serve a list?

use crate::Folder;

const LIST: &str = "read 0 1 1\nwrite 1 1 1\n";

#[track_caller]
fn told(schedule: &str, words: &str) {
    let folder = Folder::new();
    folder.put("l.txt", LIST);
    folder.put("s.txt", schedule);
    let told = folder.by_a("serves l.txt s.txt");
    let status = i32::from(!words.contains("\nserves"));
    assert_eq!((told.status, told.out.as_str()), (status, words));
}

#[test]
fn it_does() {
    told(
        "0 ACT 0 0\n6 ACT 1 1\n10 RDA 0 0\n18 WRA 1 1\n",
        "edition 7\nserves: the schedule is legal and does the work of the list, transactions: 2\n",
    );
}

#[test]
fn a_transaction_is_at_fault() {
    let cause = "cause: a command of its is missing, repeated or not its own, a bank that it reads or writes was opened last under another number, \
                 a data command of its stands behind one that the queue places later, or its REF does not stand between the commands before it and those after it\n";
    told(
        "0 ACT 0 0\n10 RDA 0 0\n",
        &format!("edition 7\ntransaction 1 is at fault, the lowest that is\ntransaction 1 (line 2): write 1 1 1\n{cause}"),
    );
}

#[test]
fn a_number_is_outside_the_list() {
    told(
        "0 ACT 0 0\n6 ACT 1 1\n10 RDA 0 0\n18 WRA 1 1\n100 ACT 3 2\n110 RDA 3 2\n",
        "edition 7\nevery transaction is served, but a record's number is outside the list\n\
         the first is record 4 (line 5): cycle 100, ACT, bank 3, transaction 2\n",
    );
}

#[test]
fn the_judges_verdict_comes_first() {
    told(
        "0 ACT 0 0\n5 ACT 1 1\n10 RDA 0 0\n18 WRA 1 1\n",
        "edition 7\nrecord 1 breaks rule 6\nrule 6: ACT less than RRD after any ACT\nrecord 1 (line 2): cycle 5, ACT, bank 1, transaction 1\n\
         too near to record 0 (line 1): cycle 0, ACT, bank 0, transaction 0\nthe least cycle at which it would have been legal is 6\n\
         so it does not serve the list: mend that record first\n",
    );
}
