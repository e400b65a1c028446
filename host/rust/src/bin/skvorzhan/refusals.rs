//! The refusals: cause, position and cure, in the words of the table in README.md (a test holds the two together).

pub struct Meaning {
    pub number: u32,
    pub cause: &'static str,
    pub position: &'static str,
    pub cure: &'static str,
    /// What else there is to say where this tool tells it, or cannot.
    pub here: &'static str,
}

const fn meaning(
    number: u32,
    cause: &'static str,
    position: &'static str,
    cure: &'static str,
    here: &'static str,
) -> Meaning {
    Meaning {
        number,
        cause,
        position,
        cure,
        here,
    }
}

/// In the order in which they are checked for most calls.
pub const MEANINGS: [Meaning; 13] = [
    meaning(
        1,
        "the table is neither 32 nor 40 bytes",
        "0",
        "send the bytes of the table, all of them, and nothing else",
        "",
    ),
    meaning(
        2,
        "a number of the table is out of range (edition 1 to 65,535, banks 1 to 16, RFC 0 to 1,023, the others 1 to 1,023; groups 1 to 8 and at most banks), CCD is below 2 or below B, a long number is below its short one",
        "0",
        "correct the table; compare it with the device's figures",
        "",
    ),
    meaning(
        10,
        "the table is of another edition than the caller expects; an expected edition of 0 is always another",
        "the table's edition",
        "find out which of the two editions is the board's; then send that table, or expect that edition",
        "--edition says which edition is expected.",
    ),
    meaning(
        3,
        "the transactions' bytes are no multiple of 4, or of 8 for records with an arrival, or they are over 256, or there are too few places to decode into",
        "0",
        "cut the list, or lend more places; see that the call is the one for these records",
        "This tool lends places enough. --later says of a file of records that they have 8 bytes.",
    ),
    meaning(
        4,
        "a transaction is out of range: type above 2, BI or BC outside 1 to 16, start not below banks, BI above banks; a refresh (type 2) where RFC is 0, or with start, BI or BC not 0; an arrival above 20,000,000, or less than that of the transaction before it",
        "its number, the lowest, in the whole list",
        "correct that transaction, or put the list in the order of its arrivals; for the bound, BI or BC themselves; for the shortest pattern, the type, BI, BC or the greatest length",
        "A shortest pattern is looked for with BI and BC from 1, BI x (1 + BC) at most 6 and a greatest length of 1 to 128.",
    ),
    meaning(
        5,
        "too little room for commands: 8 bytes for each that is due, or, for a run, for each that it can write",
        "0",
        "lend more room, or run fewer cycles",
        "This tool lends room for the longest schedule, so it never tells this number; a board's own program may.",
    ),
    meaning(
        6,
        "fewer finishing cycles lent than the list has transactions",
        "0",
        "lend one 32-bit number for each transaction",
        "This tool lends 256 places, so it never tells this number; a board's own program may.",
    ),
    meaning(
        7,
        "the schedule's bytes are no multiple of 8, or a capture's no multiple of 4, or over 69,632 records",
        "0",
        "send whole records",
        "",
    ),
    meaning(8, "the pattern's length is 0", "0", "give the length in cycles", "--length gives it."),
    meaning(
        9,
        "the running state cannot go on: its cycle is 100,000,000 or more, its edition is not the table's, a stored command cycle is not before its own, more commands have gone than the list has, a data command has gone before its ACT, or more transactions were lent before than the list has",
        "0",
        "start a new controller with this table, or hand in the table and the list that it was started with, all of it so far",
        "This tool runs no controller, so it never tells this number; a board's own program may.",
    ),
    meaning(
        11,
        "a capture's stamp is the one of the record before it, or its true cycle is above 4,294,967,295",
        "that record's number, the lowest, ticks counted",
        "let the analyser send a tick before 65,536 cycles have passed, and each record once",
        "",
    ),
    meaning(
        12,
        "a run's piece is late: the first transaction that was not lent before arrives below the controller's cycle; one of 4 bytes arrives at 0",
        "0",
        "give it the controller's cycle for its arrival, or a later one, and so those behind it; next time lend it before that cycle is run",
        "This tool runs no controller, so it never tells this number; a board's own program may.",
    ),
    meaning(
        13,
        "no pattern is as short as the greatest length",
        "0",
        "allow a greater length, up to 128, or fewer banks or data commands",
        "--up-to gives the greatest length.",
    ),
];

pub fn of(number: u32) -> Option<&'static Meaning> {
    MEANINGS.iter().find(|meaning| meaning.number == number)
}
