//! The timing rules, with document 01's sentences as document 02's requests leave them.

pub struct Rule {
    pub number: u32,
    /// Broken when.
    pub sentence: &'static str,
    /// What the sentence leans on.
    pub more: &'static str,
}

const fn rule(number: u32, sentence: &'static str, more: &'static str) -> Rule {
    Rule {
        number,
        sentence,
        more,
    }
}

pub const RULES: [Rule; 12] = [
    rule(
        1,
        "kind above 5, or bank not below banks, or a REF with a bank other than 0",
        "The kinds are 0 ACT, 1 RD, 2 RDA, 3 WR, 4 WRA and 5 REF. No other cycle makes such a record legal.",
    ),
    rule(
        2,
        "cycle not greater than the record's before it",
        "One command at most goes at each cycle, and records stand in the order of their cycles.",
    ),
    rule(
        3,
        "ACT to an open bank, or a data command to a closed one",
        "A bank is open from its ACT to the RDA or WRA that closes it. No later cycle makes such a record legal.",
    ),
    rule(
        4,
        "ACT before precharge start + RP of its bank",
        "A bank's precharge starts at the greatest of: its ACT + RAS, each RD since that ACT + RTP, each WR since that ACT + WL + B + WR.",
    ),
    rule(5, "ACT less than RC after the bank's last ACT", "Of the same bank alone."),
    rule(
        6,
        "ACT less than RRD after any ACT",
        "Within a bank group it is the long RRD. A bank's group is its number modulo the number of groups; a table of 32 bytes has one.",
    ),
    rule(
        7,
        "ACT less than FAW after the fourth ACT before it",
        "Of any banks, and across transactions: no five ACTs within FAW cycles.",
    ),
    rule(8, "data command less than RCD after its bank's ACT", "RD, RDA, WR and WRA are data commands."),
    rule(
        9,
        "data command nearer to an earlier one than their distance",
        "RD to RD and WR to WR: CCD. RD to WR: the greater of CCD and RL + CCD + 2 - WL. WR to RD: the greater of CCD and WL + B + WTR. RD means RD or RDA, WR means WR or WRA. \
         Within a bank group CCD and WTR are the long ones.",
    ),
    rule(
        10,
        "at the end a bank is open; the record number is then the count",
        "Close it with RDA or WRA for its last data command.",
    ),
    rule(
        11,
        "a REF with a bank open or before a bank's precharge start + RP",
        "Of every bank. It is tested after rule 9. With a bank open no later cycle makes it legal.",
    ),
    rule(12, "an ACT or REF less than RFC after a REF", "It is tested after rule 11."),
];

pub fn sentence(number: u32) -> &'static str {
    let found = RULES.iter().find(|rule| rule.number == number);
    found.map_or("", |rule| rule.sentence)
}
