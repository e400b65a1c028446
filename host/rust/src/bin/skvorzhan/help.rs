//! The commands and their options, in one table: what is accepted, what `--help` prints, and what the man page must have.

pub struct Opt {
    pub name: &'static str,
    /// What its value is called; empty where it has none.
    pub value: &'static str,
    pub about: &'static str,
}

const fn opt(name: &'static str, value: &'static str, about: &'static str) -> Opt {
    Opt { name, value, about }
}

pub const OPTIONS: [Opt; 20] = [
    opt("--edition", "E", "the edition that you expect the table to have, 0 to 65535; a table of another edition is refused as number 10"),
    opt("--table", "FILE", "the timing table"),
    opt("--json", "", "print one JSON object instead of words"),
    opt("--length", "L", "the pattern's length in cycles; without it the one in the first line of the pattern's text"),
    opt("--bi", "N", "BI: how many banks"),
    opt("--bc", "N", "BC: data commands to each bank"),
    opt("--from", "CYCLE", "the cycle that the bound is counted from; without it only the number of cycles is told"),
    opt("--read", "", "a pattern of reads"),
    opt("--write", "", "a pattern of writes"),
    opt("--up-to", "L", "the greatest length, 1 to 128; without it 128"),
    opt("--list", "FILE", "the transactions: their finishes are drawn against the promised ones"),
    opt("--later", "", "a list's records have 8 bytes, with an arrival; a list as text says it itself"),
    opt("--time", "COLUMN", "the column of the time; without it `cycle` or `stamp`"),
    opt("--command", "COLUMN", "the column of the command, a name or a kind's number; without it `command`"),
    opt("--bank", "COLUMN", "the column of the bank; without it `bank`"),
    opt("--stamps", "", "the column of --time holds 16-bit stamps, which run round from 65535 to 0"),
    opt("--cycles", "", "the column of --time holds cycles, as it does if neither is said"),
    opt("--separator", "C", "what stands between two columns; without it a comma"),
    opt("-o", "FILE", "where the result goes; of trace, schedule and shortest their commands"),
    opt("--help", "", "print this"),
];

pub struct Command {
    pub name: &'static str,
    /// What follows the options.
    pub files: &'static [&'static str],
    pub options: &'static [&'static str],
    pub about: &'static str,
}

const fn command(
    name: &'static str,
    files: &'static [&'static str],
    options: &'static [&'static str],
    about: &'static str,
) -> Command {
    Command {
        name,
        files,
        options,
        about,
    }
}

pub const COMMANDS: [Command; 10] = [
    command(
        "judge",
        &["SCHEDULE"],
        &["--edition", "--table", "--json"],
        "Is the schedule legal? If not: the first record that breaks a rule, the rule, the earlier command that it is too near to, and the least cycle at which it would have been legal.",
    ),
    command(
        "pattern",
        &["PATTERN"],
        &["--edition", "--table", "--length", "--json"],
        "Is every number of copies of the pattern, set end to end, legal? If not: the copy, and the rest as for judge.",
    ),
    command(
        "schedule",
        &["LIST"],
        &["--edition", "--table", "--later", "-o", "--json"],
        "Builds the schedule of a list of transactions: its listing, with each finish and by when it is promised.",
    ),
    command(
        "bound",
        &[],
        &["--edition", "--table", "--bi", "--bc", "--from", "--json"],
        "By when must a transaction of BI banks and BC data commands to each have finished?",
    ),
    command(
        "trace",
        &["CAPTURE"],
        &[
            "--edition", "--table", "--time", "--command", "--bank", "--stamps", "--cycles", "--separator", "-o", "--json",
        ],
        "Judges the capture of a logic analyser, CSV or records of 4 bytes, by its true cycles.",
    ),
    command(
        "serves",
        &["LIST", "SCHEDULE"],
        &["--edition", "--table", "--later", "--json"],
        "Does the schedule do the work of the list? If not: the judge's verdict, or the lowest transaction at fault.",
    ),
    command(
        "shortest",
        &[],
        &["--edition", "--table", "--read", "--write", "--bi", "--bc", "--up-to", "-o", "--json"],
        "The shortest pattern that the table allows, BI x (1 + BC) at most 6.",
    ),
    command(
        "picture",
        &["SCHEDULE"],
        &["--edition", "--table", "--list", "--later", "-o", "--json"],
        "Draws the schedule as SVG, the record that breaks a rule in red. The verdict is told and gives the status as for judge.",
    ),
    command(
        "explain",
        &["NUMBER | rule NUMBER"],
        &["--json"],
        "What a refusal's number means, 1 to 13, and what to do; or what a rule says, 1 to 12.",
    ),
    command(
        "convert",
        &["table|list|schedule|pattern|capture", "FILE"],
        &["--later", "--time", "--command", "--bank", "--stamps", "--cycles", "--separator", "-o"],
        "Turns text into records, or records into text.",
    ),
];

const HEAD: &str = "\
skvorzhan: what the proved desk library says of SDRAM command schedules

usage: skvorzhan COMMAND [OPTIONS] FILES
       skvorzhan help COMMAND, or skvorzhan COMMAND --help

The table's edition is told first, always. The status is 0 for yes, 1 for a verdict against, 2 for a refusal, 3 for bad use: arguments that are
none of these, a file that cannot be read or written, text that holds something else than was expected.
";

const EXAMPLES: &str = "\
Examples

  skvorzhan judge    --edition 7 --table board.table schedule.txt
  skvorzhan pattern  --edition 7 --table board.table --length 39 pattern.txt
  skvorzhan schedule --edition 7 --table board.table list.txt
  skvorzhan bound    --edition 7 --table board.table --bi 4 --bc 2
  skvorzhan trace    --edition 7 --table board.table capture.csv
  skvorzhan serves   --edition 7 --table board.table list.txt schedule.txt
  skvorzhan shortest --edition 7 --table board.table --write --bi 2 --bc 2 --up-to 128
  skvorzhan picture  --edition 7 --table board.table --list list.txt schedule.txt -o schedule.svg
  skvorzhan explain  4
  skvorzhan explain  rule 7
  skvorzhan convert  table board.table -o board.bin
";

const FILES: &str = "\
Files. One whose name ends in .bin holds records, any other text; bytes:FILE and text:FILE say it outright. `-` is standard input or output.
In text `#` begins a comment, and blank lines say nothing. A capture's text is CSV.

  table      `record = 32` or `record = 40` first, then each number as `NAME = NUMBER`, in any order: edition, banks, B, CCD, RCD, RP,
             RAS, RC, RRD, FAW, RL, WL, RTP, WR, WTR, RFC, and of 40 also groups, long CCD, long RRD, long WTR
  list       a line each: `read START BI BC`, `write START BI BC`, `refresh`; `at ARRIVAL` behind it where it arrives later than cycle 0
  schedule   the listing's lines, `CYCLE KIND BANK TRANSACTION`, as `10 RDA 0 0`; the kinds are ACT, RD, RDA, WR, WRA, REF. A whole
             listing will do, with its first line and its finishes
  pattern    as a schedule
  capture    a row of column names, then a row each: the cycle or the 16-bit stamp, the command (a name, a number, or TICK, NOP or
             DES for a record without one), the bank
";

pub fn find(name: &str) -> Option<&'static Command> {
    COMMANDS.iter().find(|command| command.name == name)
}

fn usage(command: &Command) -> String {
    let mut words = vec!["skvorzhan".to_string(), command.name.to_string()];
    if command.options.contains(&"--edition") {
        words.push("--edition E --table FILE".to_string());
    }
    words.push("[OPTIONS]".to_string());
    words.extend(command.files.iter().map(|file| file.to_string()));
    words.join(" ")
}

/// At most so many columns.
const WIDTH: usize = 110;

/// The words in lines, each behind so many blanks.
fn wrapped(text: &str, indent: usize) -> String {
    let mut lines = String::new();
    let mut line = String::new();
    for word in text.split(' ') {
        if !line.is_empty() && indent + line.len() + 1 + word.len() > WIDTH {
            lines.push_str(&format!("{:indent$}{line}\n", ""));
            line.clear();
        }
        if !line.is_empty() {
            line.push(' ');
        }
        line.push_str(word);
    }
    lines + &format!("{:indent$}{line}\n", "")
}

fn options(named: impl Fn(&Opt) -> bool) -> String {
    let named = OPTIONS.iter().filter(|opt| named(opt));
    let lines = named.map(|opt| {
        let head = format!("{} {}", opt.name, opt.value);
        let about = wrapped(opt.about, 22);
        format!("  {:<20}{}", head.trim_end(), about.trim_start())
    });
    lines.collect()
}

pub fn of_all() -> String {
    let commands = COMMANDS.iter().map(|command| {
        let about = wrapped(command.about, 6);
        format!("  {}\n{about}", usage(command))
    });
    let commands: String = commands.collect();
    let options = options(|_| true);
    format!("{HEAD}\n{EXAMPLES}\nCommands\n\n{commands}\nOptions\n\n{options}\n{FILES}")
}

pub fn of(command: &Command) -> String {
    let about = wrapped(command.about, 0);
    let options = options(|opt| command.options.contains(&opt.name));
    format!("usage: {}\n\n{about}\n{options}\n{FILES}", usage(command))
}
