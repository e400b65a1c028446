//! A schedule or a pattern as text: the listing's own lines, `CYCLE KIND BANK TRANSACTION`. A whole listing is such a text too: its first line is held
//! against what follows, its finishes and a trace's verdict are passed over.

use crate::bad::{shown, Bad};
use crate::text::{kind, kind_text, lines, Line};
use skvorzhan::Command;

const FORM: &str = "CYCLE KIND BANK TRANSACTION";

#[derive(Debug, Clone, Default, PartialEq, Eq)]
pub struct Commands {
    pub commands: Vec<Command>,
    /// Of each command, where it was text.
    pub lines: Vec<usize>,
    /// What the first line of a listing says.
    pub edition: Option<u32>,
    pub length: Option<u32>,
}

pub fn read(file: &str, text: &str) -> Result<Commands, Bad> {
    let mut all = Commands::default();
    let mut promised = None;
    let mut ended = false;
    for line in lines(file, text) {
        match line.words[0] {
            "edition" if all.lines.is_empty() && promised.is_none() => {
                promised = Some((line.number, first_line(&line, &mut all)?));
            }
            "finish" => {
                line.number(1, "a transaction number", u16::MAX.into())?;
                line.number(2, "a finishing cycle", u32::MAX)?;
                line.ends_after(3, "finish TRANSACTION CYCLE")?;
                ended = true;
            }
            "accepted" | "record" => {
                verdict(&line)?;
                ended = true;
            }
            word if ended => {
                let found = shown(word);
                return Err(line.bad(format!(
                    "expected no command after the finishes or the verdict, not {found}"
                )));
            }
            _ => {
                all.commands.push(command(&line)?);
                all.lines.push(line.number);
            }
        }
    }
    let count = all.commands.len();
    match promised {
        Some((line, said)) if said as usize != count => Err(Bad::line(
            file,
            line,
            format!("expected {said} commands, as this line says; there are {count}"),
        )),
        _ => Ok(all),
    }
}

/// `edition E commands N`, or of a pattern `edition E length L commands N`; the number of commands.
fn first_line(line: &Line, all: &mut Commands) -> Result<u32, Bad> {
    all.edition = Some(line.number(1, "an edition", u16::MAX.into())?);
    let mut place = 2;
    if line.words.get(place) == Some(&"length") {
        all.length = Some(line.number(place + 1, "a length", u32::MAX)?);
        place += 2;
    }
    if line.words.get(place) != Some(&"commands") {
        return Err(line.bad("expected `edition E commands N`"));
    }
    let count = line.number(place + 1, "the number of commands", u32::MAX)?;
    line.ends_after(place + 2, "commands N")?;
    Ok(count)
}

/// `accepted`, or `record N breaks rule R`.
fn verdict(line: &Line) -> Result<(), Bad> {
    match line.words[..] {
        ["accepted"] | ["record", _, "breaks", "rule", _] => Ok(()),
        _ => Err(line.bad(format!("expected `{FORM}`, not {}", shown(line.text)))),
    }
}

fn command(line: &Line) -> Result<Command, Bad> {
    let cycle = line.number(0, "a cycle", u32::MAX)?;
    let word = line.words.get(1);
    let word = word.ok_or_else(|| line.bad(format!("expected `{FORM}`: the kind is missing")))?;
    let kind = kind(word).map_err(|what| line.bad(what))?;
    let bank = line.number(2, "a bank", u8::MAX.into())? as u8;
    let number = line.number(3, "a transaction number", u16::MAX.into())? as u16;
    line.ends_after(4, FORM)?;
    Ok(Command {
        cycle,
        kind,
        bank,
        number,
    })
}

pub fn line(c: &Command) -> String {
    let kind = kind_text(c.kind);
    format!("{} {kind} {} {}", c.cycle, c.bank, c.number)
}

pub fn write(commands: &[Command]) -> String {
    let lines = commands.iter().map(|c| format!("{}\n", line(c)));
    lines.collect()
}
