//! The arguments of one command, held to the table in `help`.

use crate::bad::{shown, Bad};
use crate::capture_text::{Columns, Time};
use crate::desk::{self, Table};
use crate::files::Place;
use crate::help::{Command, OPTIONS};
use crate::text::number;

#[derive(Debug, Clone, Default)]
pub struct Given {
    options: Vec<(&'static str, String)>,
    pub files: Vec<String>,
}

impl Given {
    /// An option's value stands behind it, or behind `=`. After `--` all are files.
    pub fn parse(command: &Command, arguments: &[String]) -> Result<Given, Bad> {
        let mut given = Given::default();
        let mut rest = arguments.iter();
        while let Some(argument) = rest.next() {
            if argument == "--" {
                given.files.extend(rest.cloned());
                break;
            }
            if argument == "-" || !argument.starts_with('-') {
                given.files.push(argument.clone());
                continue;
            }
            let (name, value) = match argument.split_once('=') {
                Some((name, value)) => (name, Some(value.to_string())),
                None => (argument.as_str(), None),
            };
            let known = OPTIONS.iter().find(|opt| opt.name == name);
            let known = known.filter(|opt| command.options.contains(&opt.name));
            let opt = known.ok_or_else(|| unknown(command, name))?;
            let value = match (opt.value, value) {
                ("", None) => String::new(),
                ("", Some(_)) => return Err(Bad::usage(format!("{name} takes no value"))),
                (_, Some(value)) => value,
                (what, None) => {
                    let next = rest.next().cloned();
                    next.ok_or_else(|| Bad::usage(format!("expected {name} {what}")))?
                }
            };
            if given.value(opt.name).is_some() {
                return Err(Bad::usage(format!("{name} is given twice")));
            }
            given.options.push((opt.name, value));
        }
        given.standard_input_once()?;
        Ok(given)
    }

    fn standard_input_once(&self) -> Result<(), Bad> {
        let named = ["--table", "--list"].iter().filter_map(|o| self.value(o));
        let all = named.chain(self.files.iter().map(String::as_str));
        let standard = all.filter(|name| Place::named(name).is_standard()).count();
        match standard {
            0 | 1 => Ok(()),
            _ => Err(Bad::usage("standard input can be read once only")),
        }
    }

    pub fn value(&self, name: &str) -> Option<&str> {
        let found = self.options.iter().find(|(known, _)| *known == name);
        found.map(|(_, value)| value.as_str())
    }

    pub fn flag(&self, name: &str) -> bool {
        self.value(name).is_some()
    }

    pub fn number(&self, name: &str, most: u32) -> Result<Option<u32>, Bad> {
        let value = self.value(name);
        let read = value.map(|word| number(word, &format!("a number for {name}"), most));
        read.transpose().map_err(Bad::usage)
    }

    pub fn needed(&self, name: &str, most: u32) -> Result<u32, Bad> {
        let value = self.number(name, most)?;
        value.ok_or_else(|| missing(name))
    }

    pub fn byte(&self, name: &str) -> Result<u8, Bad> {
        Ok(self.needed(name, u8::MAX.into())? as u8)
    }

    pub fn place(&self, name: &str) -> Option<Place> {
        self.value(name).map(Place::named)
    }

    /// The files, which must be so many.
    pub fn places<const N: usize>(&self, names: &[&str]) -> Result<[Place; N], Bad> {
        let places: Vec<Place> = self.files.iter().map(|name| Place::named(name)).collect();
        places.try_into().map_err(|_| {
            let names = if names.is_empty() {
                "no file".to_string()
            } else {
                names.join(" ")
            };
            let count = self.files.len();
            Bad::usage(format!(
                "expected {names} behind the options; there are {count} arguments"
            ))
        })
    }

    /// The table is read last, so that arguments are looked at before files.
    pub fn table(&self) -> Result<Table, Bad> {
        let expected = self.needed("--edition", u16::MAX.into())? as u16;
        let place = self.place("--table").ok_or_else(|| missing("--table"))?;
        let bytes = desk::table_bytes(&place)?;
        Ok(Table { expected, bytes })
    }

    pub fn columns(&self) -> Result<Columns, Bad> {
        let form = match (self.flag("--stamps"), self.flag("--cycles")) {
            (true, true) => return Err(Bad::usage("--stamps and --cycles exclude each other")),
            (true, false) => Time::Stamps,
            _ => Time::Cycles,
        };
        let said = self.flag("--stamps") || self.flag("--cycles");
        let time = self.value("--time");
        if said && time.is_none() {
            return Err(Bad::usage(
                "--stamps and --cycles speak of a column: expected --time COLUMN",
            ));
        }
        let plain = Columns::default();
        let named =
            |option, plain: String| self.value(option).map_or(plain, |name| name.to_string());
        Ok(Columns {
            time: time.map(|name| (name.to_string(), form)),
            command: named("--command", plain.command),
            bank: named("--bank", plain.bank),
            separator: self.separator(plain.separator)?,
        })
    }

    fn separator(&self, plain: char) -> Result<char, Bad> {
        let mut given = match self.value("--separator") {
            None => return Ok(plain),
            Some(given) => given.chars(),
        };
        match (given.next(), given.next()) {
            (Some(c), None) if c != '"' => Ok(c),
            _ => Err(Bad::usage(
                "expected one character, and no quote, for --separator",
            )),
        }
    }
}

fn missing(name: &str) -> Bad {
    let opt = OPTIONS.iter().find(|opt| opt.name == name);
    let (value, about) = opt.map_or(("", ""), |opt| (opt.value, opt.about));
    Bad::usage(format!("expected {name} {value}: {about}"))
}

fn unknown(command: &Command, name: &str) -> Bad {
    let found = shown(name);
    let known = command.options.join(" ");
    let what = format!("{} has no option {found}; it has {known}", command.name);
    Bad::usage(what)
}
