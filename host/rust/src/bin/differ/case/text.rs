//! A case as a line of text, from which it can be run again.

use std::fmt::{self, Write};
use std::str::FromStr;

use super::{fresh, Case, CALLS, NUMBERS, STRAIGHT};

fn hex(bytes: &[u8]) -> String {
    let mut out = String::new();
    for b in bytes {
        write!(out, "{b:02x}").expect("a string takes it");
    }
    out
}

fn unhex(text: &str) -> Result<Vec<u8>, String> {
    let digits = text.as_bytes();
    let pair = |p: &[u8]| {
        let text = std::str::from_utf8(p).map_err(|e| e.to_string())?;
        u8::from_str_radix(text, 16).map_err(|e| e.to_string())
    };
    digits.chunks(2).map(pair).collect()
}

/// `NAME key=value ..`; bytes are hex, and of the state only what is not as in a fresh one of edition 7 is named, as place:number.
impl fmt::Display for Case {
    fn fmt(&self, f: &mut fmt::Formatter) -> fmt::Result {
        let [a, b, c, d, e] = self.values;
        write!(f, "{}", self.name())?;
        write!(f, " expected={}", self.expected)?;
        write!(f, " table={} bytes={}", hex(&self.table), hex(&self.bytes))?;
        write!(f, " schedule={}", hex(&self.schedule))?;
        write!(f, " values={a},{b},{c},{d},{e}")?;
        write!(f, " room={} slots={}", self.room, self.slots)?;
        let base = fresh(7);
        let changed = (0..NUMBERS).filter(|&i| self.state[i] != base[i]);
        let changed: Vec<String> = changed.map(|i| format!("{i}:{}", self.state[i])).collect();
        write!(f, " state={}", changed.join(","))?;
        write!(f, " filling={} lies={}", self.filling, self.lies)
    }
}

impl FromStr for Case {
    type Err = String;

    fn from_str(text: &str) -> Result<Case, String> {
        let mut words = text.split_whitespace();
        let name = words.next().unwrap_or("");
        let call = CALLS.iter().chain(&STRAIGHT).find(|(_, n)| *n == name);
        let call = call.ok_or_else(|| format!("no call is named `{name}`"))?.0;
        let mut case = Case::new(call);
        case.straight = call.name() != name;
        for word in words {
            let (key, value) = word.split_once('=').ok_or(format!("no value: `{word}`"))?;
            let number = || value.parse::<usize>().map_err(|e| format!("{word}: {e}"));
            match key {
                "expected" => case.expected = value.parse().map_err(|e| format!("{word}: {e}"))?,
                "table" => case.table = unhex(value)?,
                "bytes" => case.bytes = unhex(value)?,
                "schedule" => case.schedule = unhex(value)?,
                "values" => {
                    for (place, v) in case.values.iter_mut().zip(value.split(',')) {
                        *place = v.parse().map_err(|e| format!("{word}: {e}"))?;
                    }
                }
                "room" => case.room = number()?,
                "slots" => case.slots = number()?,
                "state" => {
                    for pair in value.split(',').filter(|p| !p.is_empty()) {
                        let (i, v) = pair.split_once(':').ok_or(format!("no number: `{pair}`"))?;
                        let i: usize = i.parse().map_err(|e| format!("{pair}: {e}"))?;
                        let place = case.state.get_mut(i).ok_or(format!("no place {i}"))?;
                        *place = v.parse().map_err(|e| format!("{pair}: {e}"))?;
                    }
                }
                "filling" => case.filling = number()? as u16,
                "lies" => case.lies = number()? as u8,
                _ => return Err(format!("no key `{key}`")),
            }
        }
        Ok(case)
    }
}
