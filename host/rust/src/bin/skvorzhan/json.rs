//! A value as JSON.

use std::fmt;

#[derive(Debug, Clone, PartialEq, Eq)]
pub enum Value {
    Null,
    Bool(bool),
    Number(u64),
    Text(String),
    List(Vec<Value>),
    Object(Vec<(&'static str, Value)>),
}

impl From<bool> for Value {
    fn from(x: bool) -> Value {
        Value::Bool(x)
    }
}

impl From<u64> for Value {
    fn from(x: u64) -> Value {
        Value::Number(x)
    }
}

impl From<u32> for Value {
    fn from(x: u32) -> Value {
        Value::Number(x.into())
    }
}

impl From<usize> for Value {
    fn from(x: usize) -> Value {
        Value::Number(x as u64)
    }
}

impl From<&str> for Value {
    fn from(x: &str) -> Value {
        Value::Text(x.to_string())
    }
}

impl From<String> for Value {
    fn from(x: String) -> Value {
        Value::Text(x)
    }
}

impl<T: Into<Value>> From<Option<T>> for Value {
    fn from(x: Option<T>) -> Value {
        x.map_or(Value::Null, Into::into)
    }
}

impl<T: Into<Value>> From<Vec<T>> for Value {
    fn from(x: Vec<T>) -> Value {
        Value::List(x.into_iter().map(Into::into).collect())
    }
}

impl fmt::Display for Value {
    fn fmt(&self, f: &mut fmt::Formatter) -> fmt::Result {
        match self {
            Value::Null => write!(f, "null"),
            Value::Bool(x) => write!(f, "{x}"),
            Value::Number(x) => write!(f, "{x}"),
            Value::Text(x) => text(f, x),
            Value::List(x) => {
                write!(f, "[")?;
                between(f, x, |f, x| write!(f, "{x}"))?;
                write!(f, "]")
            }
            Value::Object(x) => {
                write!(f, "{{")?;
                between(f, x, |f, (key, x)| write!(f, "\"{key}\":{x}"))?;
                write!(f, "}}")
            }
        }
    }
}

fn between<T>(
    f: &mut fmt::Formatter,
    all: &[T],
    one: impl Fn(&mut fmt::Formatter, &T) -> fmt::Result,
) -> fmt::Result {
    for (k, x) in all.iter().enumerate() {
        if k > 0 {
            write!(f, ",")?;
        }
        one(f, x)?;
    }
    Ok(())
}

fn text(f: &mut fmt::Formatter, x: &str) -> fmt::Result {
    write!(f, "\"")?;
    for c in x.chars() {
        match c {
            '"' => write!(f, "\\\"")?,
            '\\' => write!(f, "\\\\")?,
            '\n' => write!(f, "\\n")?,
            c if u32::from(c) < 32 || c == '\u{7f}' => write!(f, "\\u{:04x}", u32::from(c))?,
            c => write!(f, "{c}")?,
        }
    }
    write!(f, "\"")
}
