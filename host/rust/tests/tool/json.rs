//! `--json`: one object, read here by a strict reader, with the same facts as the words.

use crate::Folder;

#[derive(Debug, Clone, PartialEq)]
enum Value {
    Plain(String),
    Text(String),
    List(Vec<Value>),
    Object(Vec<(String, Value)>),
}

impl Value {
    /// What stands behind the names, each inside the one before it.
    fn at(&self, names: &str) -> &Value {
        names.split('.').fold(self, |value, name| match value {
            Value::Object(all) => {
                let found = all.iter().find(|(key, _)| key == name);
                &found.unwrap_or_else(|| panic!("{name} in {self:?}")).1
            }
            Value::List(all) => &all[name.parse::<usize>().expect("a place")],
            other => panic!("{name} in {other:?}"),
        })
    }

    fn text(&self, names: &str) -> &str {
        match self.at(names) {
            Value::Plain(x) | Value::Text(x) => x,
            other => panic!("{names} is {other:?}"),
        }
    }
}

struct Reader<'a>(&'a str);

impl<'a> Reader<'a> {
    fn take(&mut self, word: &str) -> bool {
        let rest = self.0.strip_prefix(word);
        self.0 = rest.unwrap_or(self.0);
        rest.is_some()
    }

    fn until(&mut self, end: &str, mut one: impl FnMut(&mut Reader<'a>)) {
        if self.take(end) {
            return;
        }
        loop {
            one(self);
            if self.take(end) {
                return;
            }
            assert!(self.take(","), "a comma before {}", self.0);
        }
    }

    fn value(&mut self) -> Value {
        if self.take("{") {
            let mut all: Vec<(String, Value)> = Vec::new();
            self.until("}", |reader| {
                let key = reader.string();
                assert!(reader.take(":"));
                assert!(!all.iter().any(|(known, _)| *known == key), "{key} twice");
                all.push((key, reader.value()));
            });
            return Value::Object(all);
        }
        if self.take("[") {
            let mut all = Vec::new();
            self.until("]", |reader| all.push(reader.value()));
            return Value::List(all);
        }
        if self.0.starts_with('"') {
            return Value::Text(self.string());
        }
        let end = self.0.find(|c| ",]}\n".contains(c)).expect("an end");
        let (plain, rest) = self.0.split_at(end);
        self.0 = rest;
        let known = ["null", "true", "false"].contains(&plain);
        assert!(known || plain.parse::<u64>().is_ok(), "{plain}");
        Value::Plain(plain.to_string())
    }

    fn string(&mut self) -> String {
        assert!(self.take("\""));
        let mut text = String::new();
        loop {
            let c = self.0.chars().next().expect("the string's end");
            self.0 = &self.0[c.len_utf8()..];
            match c {
                '"' => return text,
                '\\' => {
                    let escaped = [("\"", '"'), ("\\", '\\'), ("n", '\n')];
                    let plain = escaped.iter().find(|(word, _)| self.take(word));
                    text.push(plain.map_or_else(|| self.number(), |(_, c)| *c));
                }
                c => {
                    assert!(u32::from(c) >= 32);
                    text.push(c);
                }
            }
        }
    }

    fn number(&mut self) -> char {
        assert!(self.take("u"));
        let (digits, rest) = self.0.split_at(4);
        self.0 = rest;
        let code = u32::from_str_radix(digits, 16).expect("four digits");
        char::from_u32(code).expect("a character")
    }
}

/// The object that the tool prints; its status is the tool's.
fn told(folder: &Folder, line: &str) -> Value {
    let told = folder.run(&format!("{line} --json"));
    assert_eq!(told.err, "");
    let mut reader = Reader(&told.out);
    let value = reader.value();
    assert_eq!(reader.0, "\n", "one object and a line's end");
    assert_eq!(value.text("status"), told.status.to_string());
    value
}

const BY_A: &str = "--edition 7 --table a.table";

#[test]
fn a_verdict() {
    let folder = Folder::new();
    folder.put("s.txt", "0 ACT 0 0\n5 ACT 1 1\n10 RDA 0 0\n18 WRA 1 1\n");
    let x = told(&folder, &format!("judge {BY_A} s.txt"));
    let facts = [
        ("edition", "7"),
        ("answer", "broken"),
        ("rule", "6"),
        ("record", "1"),
        ("broken.cycle", "5"),
        ("broken.kind", "ACT"),
        ("broken.line", "2"),
        ("broken.bank", "1"),
        ("near.record", "0"),
        ("legal", "6"),
        ("status", "1"),
    ];
    for (names, fact) in facts {
        assert_eq!(x.text(names), fact, "{names}");
    }
    folder.put("s.txt", "0 ACT 0 0\n10 RDA 0 0\n");
    let x = told(&folder, &format!("judge {BY_A} s.txt"));
    assert_eq!((x.text("answer"), x.text("count")), ("accepted", "2"));
    let x = told(&folder, &format!("pattern --length 37 {BY_A} s.txt"));
    let facts = [
        ("edition", "7"),
        ("copy", "2"),
        ("rule", "4"),
        ("broken.copy", "2"),
        ("broken.cycle_in_copies", "37"),
        ("broken.command.cycle", "0"),
        ("near.copy", "1"),
        ("legal", "38"),
        ("length", "37"),
    ];
    for (names, fact) in facts {
        assert_eq!(x.text(names), fact, "{names}");
    }
    folder.put("s.txt", "0 ACT 0 0\n");
    let x = told(&folder, &format!("judge {BY_A} s.txt"));
    assert_eq!((x.text("rule"), x.text("open.0")), ("10", "0"));
    folder.put("s.txt", "0 9 0 0\n");
    assert_eq!(
        told(&folder, &format!("judge {BY_A} s.txt")).text("legal"),
        "null"
    );
}

#[test]
fn the_others() {
    let folder = Folder::new();
    folder.put("l.txt", "write 0 1 1\nread 0 1 1\n");
    let x = told(&folder, &format!("schedule {BY_A} l.txt"));
    let facts = [
        ("edition", "7"),
        ("answer", "built"),
        ("commands.3.cycle", "54"),
        ("finishes.1.finish", "68"),
        ("finishes.1.promised", "68"),
    ];
    for (names, fact) in facts {
        assert_eq!(x.text(names), fact, "{names}");
    }
    let x = told(&folder, &format!("bound {BY_A} --bi 4 --bc 2 --from 100"));
    assert_eq!(
        (x.text("bound"), x.text("write_by"), x.text("read_by")),
        ("75", "175", "189")
    );
    let x = told(&folder, &format!("shortest {BY_A} --write --bi 2 --bc 2"));
    assert_eq!((x.text("length"), x.text("commands.5.kind")), ("48", "WRA"));
    folder.put("s.txt", "0 ACT 0 0\n10 WRA 0 0\n");
    let x = told(&folder, &format!("serves {BY_A} l.txt s.txt"));
    assert_eq!(
        (x.text("answer"), x.text("serves"), x.text("transaction")),
        ("at fault", "false", "1")
    );
    folder.put("c.csv", "cycle,command,bank\n0,ACT,0\n9,RD,0\n");
    let x = told(&folder, &format!("trace {BY_A} c.csv"));
    assert_eq!(
        (x.text("rule"), x.text("broken.line"), x.text("ticks")),
        ("8", "3", "0")
    );
    let x = told(&folder, &format!("picture {BY_A} s.txt -o s.svg"));
    assert_eq!((x.text("answer"), x.text("written")), ("accepted", "s.svg"));
    assert_eq!(told(&folder, "explain 4").text("refused"), "4");
    assert_eq!(told(&folder, "explain rule 7").text("rule"), "7");
}

#[test]
fn refusals_and_bad_use() {
    let folder = Folder::new();
    folder.put("s.txt", "0 ACT \u{7}\"\\ 0\n");
    let x = told(&folder, &format!("judge {BY_A} s.txt"));
    assert_eq!(
        (x.text("answer"), x.text("file"), x.text("line")),
        ("bad use", "s.txt", "1")
    );
    let x = told(&folder, "judge");
    assert_eq!((x.text("answer"), x.text("file")), ("bad use", "null"));
    let x = told(&folder, "bound --edition 5 --table a.table --bi 1 --bc 1");
    let facts = [
        ("edition", "7"),
        ("answer", "refused"),
        ("refused", "10"),
        ("position", "7"),
        ("status", "2"),
    ];
    for (names, fact) in facts {
        assert_eq!(x.text(names), fact, "{names}");
    }
    assert!(x
        .text("cause")
        .starts_with("the table is of another edition"));
    assert!(x.text("cure").starts_with("find out"));
}
