//! `--json`: one object a line, read back by a small reader of JSON.
use crate::support::{Bench, TIME};
use std::collections::BTreeMap;

#[derive(Clone, Debug, PartialEq, Eq)]
pub enum Value {
    Text(String),
    Number(u64),
    Flag(bool),
}

pub type Object = BTreeMap<String, Value>;

/// The object on a line, which must be nothing but that.
pub fn object(line: &str) -> Object {
    let mut reader = Reader { rest: line };
    let object = reader.object();
    assert_eq!(reader.rest, "", "more than an object: {line}");
    object
}

pub fn objects(lines: &str) -> Vec<Object> {
    lines.lines().map(object).collect()
}

/// A field's text.
pub fn text<'a>(object: &'a Object, key: &str) -> &'a str {
    match object.get(key) {
        Some(Value::Text(text)) => text,
        other => panic!("{key} is {other:?} in {object:?}"),
    }
}

/// A field's number.
pub fn number(object: &Object, key: &str) -> u64 {
    match object.get(key) {
        Some(Value::Number(number)) => *number,
        other => panic!("{key} is {other:?} in {object:?}"),
    }
}

struct Reader<'a> {
    rest: &'a str,
}

impl Reader<'_> {
    fn take(&mut self, token: &str) -> bool {
        let taken = self.rest.strip_prefix(token);
        self.rest = taken.unwrap_or(self.rest);
        taken.is_some()
    }

    fn must(&mut self, token: &str) {
        assert!(self.take(token), "no {token} at: {}", self.rest);
    }

    fn object(&mut self) -> Object {
        let mut fields = Object::new();
        self.must("{");
        while !self.take("}") {
            if !fields.is_empty() {
                self.must(",");
            }
            let key = self.text();
            self.must(":");
            let value = self.value();
            assert!(fields.insert(key.clone(), value).is_none(), "{key} twice");
        }
        fields
    }

    fn value(&mut self) -> Value {
        if self.take("true") {
            return Value::Flag(true);
        }
        if self.take("false") {
            return Value::Flag(false);
        }
        if self.rest.starts_with('"') {
            return Value::Text(self.text());
        }
        let end = self.rest.find(|c: char| !c.is_ascii_digit()).unwrap_or(self.rest.len());
        let (digits, rest) = self.rest.split_at(end);
        self.rest = rest;
        Value::Number(digits.parse().unwrap_or_else(|error| panic!("'{digits}' before '{rest}': {error}")))
    }

    fn text(&mut self) -> String {
        self.must("\"");
        let mut text = String::new();
        loop {
            let c = self.next();
            match c {
                '"' => return text,
                '\\' => text.push(self.escaped()),
                c => {
                    assert!(!c.is_control(), "a bare control character");
                    text.push(c);
                }
            }
        }
    }

    fn escaped(&mut self) -> char {
        match self.next() {
            'n' => '\n',
            'u' => {
                let (digits, rest) = self.rest.split_at(4);
                self.rest = rest;
                u32::from_str_radix(digits, 16).ok().and_then(char::from_u32).expect("a character")
            }
            c @ ('"' | '\\') => c,
            c => panic!("an escaped {c}"),
        }
    }

    fn next(&mut self) -> char {
        let c = self.rest.chars().next().expect("more text");
        self.rest = &self.rest[c.len_utf8()..];
        c
    }
}

#[test]
fn listings_are_read_back() {
    let bench = Bench::with_card();
    bench.file("odd", b"123");
    bench.ok(&["put", "--time", TIME, "card.img", "odd", "/a \"b\" \\c"]);
    bench.ok(&["mkdir", "--time", "7", "card.img", "/d"]);
    for command in ["ls", "tree"] {
        let listed = objects(&bench.ok(&["--json", command, "card.img"]));
        assert_eq!(listed.len(), 2);
        assert_eq!(text(&listed[0], "path"), "/a \"b\" \\c");
        assert_eq!((text(&listed[0], "kind"), number(&listed[0], "size")), ("file", 3));
        assert_eq!(number(&listed[0], "time"), 1_700_000_000);
        assert_eq!((text(&listed[1], "kind"), text(&listed[1], "name"), number(&listed[1], "time")), ("directory", "d", 7));
    }
    let info = object(bench.ok(&["info", "--json", "card.img", "/a \"b\" \\c"]).trim_end());
    assert_eq!(number(&info, "first_block"), 13);
}

#[test]
fn numbers_of_the_volume_are_raw() {
    let bench = Bench::with_street();
    let df = object(bench.ok(&["--json", "df", "card.img"]).trim_end());
    assert_eq!((number(&df, "size"), number(&df, "used")), (4200 * 512, 20 * 512));
    assert_eq!((number(&df, "free"), number(&df, "blocks_in_reach")), (4180 * 512, 4088));
    let room = object(bench.ok(&["--json", "room", "card.img", "9"]).trim_end());
    assert_eq!((number(&room, "blocks"), &room["enough"], number(&room, "bytes_read")), (9, &Value::Flag(true), 3));
    let info = object(bench.ok(&["--json", "info", "card.img"]).trim_end());
    assert_eq!((number(&info, "data"), number(&info, "reach"), number(&info, "superblock")), (12, 4096, 8));
    let superblock = object(bench.ok(&["--json", "dump", "card.img", "superblock"]).trim_end());
    assert_eq!((number(&superblock, "used"), &superblock["rest_is_zero"]), (20, &Value::Flag(true)));
    let block = object(bench.ok(&["--json", "dump", "card.img", "block", "8"]).trim_end());
    assert!(text(&block, "hex").starts_with("4d4f524f5320465302") && text(&block, "hex").len() == 1024);
    let bitmap = objects(&bench.ok(&["--json", "dump", "card.img", "bitmap"]));
    assert_eq!((bitmap.len(), number(&bitmap[2], "from"), text(&bitmap[2], "state")), (3, 4108, "out of reach"));
}

#[test]
fn the_map_has_every_block_once() {
    let bench = Bench::with_street();
    let runs = objects(&bench.ok(&["--json", "map", "card.img"]));
    let mut next = 0;
    for run in &runs {
        assert_eq!(number(run, "from"), next);
        next = number(run, "to") + 1;
    }
    assert_eq!(next, 4200);
    let gas = runs.iter().find(|run| run.get("path") == Some(&Value::Text("/street/old/gas".to_string()))).expect("the file");
    assert_eq!((text(gas, "kind"), number(gas, "to") - number(gas, "from")), ("file", 2));
}

#[test]
fn changes_tell_what_they_did() {
    let bench = Bench::with_card();
    bench.file("s/a", b"12345");
    let put = objects(&bench.ok(&["--json", "put", "-r", "card.img", "s"]));
    assert_eq!((text(&put[0], "did"), text(&put[0], "path")), ("mkdir", "/s"));
    assert_eq!((text(&put[1], "did"), text(&put[1], "path"), number(&put[1], "bytes")), ("put", "/s/a", 5));
    assert_eq!((number(&put[2], "blocks_changed"), &put[2]["stored"]), (5, &Value::Flag(true)));
    let got = objects(&bench.ok(&["--json", "get", "card.img", "/s/a", "b"]));
    assert_eq!((text(&got[0], "did"), text(&got[0], "to"), number(&got[0], "bytes")), ("get", "b", 5));
    let removed = objects(&bench.ok(&["--json", "rm", "-r", "--dry-run", "card.img", "/s"]));
    assert_eq!((removed.len(), &removed[2]["stored"]), (3, &Value::Flag(false)));
    let formatted = object(bench.ok(&["--json", "format", "--blocks", "4200", "o.img"]).trim_end());
    assert_eq!((text(&formatted, "did"), number(&formatted, "blocks")), ("format", 4200));
}

#[test]
fn failures_and_remarks_are_objects_too() {
    let bench = Bench::with_card();
    let fails = |words: &[&str]| {
        let run = bench.run(words);
        let failure = object(run.err.trim_end());
        assert_eq!(number(&failure, "exit"), run.code as u64, "{words:?}");
        failure
    };
    let refused = fails(&["--json", "cat", "card.img", "/x"]);
    assert_eq!((text(&refused, "error"), number(&refused, "number"), text(&refused, "subject")), ("refused", 5, "card.img:/x"));
    assert!(!text(&refused, "reason").is_empty() && !text(&refused, "advice").is_empty());
    assert_eq!(text(&fails(&["--json", "ls"]), "error"), "usage");
    assert_eq!(text(&fails(&["ls", "none.img", "--json"]), "error"), "host");
    let noted = bench.run(&["--json", "-k", "auto", "ls", "card.img"]);
    assert_eq!(text(&object(noted.err.trim_end()), "note"), "superblock found at block 8");
}
