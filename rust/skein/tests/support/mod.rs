//! Running the program, and reading JSON.
#![allow(dead_code, reason = "each test file uses a part of this")]
use std::io::Write;
use std::path::PathBuf;
use std::process::{Command, Output, Stdio};

/// What the program left.
pub struct Ran {
    pub code: i32,
    pub out: String,
    pub err: String,
}

pub fn ran(output: Output) -> Ran {
    Ran {
        code: output.status.code().expect("not ended by a signal"),
        out: String::from_utf8(output.stdout).expect("output is UTF-8"),
        err: String::from_utf8(output.stderr).expect("messages are UTF-8"),
    }
}

/// The program with these words.
pub fn command(words: &[&str]) -> Command {
    let mut command = Command::new(env!("CARGO_BIN_EXE_skein"));
    command.args(words).env_remove("NO_COLOR");
    command
}

pub fn skein(words: &[&str]) -> Ran {
    ran(command(words)
        .stdin(Stdio::null())
        .output()
        .expect("the program runs"))
}

/// The program with these words and this input.
pub fn skein_with(words: &[&str], input: &[u8]) -> Ran {
    let mut command = command(words);
    command
        .stdin(Stdio::piped())
        .stdout(Stdio::piped())
        .stderr(Stdio::piped());
    let mut child = command.spawn().expect("the program runs");
    let mut stdin = child.stdin.take().expect("standard input");
    let input = input.to_vec();
    let writer = std::thread::spawn(move || stdin.write_all(&input));
    let output = child.wait_with_output().expect("the program ends");
    writer
        .join()
        .expect("the writer ends")
        .expect("all input is read");
    ran(output)
}

/// Messages without the breaks in their lines.
pub fn unbroken(messages: &str) -> String {
    messages.replace("\n    ", " ")
}

/// The path of an example.
pub fn example(name: &str) -> String {
    let path = PathBuf::from(env!("CARGO_MANIFEST_DIR"))
        .join("../../examples")
        .join(name);
    path.to_str().expect("a UTF-8 path").to_owned()
}

pub const EXAMPLES: [&str; 5] = [
    "tutorial.skein",
    "incident.skein",
    "worked.skein",
    "refusals.skein",
    "together.skein",
];

/// A file of its own for a test, removed afterwards.
pub struct Scratch(pub PathBuf);

impl Scratch {
    pub fn new(name: &str, contents: &[u8]) -> Scratch {
        let folder = std::env::temp_dir().join(format!("skein-test-{}", std::process::id()));
        std::fs::create_dir_all(&folder).expect("a scratch folder");
        let path = folder.join(name);
        std::fs::write(&path, contents).expect("a scratch file");
        Scratch(path)
    }

    pub fn path(&self) -> &str {
        self.0.to_str().expect("a UTF-8 path")
    }
}

impl Drop for Scratch {
    fn drop(&mut self) {
        let _ = std::fs::remove_file(&self.0);
    }
}

/// A JSON value.
#[derive(Clone, Debug, PartialEq)]
pub enum Value {
    Null,
    Bool(bool),
    Number(u64),
    Text(String),
    List(Vec<Value>),
    Object(Vec<(String, Value)>),
}

impl Value {
    /// A member of an object.
    pub fn at(&self, name: &str) -> &Value {
        match self {
            Value::Object(members) => {
                let member = members.iter().find(|(key, _)| key == name);
                &member.unwrap_or_else(|| panic!("no member {name}")).1
            }
            other => panic!("no object: {other:?}"),
        }
    }

    pub fn list(&self) -> &[Value] {
        match self {
            Value::List(values) => values,
            other => panic!("no list: {other:?}"),
        }
    }

    pub fn text(&self) -> &str {
        match self {
            Value::Text(text) => text,
            other => panic!("no text: {other:?}"),
        }
    }

    pub fn number(&self) -> u64 {
        match self {
            Value::Number(number) => *number,
            other => panic!("no number: {other:?}"),
        }
    }

    /// The texts of a list.
    pub fn texts(&self) -> Vec<&str> {
        self.list().iter().map(Value::text).collect()
    }
}

/// Reads a whole JSON document; panics where it is not one.
pub fn json(text: &str) -> Value {
    let mut reader = Reader { rest: text };
    let value = reader.value();
    reader.blanks();
    assert_eq!(reader.rest, "", "one document only");
    value
}

struct Reader<'a> {
    rest: &'a str,
}

impl Reader<'_> {
    fn blanks(&mut self) {
        self.rest = self.rest.trim_start_matches([' ', '\t', '\n', '\r']);
    }

    fn has(&mut self, token: &str) -> bool {
        self.blanks();
        match self.rest.strip_prefix(token) {
            Some(rest) => {
                self.rest = rest;
                true
            }
            None => false,
        }
    }

    fn must(&mut self, token: &str) {
        assert!(self.has(token), "{token} expected at {:.40}", self.rest);
    }

    fn value(&mut self) -> Value {
        self.blanks();
        match self.rest.chars().next() {
            Some('{') => self.object(),
            Some('[') => self.list(),
            Some('"') => Value::Text(self.text()),
            Some('0'..='9') => self.number(),
            _ if self.has("null") => Value::Null,
            _ if self.has("true") => Value::Bool(true),
            _ if self.has("false") => Value::Bool(false),
            _ => panic!("a value expected at {:.40}", self.rest),
        }
    }

    fn object(&mut self) -> Value {
        self.must("{");
        let mut members: Vec<(String, Value)> = Vec::new();
        if self.has("}") {
            return Value::Object(members);
        }
        loop {
            self.blanks();
            let name = self.text();
            assert!(
                members.iter().all(|(other, _)| *other != name),
                "{name} twice"
            );
            self.must(":");
            members.push((name, self.value()));
            if !self.has(",") {
                self.must("}");
                return Value::Object(members);
            }
        }
    }

    fn list(&mut self) -> Value {
        self.must("[");
        let mut values = Vec::new();
        if self.has("]") {
            return Value::List(values);
        }
        loop {
            values.push(self.value());
            if !self.has(",") {
                self.must("]");
                return Value::List(values);
            }
        }
    }

    fn number(&mut self) -> Value {
        let end = self
            .rest
            .find(|c: char| !c.is_ascii_digit())
            .unwrap_or(self.rest.len());
        let (digits, rest) = self.rest.split_at(end);
        assert!(digits == "0" || !digits.starts_with('0'), "a leading zero");
        self.rest = rest;
        Value::Number(digits.parse().expect("a number of 64 bits"))
    }

    fn text(&mut self) -> String {
        self.must("\"");
        let mut text = String::new();
        let mut chars = self.rest.chars();
        loop {
            match chars.next().expect("a closing quote") {
                '"' => break,
                '\\' => text.push(escaped(&mut chars)),
                c if c < ' ' => panic!("a bare control character"),
                c => text.push(c),
            }
        }
        self.rest = chars.as_str();
        text
    }
}

fn escaped(chars: &mut std::str::Chars) -> char {
    match chars.next().expect("an escaped character") {
        'n' => '\n',
        't' => '\t',
        'r' => '\r',
        'u' => {
            let digits: String = chars.take(4).collect();
            let number = u32::from_str_radix(&digits, 16).expect("four digits");
            char::from_u32(number).expect("a character")
        }
        c @ ('"' | '\\' | '/') => c,
        c => panic!("an unknown escape: {c}"),
    }
}
