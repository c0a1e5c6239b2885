//! Scenario files: one call to a line.
mod answer;
mod arguments;
mod attribute;
mod call;
mod forms;
mod log;
mod names;
mod poke;
mod repeat;
mod report;
mod text;

pub use answer::{Answer, Expected, ExpectedAnswer};
pub use arguments::{number, value, Named};
pub use call::{
    AskedCall, Call, FileOperand, LogCall, Masks, Other, Place, PolicyCall, QueueCall,
    RulesetBytes, RulesetCall, ThreadCall, TreeCall,
};
pub use names::{Names, Operand, Space};
pub use poke::Poked;
pub use report::{Mask, PolicyReport, Report, SlotReport};
pub use text::{written, Text};

use crate::words::quoted;
use arguments::Arguments;
use names::{is_name, Declared};
use std::path::PathBuf;

/// A scenario that could be read.
#[derive(Debug)]
pub struct Scenario {
    pub statements: Vec<Statement>,
    /// Where the names of its policy files are looked for.
    pub folder: PathBuf,
}

/// A line with a call.
#[derive(Debug)]
pub struct Statement {
    /// The line's number, from 1.
    pub line: usize,
    /// The lines of comment right above, without their marks.
    pub heading: Vec<String>,
    /// The call and its arguments, with `repeat N` before them, as they were written, one blank between.
    pub text: String,
    /// How often the call is made, where the line says so.
    pub rounds: Option<u64>,
    /// The call's name.
    pub name: &'static str,
    pub call: Call,
    /// The name to bind what the call makes to.
    pub binds: Option<(Space, String)>,
    /// What the line says that the call must answer. Without it the call must succeed.
    pub expected: Option<Expected>,
}

impl Statement {
    /// Whether an answer, with its report where the call has one, is one that the line allows.
    pub fn allows(&self, answer: Answer, report: Option<Report>) -> bool {
        match &self.expected {
            Some(expected) => expected.is_met_by(answer, report),
            None => !matches!(answer, Answer::Refused(_)),
        }
    }

    /// Whether what was written in a round is what the line asks for.
    pub fn allows_bytes(&self, bytes: &[u8], round: u64) -> bool {
        let expected = self.expected.as_ref();
        expected.is_none_or(|expected| expected.is_written(bytes, round))
    }

    /// Whether the line names an answer, or a kind of answer.
    pub fn names_an_answer(&self) -> bool {
        let named = |expected: &Expected| expected.answer != ExpectedAnswer::Any;
        self.expected.as_ref().is_some_and(named)
    }
}

/// A line that is not as the format asks.
#[derive(Clone, Debug, PartialEq, Eq)]
pub struct BadLine {
    pub line: usize,
    pub bad: Bad,
}

/// What was found and what was expected in its place.
#[derive(Clone, Debug, PartialEq, Eq)]
pub struct Bad {
    pub found: String,
    pub expected: String,
}

impl Bad {
    pub fn new(found: impl Into<String>, expected: impl Into<String>) -> Self {
        Self {
            found: found.into(),
            expected: expected.into(),
        }
    }

    /// A word, quoted.
    pub fn word(word: &str, expected: impl Into<String>) -> Self {
        Self::new(quoted(word), expected)
    }
}

/// Reads a scenario; answers every line that is not as the format asks where there is one.
pub fn parse(bytes: &[u8]) -> Result<Scenario, Vec<BadLine>> {
    let mut reader = Reader::default();
    let mut bad_lines = Vec::new();
    for (place, bytes) in bytes.split(|byte| *byte == b'\n').enumerate() {
        let line = place + 1;
        if let Err(bad) = reader.line(line, bytes) {
            bad_lines.push(BadLine { line, bad });
        }
    }
    if reader.statements.is_empty() && bad_lines.is_empty() {
        let bad = Bad::new("no call", "at least one line with a call");
        bad_lines.push(BadLine { line: 1, bad });
    }
    if bad_lines.is_empty() {
        Ok(Scenario {
            statements: reader.statements,
            folder: PathBuf::new(),
        })
    } else {
        Err(bad_lines)
    }
}

/// What was read so far.
#[derive(Default)]
struct Reader {
    statements: Vec<Statement>,
    heading: Vec<String>,
    declared: Declared,
}

impl Reader {
    fn line(&mut self, line: usize, bytes: &[u8]) -> Result<(), Bad> {
        let (words, comment) = words_of(bytes)?;
        match (words.as_slice(), comment) {
            ([], Some(comment)) => self.heading.push(comment.trim().to_owned()),
            ([], None) => self.heading.clear(),
            (words, _) => self.statement(line, words)?,
        }
        Ok(())
    }

    fn statement(&mut self, line: usize, words: &[&str]) -> Result<(), Bad> {
        let heading = std::mem::take(&mut self.heading);
        let (words, answer) = split_at_word(words, "=>");
        let (words, name) = split_at_word(words, "->");
        let (rounds, of_call) = repeat::rounds(words)?;
        let (form, call) = forms::parse(&mut Arguments::new(of_call, &self.declared))?;
        let binds = name.map(|name| binding(form.makes, name)).transpose()?;
        // Declared even where the answer is bad, so that one mistake is reported once.
        if let Some((space, name)) = &binds {
            self.declared.add(*space, name);
        }
        if rounds.is_some() && binds.is_some() {
            return Err(Bad::word("->", "no label for a call that is repeated"));
        }
        let expected = answer.map(|words| Expected::parse(words, form.reports));
        let expected = expected.transpose()?;
        self.statements.push(Statement {
            line,
            heading,
            text: words.join(" "),
            rounds,
            name: form.name(),
            call,
            binds,
            expected,
        });
        Ok(())
    }
}

/// The words of a line, and its comment where it has one.
pub fn words_of(line: &[u8]) -> Result<(Vec<&str>, Option<&str>), Bad> {
    let text = std::str::from_utf8(line.strip_suffix(b"\r").unwrap_or(line))
        .map_err(|_| Bad::new("bytes that are not UTF-8", "UTF-8 text"))?;
    let (code, comment) = match text.split_once('#') {
        Some((code, comment)) => (code, Some(comment)),
        None => (text, None),
    };
    let words = code.split([' ', '\t']).filter(|word| !word.is_empty());
    Ok((words.collect(), comment))
}

/// The words before `mark`, and those after it where it stands.
fn split_at_word<'a, 'w>(
    words: &'a [&'w str],
    mark: &str,
) -> (&'a [&'w str], Option<&'a [&'w str]>) {
    match words.iter().position(|word| *word == mark) {
        Some(place) => {
            let (before, after) = words.split_at(place);
            (before, after.get(1..))
        }
        None => (words, None),
    }
}

/// The name after `->`, in the space of what the call makes.
fn binding(makes: Option<Space>, words: &[&str]) -> Result<(Space, String), Bad> {
    let Some(space) = makes else {
        let expected = "it only after create_ruleset, apply_policy, clone, create or link, which \
            make something, or lookup";
        return Err(Bad::word("->", expected));
    };
    let name = match words {
        [name] => *name,
        [] => return Err(Bad::new("nothing after `->`", "a label")),
        [_, more, ..] => {
            return Err(Bad::word(
                more,
                "`=>` or the end of the line after the label",
            ))
        }
    };
    if !is_name(name) {
        let expected = "a label of letters, digits, `_`, `-`, `.` that does not start with a digit";
        return Err(Bad::word(name, expected));
    }
    if space.fixed(name).is_some() {
        return Err(Bad::word(name, "a label without a meaning of its own"));
    }
    Ok((space, name.to_owned()))
}

#[cfg(test)]
mod tests;
