//! Answers, and what a line says the answer must be.
use super::forms::MOST_OF_FILE;
use super::report::{Report, ReportWords, Sort};
use super::text::{written, Text};
use super::Bad;
use crate::words::one_of;
use skeinrabbit::{parse_number, Errno, Slot, SlotState};
use std::fmt;

/// What a call answered.
#[derive(Clone, Copy, Debug, PartialEq, Eq)]
pub enum Answer {
    /// Success, with nothing made.
    Done,
    /// Success, with the number of what was made.
    New(u64),
    /// Success, with the number of the entry that was found.
    Found(u64),
    /// Success, with the number of bytes that were written.
    Written(u64),
    /// Success, with a number of bytes.
    Count(u64),
    /// The slot that a turn served.
    Served(Slot),
    /// A turn where no slot waits.
    Idle,
    /// The state of a slot that was read.
    State(SlotState),
    Refused(Errno),
}

impl fmt::Display for Answer {
    fn fmt(&self, f: &mut fmt::Formatter<'_>) -> fmt::Result {
        match self {
            Answer::Done => f.pad("0"),
            Answer::New(number) => f.pad(&format!("new {number}")),
            Answer::Found(number) | Answer::Written(number) | Answer::Count(number) => {
                number.fmt(f)
            }
            Answer::Served(slot) => slot.fmt(f),
            Answer::Idle => f.pad(IDLE),
            Answer::State(state) => state.fmt(f),
            Answer::Refused(errno) => errno.fmt(f),
        }
    }
}

/// How a turn without a waiting slot is written.
const IDLE: &str = "idle";
/// The states of a slot that are written by name.
const STATES: [SlotState; 3] = [SlotState::Empty, SlotState::Waiting, SlotState::Answered];

/// What a call must answer and report.
#[derive(Clone, Debug, PartialEq, Eq)]
pub struct Expected {
    pub answer: ExpectedAnswer,
    pub report: ReportWords,
    /// The bytes of the policy file that it must write, or of the log that it must find.
    pub bytes: Option<Text>,
}

impl Expected {
    /// Reads the words after `=>`, of a call with a report of a sort or with none.
    pub fn parse(words: &[&str], sort: Option<Sort>) -> Result<Expected, Bad> {
        let (answer, more) = ExpectedAnswer::parse(words)?;
        let (bytes, more) = match (sort, more) {
            (Some(Sort::Written), [word, more @ ..]) => (file_bytes(word)?, more),
            _ => (None, more),
        };
        let report = ReportWords::parse(more, sort)?;
        let expected = Expected {
            answer,
            report,
            bytes,
        };
        if answer == ExpectedAnswer::Any && (!report.is_empty() || expected.bytes.is_some()) {
            return Err(Bad::new(format!("`{expected}`"), "`any` alone"));
        }
        Ok(expected)
    }

    pub fn is_met_by(&self, answer: Answer, report: Option<Report>) -> bool {
        self.answer.is_met_by(answer) && self.report.is_met_by(report)
    }

    /// Whether what was written in a round is as expected, if something is.
    pub fn is_written(&self, bytes: &[u8], round: u64) -> bool {
        let expected = self.bytes.as_ref();
        expected.is_none_or(|expected| expected.bytes(round) == bytes)
    }
}

/// The bytes of a policy file behind `bytes=`.
fn file_bytes(word: &str) -> Result<Option<Text>, Bad> {
    let Some(bytes) = word.strip_prefix("bytes=") else {
        return Err(Bad::word(word, Sort::Written.expected()));
    };
    Text::parse_within(bytes, MOST_OF_FILE).map(Some)
}

impl fmt::Display for Expected {
    fn fmt(&self, f: &mut fmt::Formatter<'_>) -> fmt::Result {
        write!(f, "{}{}", self.answer, self.report)?;
        match &self.bytes {
            Some(bytes) => write!(f, " bytes={}", written(&bytes.bytes(1))),
            None => Ok(()),
        }
    }
}

/// What a call must answer.
#[derive(Clone, Copy, Debug, PartialEq, Eq)]
pub enum ExpectedAnswer {
    /// Whatever it likes.
    Any,
    /// Any success.
    Success,
    /// Any success that makes something.
    Made,
    /// The number of a success, whether something is made or not.
    Number(u64),
    New(u64),
    Idle,
    State(SlotState),
    Error(Errno),
}

impl ExpectedAnswer {
    /// Reads an answer; gives back the words after it.
    fn parse<'a, 'w>(words: &'a [&'w str]) -> Result<(ExpectedAnswer, &'a [&'w str]), Bad> {
        match words {
            [] => Err(Bad::new("nothing after `=>`", "an answer")),
            ["new", number, more @ ..] if !number.contains('=') => match parse_number(number) {
                Some(number) => Ok((ExpectedAnswer::New(number), more)),
                None => Err(Bad::word(number, "a number after `new`")),
            },
            [word, more @ ..] => match ExpectedAnswer::word(word) {
                Some(answer) => Ok((answer, more)),
                None => Err(unknown(word)),
            },
        }
    }

    fn word(word: &str) -> Option<ExpectedAnswer> {
        match word {
            "any" => Some(ExpectedAnswer::Any),
            "ok" => Some(ExpectedAnswer::Success),
            "new" => Some(ExpectedAnswer::Made),
            IDLE => Some(ExpectedAnswer::Idle),
            _ => {
                let number = parse_number(word).map(ExpectedAnswer::Number);
                let state = || STATES.into_iter().find(|state| state.to_string() == word);
                number
                    .or_else(|| state().map(ExpectedAnswer::State))
                    .or_else(|| word.parse().ok().map(ExpectedAnswer::Error))
            }
        }
    }

    fn is_met_by(self, answer: Answer) -> bool {
        use ExpectedAnswer::{Any, Error, Idle, Made, New, Number, State, Success};
        match (self, answer) {
            (Success, Answer::Refused(_)) => false,
            (Any | Success, _)
            | (Made, Answer::New(_))
            | (Number(0), Answer::Done)
            | (Idle, Answer::Idle) => true,
            (Number(number) | New(number), Answer::New(made)) => number == made,
            (
                Number(number),
                Answer::Found(found) | Answer::Written(found) | Answer::Count(found),
            ) => number == found,
            (Number(number), Answer::Served(slot)) => number == slot.number(),
            (Number(number), Answer::State(state)) => state == SlotState::Unknown(number),
            (State(expected), Answer::State(state)) => expected == state,
            (Error(expected), Answer::Refused(errno)) => expected == errno,
            _ => false,
        }
    }
}

/// A word that is no answer.
fn unknown(word: &str) -> Bad {
    let what = "a number, `new`, `new N`, `ok`, `any`, `idle`, a slot's state, an error's negated \
        number (-13) or its name";
    let errors = Errno::ALL.iter().filter_map(|errno| errno.name());
    let known: Vec<&str> = errors.collect();
    Bad::word(word, one_of(what, word, &known))
}

impl fmt::Display for ExpectedAnswer {
    fn fmt(&self, f: &mut fmt::Formatter<'_>) -> fmt::Result {
        match self {
            ExpectedAnswer::Any => f.pad("any"),
            ExpectedAnswer::Success => f.pad("ok"),
            ExpectedAnswer::Made => f.pad("new"),
            ExpectedAnswer::Number(number) => number.fmt(f),
            ExpectedAnswer::New(number) => f.pad(&format!("new {number}")),
            ExpectedAnswer::Idle => f.pad(IDLE),
            ExpectedAnswer::State(state) => state.fmt(f),
            ExpectedAnswer::Error(errno) => errno.fmt(f),
        }
    }
}
