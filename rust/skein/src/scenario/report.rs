//! What a request, a change of the tree, a component, a slot or a policy file says beside its answer, and what a line says of that.
use super::answer::Answer;
use super::arguments::{number, value};
use super::Bad;
use skeinrabbit::{Entry, Errno, Layer, PolicyFile, PortRights, Rights, Slot, SlotState, Thread};
use std::fmt;

/// Which layer refused, and for which rights; no layer and no rights where none did.
#[derive(Clone, Copy, Debug, PartialEq, Eq)]
pub struct Report {
    pub layer: Option<Layer>,
    pub rights: Mask,
    /// How many entries' rules an access read.
    pub entries_read: Option<u64>,
    /// Where the component of a path starts and how long it is; zeros where there is none.
    pub part: Option<(u64, u64)>,
    /// The slot that a turn served or that was read; the layer, the rights and the entries are then those of its answer.
    pub slot: Option<SlotReport>,
    /// What is said of policy files.
    pub policy: Option<PolicyReport>,
}

impl Report {
    /// The report of a call that no layer refused and that says nothing else.
    pub fn empty(rights: Mask) -> Self {
        Self {
            layer: None,
            rights,
            entries_read: None,
            part: None,
            slot: None,
            policy: None,
        }
    }
}

/// Where a ruleset stands, or where a policy file is damaged or that it is too long; no file where none is the reason.
#[derive(Clone, Copy, Debug, Default, PartialEq, Eq)]
pub struct PolicyReport {
    pub file: Option<PolicyFile>,
    pub place: u64,
    pub length: u64,
}

/// A slot: its request, and what its answer's cells hold.
#[derive(Clone, Copy, Debug, PartialEq, Eq)]
pub struct SlotReport {
    pub slot: Slot,
    pub thread: Thread,
    pub entry: Entry,
    pub rights: Rights,
    pub state: SlotState,
    pub answer: Result<(), Errno>,
}

impl SlotReport {
    /// Whether the answer is that of the request.
    pub fn is_answered(&self) -> bool {
        self.state == SlotState::Answered
    }

    /// The answer as `run` shows it.
    pub fn answer(&self) -> Answer {
        self.answer.map_or_else(Answer::Refused, |()| Answer::Done)
    }
}

/// Rights of one sort or the other.
#[derive(Clone, Copy, Debug, PartialEq, Eq, PartialOrd, Ord)]
pub enum Mask {
    Files(Rights),
    Ports(PortRights),
}

impl fmt::Display for Mask {
    fn fmt(&self, f: &mut fmt::Formatter<'_>) -> fmt::Result {
        match self {
            Mask::Files(rights) => rights.fmt(f),
            Mask::Ports(rights) => rights.fmt(f),
        }
    }
}

/// The sort of a report: the rights that a call is refused for, whether it counts entries, or a part of a path.
#[derive(Clone, Copy, PartialEq, Eq)]
pub enum Sort {
    Access,
    Port,
    Change,
    Component,
    Slot,
    Policy,
    /// A policy file or a log that is written; a line says its bytes.
    Written,
}

impl Sort {
    fn mask(self, word: &str) -> Result<Mask, Bad> {
        match self {
            Sort::Port => value(word).map(Mask::Ports),
            _ => value(word).map(Mask::Files),
        }
    }

    /// What may stand after an answer.
    pub fn expected(self) -> &'static str {
        match self {
            Sort::Access => {
                "layer=, rights=, entries_read= or the end of the line after the answer"
            }
            Sort::Component => "start=, length= or the end of the line after the answer",
            Sort::Slot => {
                "answer=, layer=, rights=, entries_read= or the end of the line after the answer"
            }
            Sort::Policy => "file=, place=, length= or the end of the line after the answer",
            Sort::Written => "bytes= or the end of the line after the answer",
            _ => "layer=, rights= or the end of the line after the answer",
        }
    }
}

/// The words after an answer: what a line says of the report. What it does not say may be anything.
#[derive(Clone, Copy, Debug, Default, PartialEq, Eq)]
pub struct ReportWords {
    /// The layer, or that there is none.
    layer: Option<Option<Layer>>,
    rights: Option<Mask>,
    entries_read: Option<u64>,
    start: Option<u64>,
    length: Option<u64>,
    /// What a slot's answer is.
    answer: Option<Result<(), Errno>>,
    /// The policy file, or that there is none.
    file: Option<Option<PolicyFile>>,
    place: Option<u64>,
}

impl ReportWords {
    /// Reads the words, each at most once and in any order, of a call that has a report.
    pub fn parse(words: &[&str], sort: Option<Sort>) -> Result<ReportWords, Bad> {
        let mut read = ReportWords::default();
        for word in words {
            let Some(sort) = sort else {
                return Err(Bad::word(word, "the end of the line after the answer"));
            };
            read.take(word, sort)?;
        }
        Ok(read)
    }

    fn take(&mut self, word: &str, sort: Sort) -> Result<(), Bad> {
        let again = match word.split_once('=') {
            Some(("start", text)) if sort == Sort::Component => {
                self.start.replace(number(text, "a place")?).is_some()
            }
            Some(("length", text)) if matches!(sort, Sort::Component | Sort::Policy) => {
                self.length.replace(number(text, "a length")?).is_some()
            }
            Some(("file", text)) if sort == Sort::Policy => {
                self.file.replace(file(text)?).is_some()
            }
            Some(("place", text)) if sort == Sort::Policy => {
                self.place.replace(number(text, "a place")?).is_some()
            }
            _ if matches!(sort, Sort::Component | Sort::Policy | Sort::Written) => {
                return Err(Bad::word(word, sort.expected()))
            }
            Some(("layer", text)) => self.layer.replace(layer(text)?).is_some(),
            Some(("rights", text)) => self.rights.replace(sort.mask(text)?).is_some(),
            Some(("entries_read", text)) if matches!(sort, Sort::Access | Sort::Slot) => {
                let count = number(text, "how many entries")?;
                self.entries_read.replace(count).is_some()
            }
            Some(("answer", text)) if sort == Sort::Slot => {
                self.answer.replace(slot_answer(text)?).is_some()
            }
            _ => return Err(Bad::word(word, sort.expected())),
        };
        if again {
            return Err(Bad::word(word, "it once"));
        }
        Ok(())
    }

    /// Whether nothing is said.
    pub fn is_empty(self) -> bool {
        self == ReportWords::default()
    }

    /// Whether a report is as the words say. Where they say nothing, a call need not have one.
    pub fn is_met_by(self, report: Option<Report>) -> bool {
        let layer = self.layer.is_none() || self.layer == report.map(|report| report.layer);
        let rights = self.rights.is_none() || self.rights == report.map(|report| report.rights);
        let read = report.and_then(|report| report.entries_read);
        let (start, length) = report.and_then(|report| report.part).unzip();
        let policy = report.and_then(|report| report.policy);
        let length = length.or(policy.map(|policy| policy.length));
        let slot = report.and_then(|report| report.slot);
        let answer = slot.map(|slot| slot.answer);
        layer
            && rights
            && (self.entries_read.is_none() || self.entries_read == read)
            && (self.start.is_none() || self.start == start)
            && (self.length.is_none() || self.length == length)
            && (self.answer.is_none() || self.answer == answer)
            && (self.file.is_none() || self.file == policy.map(|policy| policy.file))
            && (self.place.is_none() || self.place == policy.map(|policy| policy.place))
    }
}

/// A slot's answer: 0 or an error.
fn slot_answer(word: &str) -> Result<Result<(), Errno>, Bad> {
    if word == "0" {
        return Ok(Ok(()));
    }
    let errno = word.parse().map(Err);
    errno.map_err(|_| Bad::word(word, "0, an error's negated number (-13) or its name"))
}

/// One of the two policy files, or that there is none.
fn file(word: &str) -> Result<Option<PolicyFile>, Bad> {
    match word {
        "stock" => Ok(Some(PolicyFile::Stock)),
        "site" => Ok(Some(PolicyFile::Site)),
        "none" => Ok(None),
        _ => Err(Bad::word(word, "stock, site or none")),
    }
}

/// A layer's number, or that there is none.
fn layer(word: &str) -> Result<Option<Layer>, Bad> {
    if word == "none" {
        return Ok(None);
    }
    number(word, "a layer or `none`").map(|number| Some(Layer::new(number)))
}

/// The words as they stand after an answer.
impl fmt::Display for ReportWords {
    fn fmt(&self, f: &mut fmt::Formatter<'_>) -> fmt::Result {
        match self.answer {
            Some(Ok(())) => f.write_str(" answer=0")?,
            Some(Err(errno)) => write!(f, " answer={errno}")?,
            None => {}
        }
        match self.layer {
            Some(Some(layer)) => write!(f, " layer={layer}")?,
            Some(None) => f.write_str(" layer=none")?,
            None => {}
        }
        if let Some(rights) = self.rights {
            write!(f, " rights={rights}")?;
        }
        match self.file {
            Some(Some(file)) => write!(f, " file={file}")?,
            Some(None) => f.write_str(" file=none")?,
            None => {}
        }
        for (word, number) in [
            ("entries_read", self.entries_read),
            ("start", self.start),
            ("place", self.place),
            ("length", self.length),
        ] {
            if let Some(number) = number {
                write!(f, " {word}={number}")?;
            }
        }
        Ok(())
    }
}
