//! Request W11: the log of tree changes, and replay.
//!
//! [`history`] keeps what happened since a log was empty; [`made`] makes random and damaged logs.

pub mod history;
pub mod made;

use crate::call::Call;
use crate::names::Names;
use crate::refusal::{Answer, Refusal};
use crate::state::{Entry, Model, Thread};
use crate::tables::{Table, Tables};
use std::collections::BTreeMap;

/// The most bytes of a value.
pub const LONGEST_VALUE: usize = 64;
/// The most bytes of a field: its tag, its length and the value.
pub const LONGEST_FIELD: usize = 3 + LONGEST_VALUE;
/// What the bytes of a log hold before they are written.
pub const UNWRITTEN: u8 = 0x55;
/// More bytes than the fields of a short list of calls need.
const PLENTY: usize = 8192;

/// The bytes that a log may take, and how many of them are written.
#[derive(Clone, PartialEq, Eq, Debug)]
pub struct Log {
    pub bytes: Vec<u8>,
    pub used: u64,
}

impl Log {
    pub fn empty(room: usize) -> Log {
        Log {
            bytes: vec![UNWRITTEN; room],
            used: 0,
        }
    }

    /// An empty log that a short list of calls does not fill.
    pub fn plenty() -> Log {
        Log::empty(PLENTY)
    }

    /// The bytes that are written; all of them where the mark lies behind the end.
    pub fn written(&self) -> &[u8] {
        let used = usize::try_from(self.used).unwrap_or(usize::MAX);
        &self.bytes[..used.min(self.bytes.len())]
    }

    /// The bytes behind those that are written; none where the mark lies behind the end.
    pub fn room(&self) -> u64 {
        (self.bytes.len() as u64).saturating_sub(self.used)
    }

    /// Writes a field behind the others, if there is room.
    pub fn append(&mut self, field: &[u8]) -> bool {
        let fits = field.len() as u64 <= self.room();
        if fits {
            let start = self.used as usize;
            self.bytes[start..start + field.len()].copy_from_slice(field);
            self.used += field.len() as u64;
        }
        fits
    }
}

/// The field of a call that changed the tree: "tag 16 create, 17 remove, 18 link, 19 rename, 20 exchange". None for the
/// other calls.
pub fn field(call: &Call) -> Option<Vec<u8>> {
    let (tag, kind, numbers, name): (u8, Option<u64>, &[u64], &[u8]) = match call {
        Call::Create {
            name,
            directory,
            kind,
            ..
        } => (16, Some(*kind), &[*directory], name),
        Call::Remove { entry, .. } => (17, None, &[*entry], &[]),
        Call::Link {
            name,
            source,
            directory,
            ..
        } => (18, None, &[*source, *directory], name),
        Call::Rename {
            name,
            source,
            directory,
            ..
        } => (19, None, &[*source, *directory], name),
        Call::Exchange {
            source,
            directory,
            entry,
            ..
        } => (20, None, &[*source, *directory, *entry], &[]),
        _ => return None,
    };
    let mut value: Vec<u8> = kind.map(|kind| kind as u8).into_iter().collect();
    for number in numbers {
        value.extend((*number as u16).to_le_bytes());
    }
    value.extend(name);
    let length = (value.len() as u16).to_le_bytes();
    Some([&[tag], &length[..], &value].concat())
}

/// The whole fields of a log, each as its tag and value, and how many bytes are behind them.
pub fn fields(log: &[u8]) -> (Vec<(u8, &[u8])>, usize) {
    let mut fields = Vec::new();
    let mut rest = log;
    while let [tag, low, high, behind @ ..] = rest {
        let length = usize::from(u16::from_le_bytes([*low, *high]));
        let Some((value, after)) = behind.split_at_checked(length) else {
            break;
        };
        fields.push((*tag, value));
        rest = after;
    }
    (fields, rest.len())
}

/// The call of a field, as thread 0 makes it.
pub fn call_of(tag: u8, value: &[u8]) -> Result<Call, Refusal> {
    let number = |low: u8, high: u8| u64::from(u16::from_le_bytes([low, high]));
    let (thread, report) = (0, 0);
    match (tag, value) {
        (16..=20, _) if value.len() > LONGEST_VALUE => Err(Refusal::FieldValue),
        (16, [kind, d0, d1, name @ ..]) => Ok(Call::Create {
            name: name.to_vec(),
            thread,
            directory: number(*d0, *d1),
            kind: u64::from(*kind),
            report,
        }),
        (17, [e0, e1]) => Ok(Call::Remove {
            thread,
            entry: number(*e0, *e1),
            report,
        }),
        (18, [s0, s1, d0, d1, name @ ..]) => Ok(Call::Link {
            name: name.to_vec(),
            thread,
            source: number(*s0, *s1),
            directory: number(*d0, *d1),
            report,
        }),
        (19, [s0, s1, d0, d1, name @ ..]) => Ok(Call::Rename {
            name: name.to_vec(),
            thread,
            source: number(*s0, *s1),
            directory: number(*d0, *d1),
            report,
        }),
        (20, [s0, s1, d0, d1, e0, e1]) => Ok(Call::Exchange {
            thread,
            source: number(*s0, *s1),
            directory: number(*d0, *d1),
            entry: number(*e0, *e1),
            report,
        }),
        (16..=20, _) => Err(Refusal::FieldValue),
        _ => Err(Refusal::FieldTag),
    }
}

/// The tree, its names, and the number of the next object.
#[derive(Clone, PartialEq, Eq, Debug)]
pub struct Tree {
    entries: BTreeMap<u64, Entry>,
    names: Names,
    next_object: u64,
}

impl Model {
    pub fn tree(&self) -> Tree {
        Tree {
            entries: self.entries.clone(),
            names: self.names.clone(),
            next_object: self.next_object,
        }
    }

    pub fn set_tree(&mut self, tree: Tree) {
        self.entries = tree.entries;
        self.names = tree.names;
        self.next_object = tree.next_object;
    }

    /// Whether an entry or a name is other than in a tree.
    fn differs_from(&self, tree: &Tree) -> bool {
        self.entries != tree.entries || self.names != tree.names
    }

    /// Answers a call, with every cell of its report. "Each successful tree change, in this request also one of names
    /// alone, is appended"; "a change whose field has no room is ENOSPC, after all its other refusals".
    pub fn answer_logged(&mut self, log: &mut Log, call: &Call) -> (Answer, Vec<u64>) {
        let Some(field) = field(call) else {
            return self.answer(call);
        };
        let before = self.tree();
        let answered = self.answer(call);
        if !self.differs_from(&before) || log.append(&field) {
            return answered;
        }
        self.set_tree(before);
        (Err(Refusal::NoLogRoom), call.report_of([0; 3]))
    }

    /// Makes the changes whose fields are whole; answers "how many bytes at the tail were dropped". A field that is
    /// refused leaves all as it was.
    pub fn replay(&mut self, log: &[u8]) -> Answer {
        let (fields, dropped) = fields(log);
        let mut after = self.undenied();
        for (tag, value) in fields {
            after.change(tag, value)?;
        }
        self.set_tree(after.tree());
        Ok(dropped as u64)
    }

    /// The same tree, and one thread that no layer denies anything.
    pub fn undenied(&self) -> Model {
        let mut free = Model::fresh(self.level);
        free.set_tree(self.tree());
        free.threads = BTreeMap::from([(0, Thread::default())]);
        free
    }

    /// Makes the change of a field. "A whole field of unknown tag, with a value not listed in docs/, or whose call (thread,
    /// verdict and log apart) would refuse or change nothing is EBADMSG".
    fn change(&mut self, tag: u8, value: &[u8]) -> Result<(), Refusal> {
        let call = call_of(tag, value)?;
        let before = self.tree();
        let (answer, _) = self.answer(&call);
        answer.map_err(|_| Refusal::FieldRefused)?;
        match self.differs_from(&before) {
            true => Ok(()),
            false => Err(Refusal::FieldIdle),
        }
    }
}

/// Whether an entry or a name differs between tables.
pub fn other_tree(one: &Tables, two: &Tables) -> bool {
    one.of(Table::Entries) != two.of(Table::Entries) || one.names != two.names
}
