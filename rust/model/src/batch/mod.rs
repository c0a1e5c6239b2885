//! Request W9: a batch of access, port, link, rename and exchange requests, each of which is answered as its call
//! would be on these tables, up to and with the verdict.
//!
//! [`asked`] makes random batches.

pub mod asked;

use crate::call::Call;
use crate::refusal::{Answer, Refusal};
use crate::state::Model;

/// The cells of a request: its sort, its thread, three numbers, where its name starts in the names, and how long
/// it is.
pub const REQUEST: usize = 7;
/// The cells of an answer: error number or 0, the layer that refused (its number + 1) or 0, its set.
pub const ANSWER: usize = 3;

/// The sorts of requests.
#[derive(Clone, Copy, PartialEq, Eq, PartialOrd, Ord, Debug)]
pub enum Sort {
    Access = 1,
    Port = 2,
    Link = 3,
    Rename = 4,
    Exchange = 5,
}

impl Sort {
    pub const ALL: [Sort; 5] = [
        Sort::Access,
        Sort::Port,
        Sort::Link,
        Sort::Rename,
        Sort::Exchange,
    ];

    pub fn of_number(number: u64) -> Option<Sort> {
        Sort::ALL.into_iter().find(|sort| *sort as u64 == number)
    }

    /// The name of its call.
    pub fn name(self) -> &'static str {
        ["access", "port", "link", "rename", "exchange"][self as usize - 1]
    }

    /// Whether its requests have a name.
    pub fn has_name(self) -> bool {
        matches!(self, Sort::Link | Sort::Rename)
    }
}

/// What a caller gives beside the tables.
#[derive(Clone, PartialEq, Eq, Debug, Default)]
pub struct Batch {
    pub requests: Vec<u64>,
    /// The bytes that the names of requests are parts of.
    pub names: Vec<u8>,
    /// The cells for answers, as they are before.
    pub answers: Vec<u64>,
}

/// A request as the call that it asks about.
pub struct Asked {
    pub sort: Sort,
    pub call: Call,
    /// The name is no part of the names; the call has an empty one in its place.
    pub name_outside: bool,
}

impl Batch {
    /// The requests, or why there are none.
    pub fn asked(&self) -> Result<Vec<Asked>, Refusal> {
        let rows = self.requests.chunks_exact(REQUEST);
        if !rows.remainder().is_empty() {
            return Err(Refusal::RaggedRequests);
        }
        let asked = rows.map(|row| {
            let sort = Sort::of_number(row[0]).ok_or(Refusal::UnknownSort)?;
            Ok(self.request(sort, row))
        });
        let asked: Vec<Asked> = asked.collect::<Result<_, _>>()?;
        if self.answers.len() < ANSWER * asked.len() {
            return Err(Refusal::TooFewAnswers);
        }
        Ok(asked)
    }

    fn request(&self, sort: Sort, row: &[u64]) -> Asked {
        let part = self.part(row[5], row[6]);
        let name = part.unwrap_or_default().to_vec();
        let (thread, report) = (row[1], 2);
        let (source, directory) = (row[2], row[3]);
        let call = match sort {
            Sort::Access => Call::Access {
                thread,
                entry: row[2],
                rights: row[3],
                report,
            },
            Sort::Port => Call::Port {
                thread,
                port: row[2],
                rights: row[3],
                report,
            },
            Sort::Link => Call::Link {
                name,
                thread,
                source,
                directory,
                report,
            },
            Sort::Rename => Call::Rename {
                name,
                thread,
                source,
                directory,
                report,
            },
            Sort::Exchange => Call::Exchange {
                thread,
                source,
                directory,
                entry: row[4],
                report,
            },
        };
        Asked {
            sort,
            call,
            name_outside: sort.has_name() && part.is_none(),
        }
    }

    /// A part of the names, if it lies in them.
    fn part(&self, start: u64, length: u64) -> Option<&[u8]> {
        let end = usize::try_from(start.checked_add(length)?).ok()?;
        self.names.get(start as usize..end)
    }

    /// What the batch answers on sound tables, which show a model, or on others, and every cell for answers after it.
    pub fn answer(&self, model: Option<&Model>) -> (Answer, Vec<u64>) {
        let mut answers = self.answers.clone();
        let asked = match self.asked() {
            Ok(asked) => asked,
            Err(refusal) => return (Err(refusal), answers),
        };
        for (cells, asked) in answers.chunks_exact_mut(ANSWER).zip(&asked) {
            cells.copy_from_slice(&asked.answer(model).1);
        }
        (Ok(0), answers)
    }
}

impl Asked {
    /// What the request is answered on sound tables, which show a model, or on others.
    pub fn answer(&self, model: Option<&Model>) -> (Answer, [u64; ANSWER]) {
        let Some(model) = model else {
            let refusal = Refusal::NotSound;
            return (Err(refusal), [refusal.errno() as u64, 0, 0]);
        };
        let answer = model.ask(&self.call);
        let [layer, rights, _] = model.reported(&self.call, answer);
        let number = answer.err().map_or(0, |refusal| refusal.errno() as u64);
        let answer = match answer {
            Err(Refusal::EmptyName) if self.name_outside => Err(Refusal::NameOutside),
            answer => answer,
        };
        (answer, [number, layer, rights])
    }

    /// The refusal that the call meets after its verdict, where nothing refuses it before.
    pub fn refused_later(&self, model: &Model) -> Option<Refusal> {
        let later = match self.call {
            Call::Link { .. } => model.free_row().map(drop),
            Call::Rename {
                ref name,
                source,
                directory,
                ..
            } => model.replaced(source, directory, name).map(drop),
            _ => Ok(()),
        };
        later.err()
    }
}

impl Model {
    /// What refuses a call up to and with its verdict; else 0.
    pub fn ask(&self, call: &Call) -> Answer {
        match *call {
            Call::Access {
                thread,
                entry,
                rights,
                ..
            } => self.access(thread, entry, rights),
            Call::Port {
                thread,
                port,
                rights,
                ..
            } => self.port(thread, port, rights),
            Call::Link {
                ref name,
                thread,
                source,
                directory,
                ..
            } => self
                .link_verdict(thread, source, directory, name)
                .map(|_| 0),
            Call::Rename {
                ref name,
                thread,
                source,
                directory,
                ..
            } => self
                .rename_verdict(thread, source, directory, name)
                .map(|_| 0),
            Call::Exchange {
                thread,
                source,
                directory,
                entry,
                ..
            } => self
                .exchange_verdict(thread, source, directory, entry)
                .map(|_| 0),
            _ => panic!("{call:?} is of no sort"),
        }
    }
}
