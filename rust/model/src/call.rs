//! Calls as values, and whatever answers them.

use crate::batch::Batch;
use crate::log::{field, other_tree, Log};
use crate::names::component;
use crate::policy::write::{cells_of, Writing};
use crate::policy::Wanted;
use crate::queue::cells::QueueCells;
use crate::queue::{answered, Request};
use crate::refusal::{returned, Answer, Refusal};
use crate::sound::check;
use crate::state::Model;
use crate::tables::{encode_into, Tables};

/// The byte argument of a call, if it has one.
macro_rules! byte_argument {
    () => {
        None
    };
    ($bytes:ident) => {
        Some($bytes)
    };
}

macro_rules! calls {
    (
        |$model:ident|
        $(
            $(#[$doc:meta])*
            $variant:ident $call:literal $([$bytes:ident])? { $($field:ident),* } => $answer:expr;
        )*
    ) => {
        /// A call with its arguments.
        #[derive(Clone, PartialEq, Eq, Debug)]
        pub enum Call {
            $($(#[$doc])* $variant { $($bytes: Vec<u8>,)? $($field: u64),* },)*
        }

        impl Call {
            /// The names of all calls.
            pub const NAMES: &'static [&'static str] = &[$($call),*];

            pub fn name(&self) -> &'static str {
                match self {
                    $(Call::$variant { .. } => $call,)*
                }
            }

            /// The number arguments in order.
            pub fn numbers(&self) -> Vec<u64> {
                match self {
                    $(Call::$variant { $($field,)* .. } => vec![$(*$field),*],)*
                }
            }

            /// The number arguments in order, to be changed.
            pub fn numbers_mut(&mut self) -> Vec<&mut u64> {
                match self {
                    $(Call::$variant { $($field,)* .. } => vec![$($field),*],)*
                }
            }

            /// The attribute, name or path, if the call takes one.
            pub fn bytes(&self) -> Option<&[u8]> {
                let bytes: Option<&Vec<u8>> = match self {
                    $(Call::$variant { $($bytes,)? .. } => byte_argument!($($bytes)?),)*
                };
                bytes.map(Vec::as_slice)
            }

            /// The attribute, name or path, to be changed.
            pub fn bytes_mut(&mut self) -> Option<&mut Vec<u8>> {
                match self {
                    $(Call::$variant { $($bytes,)? .. } => byte_argument!($($bytes)?),)*
                }
            }
        }

        impl Model {
            // A report's length has no say in the answer.
            #[allow(unused_variables)]
            fn answer_number(&mut self, call: &Call) -> Answer {
                let $model = self;
                match *call {
                    $(Call::$variant { $(ref $bytes,)? $($field),* } => $answer,)*
                }
            }
        }
    };
}

calls! {
    |model|
    /// Makes fresh tables.
    Fresh "fresh" { level } => model.make_fresh(level);
    /// Opens a ruleset from attribute bytes.
    CreateRuleset "create_ruleset" [bytes] { flags } => model.create_ruleset(bytes, flags);
    CloseRuleset "close_ruleset" { ruleset } => model.close_ruleset(ruleset);
    AddPathRule "add_path_rule" { ruleset, entry, rights, flags }
        => model.add_path_rule(ruleset, entry, rights, flags);
    AddPortRule "add_port_rule" { ruleset, port, rights, flags }
        => model.add_port_rule(ruleset, port, rights, flags);
    Restrict "restrict" { thread, ruleset, flags } => model.restrict(thread, ruleset, flags);
    /// Reads where a layer's rules stand into a report of so many cells.
    LayerRules "layer_rules" { layer, report } => model.layer_rules(layer).map(|_| 0);
    Clone "clone" { thread } => model.clone_thread(thread);
    End "end" { thread } => model.end_thread(thread);
    SetNoNewPrivs "set_no_new_privs" { thread } => model.set_no_new_privs(thread);
    /// Sets the admin mark, or clears it where `on` is 0.
    SetAdmin "set_admin" { thread, on } => model.set_admin(thread, on != 0);
    Access "access" { thread, entry, rights, report } => model.access(thread, entry, rights);
    Port "port" { thread, port, rights, report } => model.port(thread, port, rights);
    Signal "signal" { thread, target } => model.signal(thread, target);
    AbstractSocket "abstract_socket" { thread, target } => model.abstract_socket(thread, target);
    Create "create" [name] { thread, directory, kind, report }
        => model.create(thread, directory, kind, name);
    Remove "remove" { thread, entry, report } => model.remove(thread, entry);
    Link "link" [name] { thread, source, directory, report }
        => model.link(thread, source, directory, name);
    Rename "rename" [name] { thread, source, directory, report }
        => model.rename(thread, source, directory, name);
    Exchange "exchange" { thread, source, directory, entry, report }
        => model.exchange(thread, source, directory, entry);
    Lookup "lookup" [path] { } => model.lookup(path);
    /// Reports where the first component of a path stands that starts at a place or behind it; it has
    /// no tables.
    Component "component" [path] { place, report } => Ok(0);
}

/// What the cells of a report hold before a call.
pub const UNWRITTEN: u64 = 0x5555_5555_5555_5555;

impl Call {
    /// The cells that a call has to report into, if it reports something.
    pub fn report_length(&self) -> Option<u64> {
        match *self {
            Call::LayerRules { report, .. }
            | Call::Access { report, .. }
            | Call::Port { report, .. }
            | Call::Create { report, .. }
            | Call::Remove { report, .. }
            | Call::Link { report, .. }
            | Call::Rename { report, .. }
            | Call::Exchange { report, .. }
            | Call::Component { report, .. } => Some(report),
            _ => None,
        }
    }

    /// The cells that the call's report has to say.
    pub fn reported_cells(&self) -> u64 {
        match self {
            Call::Access { .. } => 3,
            _ => 2,
        }
    }

    /// What the call answers whatever tables there are, with every cell of its report, if it has no
    /// tables.
    pub fn without_tables(&self) -> Option<(Answer, Vec<u64>)> {
        let Call::Component { path, place, .. } = self else {
            return None;
        };
        let (start, length) = component(path, *place);
        Some((Ok(0), self.report_of([start, length, 0])))
    }

    /// The call with a report of so many cells, if it reports something.
    pub fn with_report(mut self, length: u64) -> Call {
        if self.report_length().is_some() {
            // It is the last number of each call that has one.
            if let Some(report) = self.numbers_mut().pop() {
                *report = length;
            }
        }
        self
    }

    /// The cells of the call's report before it; none for a call without one.
    pub fn unwritten_report(&self) -> Vec<u64> {
        vec![UNWRITTEN; self.report_length().unwrap_or(0) as usize]
    }

    /// The cells of the call's report after it, where it says these numbers: those that fit are
    /// written, and cells past them stay.
    pub fn report_of(&self, numbers: [u64; 3]) -> Vec<u64> {
        let mut report = self.unwritten_report();
        let said = numbers.iter().take(self.reported_cells() as usize);
        for (cell, number) in report.iter_mut().zip(said) {
            *cell = *number;
        }
        report
    }
}

/// What a call returns: its number, and every cell of its report.
#[derive(Clone, PartialEq, Eq, Debug)]
pub struct Reply {
    pub number: u64,
    pub report: Vec<u64>,
}

impl Reply {
    pub fn of(answer: Answer, report: Vec<u64>) -> Reply {
        Reply {
            number: returned(answer),
            report,
        }
    }
}

/// Something that answers calls on tables of any length and contents, and keeps a log and a queue,
/// answers batches, reads and writes policy files as the model does unless it says otherwise.
pub trait Broker {
    /// Answers a call; one that changes the tree has a log with room.
    fn answer(&mut self, tables: &mut Tables, call: &Call) -> Reply;

    /// Answers a call; one that changes the tree has this log.
    fn answer_logged(&mut self, tables: &mut Tables, log: &mut Log, call: &Call) -> Reply {
        let Some(field) = field(call) else {
            return self.answer(tables, call);
        };
        let before = tables.clone();
        let reply = self.answer(tables, call);
        if !other_tree(tables, &before) || log.append(&field) {
            return reply;
        }
        *tables = before;
        Reply::of(Err(Refusal::NoLogRoom), call.report_of([0; 3]))
    }

    /// Makes the changes of a log's written bytes; answers as a call does.
    fn replay(&mut self, tables: &mut Tables, log: &[u8]) -> u64 {
        let answer = match check(tables) {
            Ok(mut model) => {
                let answer = model.replay(log);
                encode_into(&model, tables);
                answer
            }
            Err(_) => Err(Refusal::NotSound),
        };
        returned(answer)
    }

    /// Posts a request in a slot; answers as a call does.
    fn post(&mut self, queue: &mut QueueCells, slot: u64, request: Request) -> u64 {
        returned(queue.post(slot, request))
    }

    /// Takes a turn of the queue on tables; answers as a call does.
    fn turn(&mut self, queue: &mut QueueCells, tables: &Tables) -> u64 {
        returned(queue.turn(|request| answered(check(tables).ok().as_ref(), request).1))
    }

    /// Answers the requests of a batch; reports every cell for answers.
    fn batch(&mut self, tables: &mut Tables, batch: &Batch) -> Reply {
        let (answer, answers) = batch.answer(check(tables).ok().as_ref());
        Reply::of(answer, answers)
    }

    /// Finds a ruleset by its name in policy files.
    fn find_policy(&mut self, wanted: &Wanted) -> Reply {
        let (answer, report) = wanted.find();
        Reply::of(answer, wanted.report_of(report))
    }

    /// Opens a ruleset as policy files have it under a name.
    fn apply_policy(&mut self, tables: &mut Tables, wanted: &Wanted) -> Reply {
        let (answer, report) = match check(tables) {
            Ok(mut model) => {
                let applied = model.apply_policy(wanted);
                encode_into(&model, tables);
                applied
            }
            Err(_) => (Err(Refusal::NotSound), [0; 3]),
        };
        Reply::of(answer, wanted.report_of(report))
    }

    /// Writes the policy file of a ruleset; reports every byte of the output.
    fn write_policy(&mut self, tables: &mut Tables, writing: &Writing) -> Reply {
        let (answer, out) = match check(tables) {
            Ok(model) => model.write_policy(writing),
            Err(_) => (Err(Refusal::NotSound), writing.unwritten()),
        };
        Reply::of(answer, cells_of(&out))
    }
}

impl Model {
    /// Answers a call, with every cell of its report.
    pub fn answer(&mut self, call: &Call) -> (Answer, Vec<u64>) {
        call.without_tables().unwrap_or_else(|| {
            let answer = self.answer_number(call);
            (answer, call.report_of(self.reported(call, answer)))
        })
    }

    /// What a call that was answered so reports: where a layer's rules stand, as their first cell in the
    /// pool and their number of cells; or which layer refused, as its number + 1, and its set, and of an
    /// access how many entries' rules were read.
    pub fn reported(&self, call: &Call, answer: Answer) -> [u64; 3] {
        if let Call::LayerRules { layer, .. } = *call {
            let (place, count) = self.layer_rules(layer).unwrap_or_default();
            return [3 * place as u64, 3 * count as u64, 0];
        }
        let denial = answer.err().and_then(|refusal| self.denial(call, refusal));
        let (layer, rights) =
            denial.map_or((0, 0), |denial| (denial.layer as u64 + 1, denial.rights.0));
        [layer, rights, self.entries_read(call, answer)]
    }
}
