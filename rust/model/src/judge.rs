//! How requests are judged: what the layers of a domain deny at an entry or a port.

use crate::call::Call;
use crate::refusal::{Answer, Refusal};
use crate::rights::Rights;
use crate::state::{Key, Layer, Model, MAX_PORT};

/// An entry that goes from a directory to another one.
#[derive(Clone, Copy)]
pub struct Move {
    pub entry: u64,
    pub from: u64,
    pub to: u64,
}

impl Layer {
    /// The rights that it handles and doesn't grant a port.
    pub fn denied_at_port(&self, port: u64) -> Rights {
        self.masks.net.without(self.rules.granted(Key::Port(port)))
    }
}

impl Model {
    pub fn access(&self, thread: u64, entry: u64, mask: u64) -> Answer {
        let youngest = self.thread(thread)?.youngest;
        let kind = self.entry(entry)?.kind;
        let mask = known_mask(mask, Rights::ALL)?;
        if !mask.within(kind.rights()) {
            return Err(Refusal::RightsNotForFile);
        }
        if self.denied_by_domain(youngest, entry).meets(mask) {
            return Err(Refusal::AccessDenied);
        }
        Ok(0)
    }

    pub fn port(&self, thread: u64, port: u64, mask: u64) -> Answer {
        let youngest = self.thread(thread)?.youngest;
        if port > MAX_PORT {
            return Err(Refusal::PortOutOfRange);
        }
        let mask = known_mask(mask, Rights::NETWORK)?;
        let denied = self.domain(youngest).into_iter().any(|number| {
            let layer = &self.layers[&number];
            layer.denied_at_port(port).meets(mask)
        });
        if denied {
            return Err(Refusal::AccessDenied);
        }
        Ok(0)
    }

    /// What a layer grants an entry: its rules on the entry and on everything above it, joined.
    fn granted(&self, layer: &Layer, entry: u64) -> Rights {
        let way = self.way_up(entry);
        let rules = way
            .iter()
            .map(|at| layer.rules.granted(Key::Object(self.entries[at].object)));
        rules.fold(Rights::NONE, Rights::join)
    }

    /// The rights that a layer handles and doesn't grant an entry.
    pub fn denied(&self, layer: &Layer, entry: u64) -> Rights {
        layer.handled().without(self.granted(layer, entry))
    }

    /// The rights that some layer of a domain denies at an entry.
    pub fn denied_by_domain(&self, youngest: Option<usize>, entry: u64) -> Rights {
        let domain = self.domain(youngest).into_iter();
        let denied = domain.map(|number| self.denied(&self.layers[&number], entry));
        denied.fold(Rights::NONE, Rights::join)
    }

    /// Request W2: how many entries' rules an access read that was answered so, the most that a layer of
    /// the domain needs; 0 where it was refused before the verdict.
    pub fn entries_read(&self, call: &Call, answer: Answer) -> u64 {
        let (
            Call::Access {
                thread,
                entry,
                rights,
                ..
            },
            Ok(_) | Err(Refusal::AccessDenied),
        ) = (call, answer)
        else {
            return 0;
        };
        let domain = self.domain(self.threads[thread].youngest).into_iter();
        let layers = domain.map(|number| &self.layers[&number]);
        let read = layers.map(|layer| self.entries_read_by(layer, *entry, Rights(*rights)));
        read.max().unwrap_or(0)
    }

    /// The fewest entries, from this one up, whose rules leave nothing missing of the rights that the
    /// layer handles; all if something is missing at the root.
    pub fn entries_read_by(&self, layer: &Layer, entry: u64, rights: Rights) -> u64 {
        let mut missing = rights.common(layer.handled());
        let mut read = 0;
        for at in self.way_up(entry) {
            if missing.is_empty() {
                break;
            }
            let object = self.entries[&at].object;
            missing = missing.without(layer.rules.granted(Key::Object(object)));
            read += 1;
        }
        read
    }

    /// What fails containment in a layer: denied where the entry is, not granted by the rule on its
    /// own object, and not denied where it goes.
    pub fn failing(&self, layer: &Layer, moved: Move) -> Rights {
        let entry = self.entries[&moved.entry];
        self.denied(layer, moved.from)
            .common(entry.kind.rights())
            .without(layer.rules.granted(Key::Object(entry.object)))
            .without(self.denied(layer, moved.to))
    }

    /// Whether nothing fails containment in any layer of the domain.
    pub fn contained(&self, youngest: Option<usize>, moved: Move) -> bool {
        let mut domain = self.domain(youngest).into_iter();
        domain.all(|number| self.failing(&self.layers[&number], moved).is_empty())
    }
}

/// Linux's own rule of REFER, which request W3 words otherwise.
impl Model {
    /// How a call is answered, and what it reports, if every layer of a domain handles REFER as soon as one of them has a
    /// file system mask, as in Linux 6.18.
    pub fn answer_by_domain(&self, call: &Call) -> (Answer, Vec<u64>) {
        let mut model = self.clone();
        if let Some(thread) = judged_thread(call).and_then(|thread| self.threads.get(&thread)) {
            model.handle_refer(self.domain(thread.youngest));
        }
        model.answer(call)
    }

    fn handle_refer(&mut self, domain: Vec<usize>) {
        let has_fs = |number: &usize| !self.layers[number].masks.fs.is_empty();
        if domain.iter().any(has_fs) {
            let layers = self.layers.iter_mut();
            for (_, layer) in layers.filter(|(number, _)| domain.contains(number)) {
                layer.masks.fs = layer.masks.fs.join(Rights::REFER);
            }
        }
    }
}

/// The thread of a call that may be refused for REFER.
fn judged_thread(call: &Call) -> Option<u64> {
    match *call {
        Call::Access { thread, .. }
        | Call::Link { thread, .. }
        | Call::Rename { thread, .. }
        | Call::Exchange { thread, .. } => Some(thread),
        _ => None,
    }
}

/// A requested mask: not empty, and of rights that exist at some level.
fn known_mask(mask: u64, all: Rights) -> Result<Rights, Refusal> {
    let mask = Rights(mask);
    if mask.is_empty() {
        return Err(Refusal::EmptyMask);
    }
    if !mask.within(all) {
        return Err(Refusal::UnknownBit);
    }
    Ok(mask)
}
