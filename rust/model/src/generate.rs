//! Random calls, with arguments that mostly name live things.

use crate::call::Call;
use crate::names::Name;
use crate::paths::{bad_name, new_name, path, place};
use crate::queue::Request;
use crate::rights::{Masks, Rights};
use crate::rulesets::known_size;
use crate::start::{masks, some_of};
use crate::state::{Key, Model, MAX_ENTRIES, MAX_RULESETS, MAX_THREADS, ROOT};
use random::Random;

/// Which calls are made most.
#[derive(Clone, Copy)]
pub enum Mix {
    Every,
    /// Those that look at the tree or change it.
    Tree,
}

/// A random call for tables that show a model.
pub fn call(model: &Model, mix: Mix, random: &mut Random) -> Call {
    let mut choose = Choose { model, random };
    let sort = match mix {
        Mix::Tree if choose.random.chance(90) => choose.random.between(540, 999),
        _ => choose.random.below(1000),
    };
    let (_, make) = SORTS[SORTS.partition_point(|(end, _)| *end <= sort)];
    make(&mut choose)
}

/// The arguments of a random access, for tables that show a model.
pub fn access_request(model: &Model, random: &mut Random) -> Request {
    Choose { model, random }.request()
}

/// A random call that a batch may ask about, for tables that show a model.
pub fn asked_call(model: &Model, random: &mut Random) -> Call {
    let mut choose = Choose { model, random };
    match choose.random.below(10) {
        0 | 1 => choose.access(),
        2 => choose.port(),
        3 | 4 => choose.link(),
        5..=7 => choose.rename(),
        _ => choose.exchange(),
    }
}

/// A random call that may change the tree, for tables that show a model.
pub fn tree_call(model: &Model, random: &mut Random) -> Call {
    let mut choose = Choose { model, random };
    match choose.random.below(10) {
        0..=2 => choose.create(),
        3 => choose.remove(),
        4 | 5 => choose.link(),
        6 | 7 => choose.rename(),
        _ => choose.exchange(),
    }
}

/// A random call of every name, `fresh` the last.
pub fn every_call(model: &Model, random: &mut Random) -> Vec<Call> {
    let mut choose = Choose { model, random };
    let sorts = SORTS.iter().rev();
    sorts.map(|(_, make)| make(&mut choose)).collect()
}

type Make = fn(&mut Choose) -> Call;

/// The calls, each with the end of its share of a thousand.
const SORTS: [(u64, Make); 22] = [
    (4, |choose| choose.fresh()),
    (70, |choose| choose.create_ruleset()),
    (95, |choose| choose.close_ruleset()),
    (180, |choose| choose.add_path_rule()),
    (230, |choose| choose.add_port_rule()),
    (305, |choose| choose.restrict()),
    (325, |choose| choose.layer_rules()),
    (360, |choose| choose.clone_thread()),
    (395, |choose| choose.end_thread()),
    (405, |choose| choose.set_no_new_privs()),
    (425, |choose| choose.set_admin()),
    (450, |choose| choose.signal()),
    (475, |choose| choose.abstract_socket()),
    (500, |choose| choose.component()),
    (560, |choose| choose.access()),
    (595, |choose| choose.port()),
    (670, |choose| choose.create()),
    (710, |choose| choose.remove()),
    (765, |choose| choose.link()),
    (865, |choose| choose.rename()),
    (950, |choose| choose.exchange()),
    (1000, |choose| choose.lookup()),
];

/// The choice of arguments.
struct Choose<'a> {
    model: &'a Model,
    random: &'a mut Random,
}

impl Choose<'_> {
    fn fresh(&mut self) -> Call {
        let level = if self.random.chance(70) {
            self.random.below(9)
        } else {
            self.random.edge()
        };
        Call::Fresh { level }
    }

    fn create_ruleset(&mut self) -> Call {
        let bytes = self.attribute();
        let flags = self.flags();
        Call::CreateRuleset { bytes, flags }
    }

    /// Attribute bytes: mostly masks of the level at its known size, else of odd size or with junk.
    fn attribute(&mut self) -> Vec<u8> {
        let masks = masks(self.model.level.max(1), self.random);
        let fields = match self.random.below(10) {
            0 => [self.random.edge(), self.random.edge(), self.random.edge()],
            1 => [masks.fs.0, masks.net.0, 1 << self.random.below(64)],
            2 => [masks.fs.0, 1 << self.random.below(64), 0],
            3 => [1 << self.random.below(64), 0, 0],
            4 => [0; 3],
            _ => [masks.fs.0, masks.net.0, masks.scope.0],
        };
        let mut bytes: Vec<u8> = fields.into_iter().flat_map(u64::to_le_bytes).collect();
        let length = match self.random.below(20) {
            0..=4 => self.random.below(41),
            5 => self.random.between(4094, 4098),
            6 => self.random.below(9),
            _ => known_size(self.model.level) as u64,
        };
        bytes.resize(length as usize, 0);
        if self.random.chance(8) && !bytes.is_empty() {
            let at = self.random.below(length) as usize;
            bytes[at] = self.random.number() as u8;
        }
        bytes
    }

    fn close_ruleset(&mut self) -> Call {
        let ruleset = self.ruleset();
        Call::CloseRuleset { ruleset }
    }

    fn add_path_rule(&mut self) -> Call {
        let ruleset = self.ruleset();
        let entry = if self.random.chance(15) {
            ROOT
        } else {
            self.entry()
        };
        let handled = self.handled(ruleset, |masks| masks.fs);
        let kind = self.model.entries.get(&entry).map(|entry| entry.kind);
        let mut sensible = handled.common(kind.map_or(Rights::ALL, |kind| kind.rights()));
        if entry == ROOT {
            sensible = self.at_root(sensible);
        }
        let rights = self.rights(sensible, handled);
        let flags = self.flags();
        Call::AddPathRule {
            ruleset,
            entry,
            rights,
            flags,
        }
    }

    /// Of rights, mostly those that a rule on the root may ask for, or these with one more.
    fn at_root(&mut self, rights: Rights) -> Rights {
        let fine = rights.without(Rights::CHANGING);
        match self.random.below(6) {
            0 => rights,
            1 | 2 => fine.join(self.one_of(rights)),
            _ => fine,
        }
    }

    /// One of some rights, if there is one.
    fn one_of(&mut self, rights: Rights) -> Rights {
        let bits: Vec<u64> = (0..16).filter(|bit| rights.0 >> bit & 1 == 1).collect();
        let bit = self.random.pick_some(&bits);
        bit.map_or(Rights::NONE, |bit| Rights(1 << bit))
    }

    fn add_port_rule(&mut self) -> Call {
        let model = self.model;
        let open = model.rulesets.iter();
        let handling = open.filter(|(_, ruleset)| !ruleset.masks.net.is_empty());
        let numbers: Vec<u64> = handling.map(|(number, _)| *number).collect();
        let ruleset = match self.random.pick_some(&numbers) {
            Some(number) if self.random.chance(70) => number,
            _ => self.ruleset(),
        };
        let handled = self.handled(ruleset, |masks| masks.net);
        let rights = self.rights(handled, Rights::NETWORK);
        let port = self.port_number();
        let flags = self.flags();
        Call::AddPortRule {
            ruleset,
            port,
            rights,
            flags,
        }
    }

    /// What an open ruleset handles; something for one that isn't open.
    fn handled(&self, ruleset: u64, part: fn(&Masks) -> Rights) -> Rights {
        let ruleset = self.model.rulesets.get(&ruleset);
        ruleset.map_or(Rights::ALL, |ruleset| part(&ruleset.masks))
    }

    /// Mostly some of the sensible rights, else of the wider ones, else anything.
    fn rights(&mut self, sensible: Rights, wider: Rights) -> u64 {
        match self.random.below(12) {
            0 => self.random.edge(),
            1 => 1 << self.random.below(64),
            2 => some_of(wider, self.random).0,
            _ => some_of(sensible, self.random).0,
        }
    }

    fn restrict(&mut self) -> Call {
        let thread = self.thread();
        let ruleset = self.ruleset();
        let flags = self.flags();
        Call::Restrict {
            thread,
            ruleset,
            flags,
        }
    }

    fn layer_rules(&mut self) -> Call {
        let in_use: Vec<u64> = self.model.layers.keys().map(|n| *n as u64).collect();
        let layer = match self.random.pick_some(&in_use) {
            Some(layer) if self.random.chance(75) => layer + self.random.below(6) / 5,
            _ => self.random.edge(),
        };
        let report = self.report();
        Call::LayerRules { layer, report }
    }

    /// The length of a report, in cells.
    fn report(&mut self) -> u64 {
        self.random.pick(&[0, 1, 1, 2, 2, 2, 3, 3, 5])
    }

    fn clone_thread(&mut self) -> Call {
        let thread = self.thread();
        Call::Clone { thread }
    }

    fn end_thread(&mut self) -> Call {
        let thread = self.thread();
        Call::End { thread }
    }

    fn set_no_new_privs(&mut self) -> Call {
        let thread = self.thread();
        Call::SetNoNewPrivs { thread }
    }

    fn set_admin(&mut self) -> Call {
        let thread = self.thread();
        let on = self.random.pick(&[0, 0, 1, 2, u64::MAX]);
        Call::SetAdmin { thread, on }
    }

    fn access(&mut self) -> Call {
        let request = self.request();
        Call::Access {
            thread: request.thread,
            entry: request.entry,
            rights: request.rights,
            report: self.report(),
        }
    }

    fn request(&mut self) -> Request {
        let thread = self.thread();
        let entry = self.entry();
        let kind = self.model.entries.get(&entry).map(|entry| entry.kind);
        let sensible = kind.map_or(Rights::ALL, |kind| kind.rights());
        let one = self.one_of(sensible);
        let rights = self.rights(one, sensible);
        Request {
            thread,
            entry,
            rights,
        }
    }

    fn port(&mut self) -> Call {
        let thread = self.thread();
        let port = self.port_number();
        let rights = if self.random.chance(80) {
            self.random.between(1, 3)
        } else {
            self.random.edge()
        };
        Call::Port {
            thread,
            port,
            rights,
            report: self.report(),
        }
    }

    fn signal(&mut self) -> Call {
        let [thread, target] = [(); 2].map(|()| self.thread());
        Call::Signal { thread, target }
    }

    fn abstract_socket(&mut self) -> Call {
        let [thread, target] = [(); 2].map(|()| self.thread());
        Call::AbstractSocket { thread, target }
    }

    fn create(&mut self) -> Call {
        let thread = self.thread();
        let directory = if self.random.chance(85) {
            self.directory()
        } else {
            self.entry()
        };
        let kind = match self.random.below(10) {
            0 => self.random.edge(),
            1..=3 => 2,
            _ => self.random.between(1, 7),
        };
        Call::Create {
            name: self.name(directory),
            thread,
            directory,
            kind,
            report: self.report(),
        }
    }

    fn remove(&mut self) -> Call {
        let thread = self.thread();
        let entry = self.entry();
        let report = self.report();
        Call::Remove {
            thread,
            entry,
            report,
        }
    }

    fn link(&mut self) -> Call {
        let thread = self.thread();
        let source = if self.random.chance(90) {
            self.entry_where(|model, entry| !model.entries[&entry].kind.is_directory())
        } else {
            self.entry()
        };
        let directory = self.target();
        Call::Link {
            name: self.name(directory),
            thread,
            source,
            directory,
            report: self.report(),
        }
    }

    fn rename(&mut self) -> Call {
        let thread = self.thread();
        let (source, directory, entry) = self.moved();
        let name = match self.random.below(10) {
            0 => self.model.names.of(source).to_vec(),
            1..=6 => self.model.names.of(entry).to_vec(),
            _ => self.name(directory),
        };
        Call::Rename {
            name,
            thread,
            source,
            directory,
            report: self.report(),
        }
    }

    fn lookup(&mut self) -> Call {
        let path = path(self.model, self.random);
        Call::Lookup { path }
    }

    fn component(&mut self) -> Call {
        let path = path(self.model, self.random);
        Call::Component {
            place: place(&path, self.random),
            path,
            report: self.report(),
        }
    }

    /// A name for an entry of a directory: mostly a free one, else one that is there, or none.
    fn name(&mut self, directory: u64) -> Name {
        match self.random.below(20) {
            0..=2 => bad_name(self.random),
            3 | 4 => {
                let child = self.child(directory);
                self.model.names.of(child).to_vec()
            }
            5 => {
                let entry = self.entry();
                self.model.names.of(entry).to_vec()
            }
            _ => new_name(self.model, directory, self.random),
        }
    }

    fn exchange(&mut self) -> Call {
        let thread = self.thread();
        let (source, directory, entry) = self.moved();
        Call::Exchange {
            thread,
            source,
            directory,
            entry,
            report: self.report(),
        }
    }

    fn flags(&mut self) -> u64 {
        if self.random.chance(95) {
            0
        } else {
            self.random.edge()
        }
    }

    fn thread(&mut self) -> u64 {
        let live: Vec<u64> = self.model.threads.keys().copied().collect();
        self.live_or_any(&live, MAX_THREADS)
    }

    fn ruleset(&mut self) -> u64 {
        let open: Vec<u64> = self.model.rulesets.keys().copied().collect();
        self.live_or_any(&open, MAX_RULESETS)
    }

    fn entry(&mut self) -> u64 {
        let live: Vec<u64> = self.model.entries.keys().copied().collect();
        self.live_or_any(&live, MAX_ENTRIES)
    }

    /// Mostly an entry other than the root.
    fn below_root(&mut self) -> u64 {
        if self.random.chance(10) {
            return self.entry();
        }
        self.entry_where(|_, entry| entry != ROOT)
    }

    /// Mostly one of the live numbers, else any below the limit or at some edge.
    fn live_or_any(&mut self, live: &[u64], limit: u64) -> u64 {
        match self.random.below(20) {
            0 => self.random.edge(),
            1 => self.random.below(limit),
            _ => self.random.pick_some(live).unwrap_or(0),
        }
    }

    /// An entry with a property, or any if none has it.
    fn entry_where(&mut self, holds: fn(&Model, u64) -> bool) -> u64 {
        let live = self.model.entries.keys().copied();
        let fit: Vec<u64> = live.filter(|entry| holds(self.model, *entry)).collect();
        match self.random.pick_some(&fit) {
            Some(entry) => entry,
            None => self.entry(),
        }
    }

    fn directory(&mut self) -> u64 {
        self.entry_where(|model, entry| model.entries[&entry].kind.is_directory())
    }

    /// A directory, or sometimes another entry.
    fn target(&mut self) -> u64 {
        if self.random.chance(90) {
            self.directory()
        } else {
            self.entry()
        }
    }

    fn parent(&self, entry: u64) -> u64 {
        let entry = self.model.entries.get(&entry);
        entry.map_or(ROOT, |entry| entry.parent)
    }

    /// The entry or something above it, if it is live.
    fn at_or_above(&mut self, entry: u64) -> u64 {
        if !self.model.entries.contains_key(&entry) {
            return entry;
        }
        let mut way = self.model.way_up(entry);
        way.truncate(4);
        if way.len() > 1 && self.random.chance(80) {
            way.retain(|above| *above != ROOT);
        }
        self.random.pick(&way)
    }

    /// A child of a directory, or any entry.
    fn child(&mut self, directory: u64) -> u64 {
        let entries = self.model.entries.iter();
        let children: Vec<u64> = entries
            .filter(|(number, entry)| **number != ROOT && entry.parent == directory)
            .map(|(number, _)| *number)
            .collect();
        match self.random.pick_some(&children) {
            Some(child) => child,
            None => self.entry(),
        }
    }

    /// Another entry of the same object, or the entry itself.
    fn linked(&mut self, entry: u64) -> u64 {
        let Some(object) = self.model.entries.get(&entry).map(|entry| entry.object) else {
            return entry;
        };
        let entries = self.model.entries.iter();
        let links: Vec<u64> = entries
            .filter(|(_, entry)| entry.object == object)
            .map(|(number, _)| *number)
            .collect();
        self.random.pick(&links)
    }

    /// The source, directory and other entry of a rename or exchange, in the shapes that the checks
    /// tell apart.
    fn moved(&mut self) -> (u64, u64, u64) {
        let any = self.below_root();
        let directory = self.target();
        match self.random.below(12) {
            0 => (any, directory, self.child(directory)),
            1 => (any, self.parent(any), self.child(self.parent(any))),
            2 => {
                let source = self.at_or_above(directory);
                (source, directory, self.child(directory))
            }
            3 => (any, directory, self.entry()),
            shape => {
                let (source, other) = match shape {
                    4 => (any, self.at_or_above(self.parent(any))),
                    5 => (any, self.linked(any)),
                    6 | 7 => (self.directory(), self.directory()),
                    _ => (any, self.below_root()),
                };
                (source, self.parent(other), other)
            }
        }
    }

    /// A port of a rule of some layer or ruleset, a small one, or one at an edge.
    fn port_number(&mut self) -> u64 {
        let layers = self.model.layers.values().map(|layer| &layer.rules);
        let rulesets = self.model.rulesets.values().map(|ruleset| &ruleset.rules);
        let keys = layers.chain(rulesets).flat_map(|rules| rules.iter());
        let ports: Vec<u64> = keys
            .filter_map(|(key, _)| match key {
                Key::Port(port) => Some(port),
                Key::Object(_) => None,
            })
            .collect();
        match self.random.below(4) {
            0 => self.random.edge(),
            1 => self.random.below(20),
            _ => self.random.pick_some(&ports).unwrap_or(80),
        }
    }
}
