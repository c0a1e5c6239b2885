//! What the broker keeps, as maps and records.

use crate::names::Names;
use crate::refusal::{Answer, Refusal};
use crate::rights::{Masks, Rights};
use std::collections::{BTreeMap, BTreeSet};

pub const LAST_LEVEL: u64 = 6;
pub const MAX_ENTRIES: u64 = 1024;
pub const MAX_RULESETS: u64 = 16;
pub const MAX_RULES: usize = 64;
pub const MAX_LAYERS: usize = 256;
pub const POOL_PLACES: usize = 1024;
pub const MAX_THREADS: u64 = 8;
pub const MAX_DOMAIN: usize = 64;
pub const MAX_PORT: u64 = 65_535;
/// The object counter when no object number is left.
pub const OBJECTS_END: u64 = 1 << 32;
/// The entry number of the root directory.
pub const ROOT: u64 = 0;

/// What an entry is.
#[derive(Clone, Copy, PartialEq, Eq, Debug)]
pub enum Kind {
    Regular = 1,
    Directory = 2,
    Character = 3,
    Block = 4,
    Fifo = 5,
    Socket = 6,
    Symlink = 7,
}

impl Kind {
    pub const ALL: [Kind; 7] = [
        Kind::Regular,
        Kind::Directory,
        Kind::Character,
        Kind::Block,
        Kind::Fifo,
        Kind::Socket,
        Kind::Symlink,
    ];

    pub fn of_number(number: u64) -> Option<Kind> {
        Kind::ALL.into_iter().find(|kind| *kind as u64 == number)
    }

    pub fn is_directory(self) -> bool {
        self == Kind::Directory
    }

    /// The right to make an entry of this kind.
    pub fn make(self) -> Rights {
        match self {
            Kind::Regular => Rights::MAKE_REG,
            Kind::Directory => Rights::MAKE_DIR,
            Kind::Character => Rights::MAKE_CHAR,
            Kind::Block => Rights::MAKE_BLOCK,
            Kind::Fifo => Rights::MAKE_FIFO,
            Kind::Socket => Rights::MAKE_SOCK,
            Kind::Symlink => Rights::MAKE_SYM,
        }
    }

    /// The right to remove an entry of this kind.
    pub fn remove(self) -> Rights {
        if self.is_directory() {
            Rights::REMOVE_DIR
        } else {
            Rights::REMOVE_FILE
        }
    }

    /// The rights that mean something for this kind.
    pub fn rights(self) -> Rights {
        if self.is_directory() {
            Rights::ALL
        } else {
            Rights::FILE
        }
    }
}

#[derive(Clone, Copy, PartialEq, Eq, Debug)]
pub struct Entry {
    pub kind: Kind,
    pub parent: u64,
    pub object: u64,
}

/// What a rule speaks about.
#[derive(Clone, Copy, PartialEq, Eq, PartialOrd, Ord, Debug)]
pub enum Key {
    Object(u64),
    Port(u64),
}

/// Rules, each key at most once, in the order first added.
#[derive(Clone, PartialEq, Eq, Debug, Default)]
pub struct Rules {
    order: Vec<Key>,
    rights: BTreeMap<Key, Rights>,
}

impl Rules {
    pub fn len(&self) -> usize {
        self.order.len()
    }

    pub fn is_empty(&self) -> bool {
        self.order.is_empty()
    }

    pub fn contains(&self, key: Key) -> bool {
        self.rights.contains_key(&key)
    }

    /// The rights of the rule for a key, none where there is no rule.
    pub fn granted(&self, key: Key) -> Rights {
        self.rights.get(&key).copied().unwrap_or_default()
    }

    /// Adds a rule, or joins the rights to the rule that is there.
    pub fn add(&mut self, key: Key, rights: Rights) {
        let there = self.rights.entry(key).or_insert_with(|| {
            self.order.push(key);
            Rights::NONE
        });
        *there = there.join(rights);
    }

    /// Takes a rule out; answers its place in the order.
    pub fn remove(&mut self, key: Key) -> Option<usize> {
        let place = self.order.iter().position(|other| *other == key)?;
        self.order.remove(place);
        self.rights.remove(&key);
        Some(place)
    }

    /// The rules in order.
    pub fn iter(&self) -> impl Iterator<Item = (Key, Rights)> + '_ {
        self.order.iter().map(|key| (*key, self.rights[key]))
    }
}

#[derive(Clone, PartialEq, Eq, Debug, Default)]
pub struct Ruleset {
    pub masks: Masks,
    pub rules: Rules,
}

#[derive(Clone, PartialEq, Eq, Debug, Default)]
pub struct Layer {
    pub parent: Option<usize>,
    pub masks: Masks,
    pub rules: Rules,
}

impl Layer {
    /// The file system rights it handles: those asked for, and with any of them REFER.
    pub fn handled(&self) -> Rights {
        let asked = self.masks.fs;
        if asked.is_empty() {
            Rights::NONE
        } else {
            asked.join(Rights::REFER)
        }
    }
}

#[derive(Clone, Copy, PartialEq, Eq, Debug, Default)]
pub struct Thread {
    /// The youngest layer of its domain.
    pub youngest: Option<usize>,
    pub no_new_privs: bool,
    pub admin: bool,
}

/// Sound tables: level, tree and names, rulesets, layers and threads. The layers are those that a live thread
/// reaches; who holds one, and where its rules stand in the pool, is counted when it is asked.
#[derive(Clone, PartialEq, Eq, Debug)]
pub struct Model {
    pub level: u64,
    pub next_object: u64,
    pub entries: BTreeMap<u64, Entry>,
    pub names: Names,
    pub rulesets: BTreeMap<u64, Ruleset>,
    /// The layers in use by record.
    pub layers: BTreeMap<usize, Layer>,
    /// The layers with rules, in the order of these in the pool.
    pub runs: Vec<usize>,
    pub threads: BTreeMap<u64, Thread>,
}

impl Model {
    /// Fresh tables: the root directory and one thread without a domain.
    pub fn fresh(level: u64) -> Model {
        let root = Entry {
            kind: Kind::Directory,
            parent: ROOT,
            object: 0,
        };
        Model {
            level,
            next_object: 1,
            entries: BTreeMap::from([(ROOT, root)]),
            names: Names::default(),
            rulesets: BTreeMap::new(),
            layers: BTreeMap::new(),
            runs: Vec::new(),
            threads: BTreeMap::from([(0, Thread::default())]),
        }
    }

    pub fn make_fresh(&mut self, level: u64) -> Answer {
        if level > LAST_LEVEL {
            return Err(Refusal::UnknownLevel);
        }
        *self = Model::fresh(level);
        Ok(0)
    }

    pub fn thread(&self, number: u64) -> Result<&Thread, Refusal> {
        self.threads.get(&number).ok_or(Refusal::ThreadNotLive)
    }

    pub fn entry(&self, number: u64) -> Result<Entry, Refusal> {
        self.entries
            .get(&number)
            .copied()
            .ok_or(Refusal::EntryNotLive)
    }

    /// Takes a row for an entry, which bears a name in its directory.
    pub fn add_entry(&mut self, number: u64, entry: Entry, name: &[u8]) {
        self.names.give(number, entry.parent, name);
        self.entries.insert(number, entry);
    }

    /// Frees an entry's row.
    pub fn free_entry(&mut self, number: u64) {
        self.names.take(number);
        self.entries.remove(&number);
    }

    /// Puts an entry into a directory under a name.
    pub fn put_entry(&mut self, number: u64, directory: u64, name: &[u8]) {
        if let Some(entry) = self.entries.get_mut(&number) {
            entry.parent = directory;
            self.names.give(number, directory, name);
        }
    }

    /// Puts two entries each in the other's place, under its name.
    pub fn swap_entries(&mut self, one: u64, two: u64) {
        let [from, to] = [one, two].map(|number| self.entries[&number].parent);
        let [first, second] = [one, two].map(|number| self.names.take(number));
        self.put_entry(one, to, &second);
        self.put_entry(two, from, &first);
    }

    pub fn has_children(&self, directory: u64) -> bool {
        self.entries
            .iter()
            .any(|(number, entry)| *number != ROOT && entry.parent == directory)
    }

    /// An entry and everything above it, up to the root.
    pub fn way_up(&self, entry: u64) -> Vec<u64> {
        let mut way = vec![entry];
        let mut at = entry;
        while at != ROOT {
            at = self.entries[&at].parent;
            way.push(at);
        }
        way
    }

    /// The layers of a domain by number, from a youngest one to the oldest.
    pub fn domain(&self, youngest: Option<usize>) -> Vec<usize> {
        let mut domain = Vec::new();
        let mut at = youngest;
        while let Some(layer) = at {
            domain.push(layer);
            at = self.layers[&layer].parent;
        }
        domain
    }

    /// The layers of all live threads' domains.
    pub fn reached(&self) -> BTreeSet<usize> {
        let mut reached = BTreeSet::new();
        for thread in self.threads.values() {
            let mut at = thread.youngest;
            while let Some(layer) = at.filter(|layer| reached.insert(*layer)) {
                at = self.layers[&layer].parent;
            }
        }
        reached
    }

    /// How many live threads and layers hold each record.
    pub fn holders(&self) -> Vec<u64> {
        let threads = self.threads.values().map(|thread| thread.youngest);
        let layers = self.layers.values().map(|layer| layer.parent);
        let mut holders = vec![0; MAX_LAYERS];
        for held in threads.chain(layers).flatten() {
            holders[held] += 1;
        }
        holders
    }

    /// The first pool place of each record's rules, 0 where it has none: the runs lie one behind the
    /// other.
    pub fn places(&self) -> Vec<usize> {
        let mut places = vec![0; MAX_LAYERS];
        let mut next = 0;
        for number in &self.runs {
            places[*number] = next;
            next += self.layers[number].rules.len();
        }
        places
    }

    /// The pool places that the runs fill.
    pub fn pool_used(&self) -> usize {
        self.layers.values().map(|layer| layer.rules.len()).sum()
    }

    /// Takes a record for a layer; its rules stand behind those of all others.
    pub fn add_layer(&mut self, number: usize, layer: Layer) {
        if !layer.rules.is_empty() {
            self.runs.push(number);
        }
        self.layers.insert(number, layer);
    }

    /// Gives back the layers that no live thread reaches.
    pub fn give_back(&mut self) {
        let reached = self.reached();
        self.layers.retain(|number, _| reached.contains(number));
        self.runs.retain(|number| reached.contains(number));
    }
}

/// The lowest number below the limit that the map doesn't use.
pub fn lowest_free<T>(map: &BTreeMap<u64, T>, limit: u64) -> Option<u64> {
    (0..limit).find(|number| !map.contains_key(number))
}
