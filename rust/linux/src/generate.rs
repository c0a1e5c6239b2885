//! Random calls that make sense on both sides.

use crate::broker::Broker;
use crate::call::NO_REPORT;
use crate::machine::Machine;
use crate::rights::*;
use model::call::Call;
use model::names::LONGEST_NAME;
use model::paths::path;
use model::state::{Model, MAX_ENTRIES, MAX_RULESETS, MAX_THREADS};
use random::Random;

/// Ports above the ephemeral ones, and port 0.
pub const PORTS: [u64; 5] = [0, 61_001, 61_002, 61_003, 65_535];

/// The first entry of a scenario, a directory in which most of the others stand.
pub const TOP: u64 = 1;

/// A flag that no kernel knows.
const UNKNOWN_FLAGS: [u64; 2] = [1 << 16, 1 << 31];
/// Those that turn logging on or off in landlock_restrict_self(2).
const LOG_FLAGS: [u64; 4] = [1, 2, 4, 7];

/// Chooses calls for the tables as they are.
pub struct Generator<'a> {
    pub random: &'a mut Random,
    pub tables: &'a Broker,
    /// The same as the tables.
    pub model: &'a Model,
    pub machine: &'a Machine,
}

type Choice = fn(&mut Generator) -> Call;

const CHOICES: [(u64, Choice); 17] = [
    (24, |g| g.access()),
    (6, |g| g.port()),
    (1, |g| g.reach()),
    (9, |g| g.create()),
    (8, |g| g.remove()),
    (12, |g| g.link()),
    (24, |g| g.rename()),
    (12, |g| g.exchange()),
    (8, |g| g.lookup()),
    (3, |g| g.create_ruleset()),
    (2, |g| g.close_ruleset()),
    (6, |g| g.add_path_rule()),
    (2, |g| g.add_port_rule()),
    (2, |g| g.restrict()),
    (2, |g| g.clone()),
    (2, |g| g.end()),
    (1, |g| g.mark()),
];

impl Generator<'_> {
    /// Any call.
    pub fn call(&mut self) -> Call {
        let choice = self.random.weighted(&CHOICES);
        match choice(self) {
            Call::Port { .. } if !self.machine.tcp => self.access(),
            Call::Signal { .. } | Call::AbstractSocket { .. } if !self.machine.scopes => {
                self.access()
            }
            Call::Exchange { .. } if !self.machine.exchange => self.rename(),
            Call::Lookup { .. } if !self.machine.lookups => self.rename(),
            // Without a thread the process has ended.
            Call::End { thread } if self.tables.live_threads() == [thread] => self.access(),
            call => call,
        }
    }

    /// A call that lets the tree grow.
    pub fn growth(&mut self) -> Call {
        if self.random.chance(85) {
            self.create()
        } else {
            self.link()
        }
    }

    /// A live thread, most often one with a domain.
    fn thread(&mut self) -> u64 {
        let live = self.tables.live_threads();
        let restricted: Vec<u64> = live
            .iter()
            .copied()
            .filter(|&thread| self.tables.is_restricted(thread))
            .collect();
        if !restricted.is_empty() && self.random.chance(85) {
            self.random.pick(&restricted)
        } else {
            self.random.pick(&live)
        }
    }

    /// A live entry, or now and then one that is not.
    fn entry(&mut self) -> u64 {
        if self.random.chance(2) {
            self.absent_entry()
        } else {
            self.random.pick(&self.tables.live_entries())
        }
    }

    fn absent_entry(&mut self) -> u64 {
        if self.random.chance(50) {
            MAX_ENTRIES + self.random.below(3)
        } else {
            self.tables.live_entries().len() as u64 + 500
        }
    }

    /// Most often a directory, and seldom the root: no rule lets a thread change it.
    fn directory(&mut self) -> u64 {
        if self.random.chance(6) {
            return self.entry();
        }
        let mut live = self.tables.live_entries();
        live.retain(|&entry| self.tables.is_directory(entry));
        if live.len() > 1 && self.random.chance(80) {
            live.retain(|&entry| entry != 0);
        }
        self.random.pick(&live)
    }

    fn kind(&mut self) -> u64 {
        let kind = self.random.weighted(&[
            (38, DIRECTORY),
            (32, REGULAR),
            (6, FIFO),
            (6, SOCKET),
            (7, SYMLINK),
            (6, CHARACTER),
            (4, BLOCK),
            (1, 8),
        ]);
        match kind {
            CHARACTER if !self.machine.character_devices => REGULAR,
            BLOCK if !self.machine.block_devices => REGULAR,
            kind => kind,
        }
    }

    /// An access that Linux asks by one operation; a move where the entry is of a kind that is not opened.
    fn access(&mut self) -> Call {
        let entry = self.entry();
        let rights = match self.tables.kind(entry) {
            DIRECTORY => self.rights_of_directory(),
            REGULAR => self.rights_of_regular(),
            CHARACTER => self.rights_of_device(),
            FIFO | SOCKET => self.rights_of_pipe(),
            SYMLINK if self.random.chance(90) => return self.rename(),
            BLOCK => return self.rename(),
            _ => READ_FILE,
        };
        let rights = if self.machine.execve_check {
            rights
        } else {
            rights & !EXECUTE
        };
        let thread = self.thread();
        Call::Access {
            thread,
            entry,
            rights,
            report: NO_REPORT,
        }
    }

    fn rights_of_directory(&mut self) -> u64 {
        let execute = READ_FILE | EXECUTE;
        self.random
            .weighted(&[(94, READ_DIR), (2, WRITE_FILE), (2, TRUNCATE), (2, execute)])
    }

    fn rights_of_device(&mut self) -> u64 {
        let both = READ_FILE | WRITE_FILE;
        let ioctl = READ_FILE | IOCTL_DEV;
        self.random
            .pick(&[READ_FILE, WRITE_FILE, both, IOCTL_DEV, ioctl])
    }

    fn rights_of_pipe(&mut self) -> u64 {
        self.random.weighted(&[
            (30, READ_FILE),
            (30, WRITE_FILE),
            (30, READ_FILE | WRITE_FILE),
            (3, TRUNCATE),
            (3, READ_FILE | EXECUTE),
            (3, READ_DIR),
        ])
    }

    fn rights_of_regular(&mut self) -> u64 {
        self.random.weighted(&[
            (20, READ_FILE),
            (20, WRITE_FILE),
            (10, READ_FILE | WRITE_FILE),
            (10, TRUNCATE),
            (5, READ_FILE | TRUNCATE),
            (10, WRITE_FILE | TRUNCATE),
            (5, READ_FILE | WRITE_FILE | TRUNCATE),
            (18, READ_FILE | EXECUTE),
            (1, IOCTL_DEV),
            (1, READ_DIR),
        ])
    }

    fn port(&mut self) -> Call {
        let rights = self.random.between(1, BIND_TCP | CONNECT_TCP);
        Call::Port {
            thread: self.thread(),
            port: self.random.pick(&PORTS),
            rights,
            report: NO_REPORT,
        }
    }

    /// A signal or a socket of a live thread, or now and then a signal to any number.
    pub fn reach(&mut self) -> Call {
        let thread = self.thread();
        let target = self.random.pick(&self.tables.live_threads());
        match self.random.below(20) {
            0 => {
                let numbers = [0, MAX_THREADS - 1, MAX_THREADS, u64::MAX];
                let target = self.random.pick(&numbers);
                Call::Signal { thread, target }
            }
            1..10 => Call::Signal { thread, target },
            _ => Call::AbstractSocket { thread, target },
        }
    }

    fn create(&mut self) -> Call {
        let directory = self.directory();
        Call::Create {
            name: self.name(directory),
            thread: self.thread(),
            directory,
            kind: self.kind(),
            report: NO_REPORT,
        }
    }

    /// A name for an entry of a directory: mostly a free one, else one that is taken, or that one side or both can't give.
    fn name(&mut self, directory: u64) -> Vec<u8> {
        let name = match self.random.below(1000) {
            0..10 => b".".to_vec(),
            10..15 => b"..".to_vec(),
            // A scenario ends where Linux gives a name that we do not.
            15 => vec![b'l'; self.random.pick(&[49, 50, 255])],
            16..40 => vec![b'l'; self.random.between(256, 300) as usize],
            40..150 => self.taken_name(directory),
            150..200 => self.letters(LONGEST_NAME as u64),
            _ => {
                let length = self.random.between(1, 3);
                self.letters(length)
            }
        };
        match self.tables.bearer(directory, &name) {
            Some(_) if self.random.chance(85) => {
                format!("{:x}", self.random.below(1 << 40)).into_bytes()
            }
            _ => name,
        }
    }

    /// So many letters, digits or dots, of which the first is a letter.
    fn letters(&mut self, length: u64) -> Vec<u8> {
        let first = self.random.pick(b"abcdef");
        let rest = (1..length).map(|_| self.random.pick(b"abcdef0123._- "));
        std::iter::once(first).chain(rest).collect()
    }

    /// The name of an entry of a directory, or of any.
    fn taken_name(&mut self, directory: u64) -> Vec<u8> {
        let mut named = self.tables.live_entries();
        named.retain(|&entry| entry != 0);
        let mut children = named.clone();
        children.retain(|&entry| self.tables.parent(entry) == directory);
        let among = if children.is_empty() { named } else { children };
        match self.random.pick_some(&among) {
            Some(entry) => self.tables.name(entry).into_bytes(),
            None => self.letters(1),
        }
    }

    /// A path without a zero byte, which Linux can't be given.
    fn lookup(&mut self) -> Call {
        let mut path = path(self.model, self.random);
        path.retain(|byte| *byte != 0);
        Call::Lookup { path }
    }

    fn remove(&mut self) -> Call {
        Call::Remove {
            thread: self.thread(),
            entry: self.entry(),
            report: NO_REPORT,
        }
    }

    fn link(&mut self) -> Call {
        let mut source = self.entry();
        if self.tables.is_directory(source) && self.random.chance(80) {
            source = self.entry();
        }
        let directory = self.directory();
        Call::Link {
            name: self.name(directory),
            thread: self.thread(),
            source,
            directory,
            report: NO_REPORT,
        }
    }

    /// To the name of an entry, the source among them, or to another one.
    fn rename(&mut self) -> Call {
        let mut directory = self.directory();
        let source = self.entry();
        let replaced = match self.random.below(100) {
            0..5 => source,
            5..55 => self.entry(),
            _ => 0,
        };
        let name = if replaced != 0 && self.tables.is_live(replaced) {
            directory = self.directory_of(replaced, directory);
            self.tables.name(replaced).into_bytes()
        } else {
            self.name(directory)
        };
        Call::Rename {
            name,
            thread: self.thread(),
            source,
            directory,
            report: NO_REPORT,
        }
    }

    fn exchange(&mut self) -> Call {
        let directory = self.directory();
        let entry = self.entry();
        Call::Exchange {
            thread: self.thread(),
            source: self.entry(),
            directory: self.directory_of(entry, directory),
            entry,
            report: NO_REPORT,
        }
    }

    /// The directory that a path to an entry goes through: its own, unless another answer comes before that matters.
    fn directory_of(&self, entry: u64, otherwise: u64) -> u64 {
        if entry != 0 && self.tables.is_live(entry) && self.tables.is_directory(otherwise) {
            self.tables.parent(entry)
        } else {
            otherwise
        }
    }

    /// Bits of the mask: all, all but a few, a few, or any.
    fn subset(&mut self, mask: u64) -> u64 {
        let few = |random: &mut Random| {
            (0..random.between(1, 3)).fold(0, |bits, _| bits | 1 << random.below(16))
        };
        match self.random.below(10) {
            0..4 => mask,
            4..7 => mask & !few(self.random),
            7 => mask & few(self.random),
            _ => mask & self.random.number(),
        }
    }

    pub fn create_ruleset(&mut self) -> Call {
        let [fs, net, scope] = known(self.tables.level());
        let masks = match self.random.below(100) {
            0..3 => [0, self.subset(net), 0],
            3..6 => [0, 0, self.subset(scope)],
            6..8 => [0, self.subset(net), self.subset(scope)],
            8..60 => [self.subset(fs), 0, 0],
            60..95 => [self.subset(fs), self.subset(net), self.subset(scope)],
            _ => [fs, net, scope].map(|mask| self.subset(mask) | self.unknown_bit(mask)),
        };
        let mut bytes: Vec<u8> = masks.iter().flat_map(|mask| mask.to_le_bytes()).collect();
        let meaningless = self.machine.meaningless_byte();
        match self.random.below(100) {
            0..70 => {}
            70..80 => bytes.truncate(8 * self.random.between(1, 3) as usize),
            80..85 => bytes.truncate(self.random.below(25) as usize),
            85..92 => bytes.resize(self.random.between(24, 64) as usize, 0),
            92..94 => bytes.resize(self.random.between(4095, 4098) as usize, 0),
            _ => {
                bytes.resize(meaningless as usize + 1 + self.random.below(40) as usize, 0);
                let last = bytes.len() - 1;
                bytes[last] = 1;
            }
        }
        let flags = if self.random.chance(4) {
            self.random.pick(&[1, 2, 3, 1 << 31])
        } else {
            0
        };
        Call::CreateRuleset { bytes, flags }
    }

    /// A bit that no kernel knows, now and then, for a mask that the level has.
    fn unknown_bit(&mut self, known: u64) -> u64 {
        if known != 0 && self.random.chance(40) {
            1 << self.random.between(40, 63)
        } else {
            0
        }
    }

    /// An open ruleset, or now and then one that is not.
    fn ruleset(&mut self) -> u64 {
        let open = self.tables.open_rulesets();
        if open.is_empty() || self.random.chance(4) {
            self.random
                .pick(&[MAX_RULESETS - 1, MAX_RULESETS, u64::MAX])
        } else {
            self.random.pick(&open)
        }
    }

    fn close_ruleset(&mut self) -> Call {
        Call::CloseRuleset {
            ruleset: self.ruleset(),
        }
    }

    pub fn add_path_rule(&mut self) -> Call {
        let ruleset = self.ruleset();
        let entry = match self.random.below(100) {
            0..5 => 0,
            5..30 => TOP,
            30..75 => self.directory(),
            _ => self.entry(),
        };
        let handled = self.handled_at(ruleset, entry);
        let fitting = if self.tables.is_directory(entry) {
            handled
        } else {
            handled & FILE_SET
        };
        let rights = match self.random.below(100) {
            0..90 => self.subset(fitting),
            90..94 => self.subset(handled),
            94..96 => self.subset(known(self.tables.level())[0]),
            96..98 => 0,
            _ => handled | 1 << self.random.between(16, 63),
        };
        Call::AddPathRule {
            ruleset,
            entry,
            rights,
            flags: self.rule_flags(),
        }
    }

    /// The rights that a ruleset handles and that a rule on an entry may mostly ask for: a scenario ends where Linux adds a rule
    /// that we do not.
    fn handled_at(&mut self, ruleset: u64, entry: u64) -> u64 {
        let handled = self.tables.handled(ruleset)[0];
        if entry == 0 && !self.random.chance(2) {
            handled & !CHANGING
        } else {
            handled
        }
    }

    pub fn add_port_rule(&mut self) -> Call {
        let ruleset = self.ruleset();
        let handled = self.tables.handled(ruleset)[1];
        let rights = match self.random.below(100) {
            0..90 => self.subset(handled),
            90..95 => self.random.below(4),
            _ => 1 << self.random.between(2, 63),
        };
        let port = if self.random.chance(5) {
            self.random.pick(&[65_536, 1 << 32, u64::MAX])
        } else {
            self.random.pick(&PORTS)
        };
        Call::AddPortRule {
            ruleset,
            port,
            rights,
            flags: self.rule_flags(),
        }
    }

    fn rule_flags(&mut self) -> u64 {
        if self.random.chance(2) {
            self.random.pick(&UNKNOWN_FLAGS)
        } else {
            0
        }
    }

    fn restrict(&mut self) -> Call {
        let flags = match self.random.below(100) {
            0..3 => self.random.pick(&LOG_FLAGS),
            3..7 => self.random.pick(&UNKNOWN_FLAGS),
            _ => 0,
        };
        Call::Restrict {
            thread: self.thread(),
            ruleset: self.ruleset(),
            flags,
        }
    }

    fn clone(&mut self) -> Call {
        Call::Clone {
            thread: self.thread(),
        }
    }

    fn end(&mut self) -> Call {
        Call::End {
            thread: self.thread(),
        }
    }

    fn mark(&mut self) -> Call {
        let thread = self.thread();
        if self.machine.admin && self.random.chance(60) {
            Call::SetAdmin {
                thread,
                on: self.random.chance(50).into(),
            }
        } else {
            Call::SetNoNewPrivs { thread }
        }
    }
}
