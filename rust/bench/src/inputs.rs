//! The tables and the questions that are measured, the same in every run.

use crate::landlock::{
    held_rights, ALL_FS, ALL_NET, DIRECTORY, FILE_SET, LAST_LEVEL, MAKE_REG, PATH_RULE, PORT_RULE,
    READ_FILE, REFER, REGULAR, REMOVE_FILE,
};
use crate::tables::{Tables, HOLDERS};
use random::Random;
use skeinrabbit_sys::layout::{
    ENTRY_WIDTH, MAX_DOMAIN, MAX_ENTRIES, MAX_LAYERS, MAX_POOL, MAX_RULES, MAX_RULESETS,
    MAX_THREADS, RULESET_HEAD, RULESET_WIDTH, RULE_WIDTH,
};

/// Rights that every layer handles and grants from the root down.
const COMMON: u64 = READ_FILE | REMOVE_FILE | MAKE_REG;

/// Where layers grant REFER.
#[derive(Clone, Copy)]
pub enum Refer {
    /// On the whole tree.
    Everywhere,
    /// Where a rule below the root has it.
    InPlaces,
    /// Nowhere: they don't ask for it, and deny it therefore.
    Nowhere,
}

/// The number of different questions, a power of two.
pub const QUESTIONS: u64 = 1024;

/// Questions that are asked over and over.
pub struct Questions<T>(Vec<T>);

impl<T: Copy> Questions<T> {
    pub fn new(make: impl FnMut() -> T) -> Questions<T> {
        let endless = std::iter::repeat_with(make);
        Questions(endless.take(QUESTIONS as usize).collect())
    }

    pub fn at(&self, question: u64) -> T {
        self.0[(question % QUESTIONS) as usize]
    }
}

/// A tree of 4 entries and no layer: two directories, and a file in the first.
pub fn fresh() -> Tables {
    let mut build = Build::new(1);
    let home = build.entry(DIRECTORY, 0);
    build.entry(DIRECTORY, 0);
    build.entry(REGULAR, home);
    build.tables
}

/// A tree of 1,000 entries, and a domain of so many layers.
pub fn wide(layers: u64, refer: Refer) -> Tables {
    let mut build = Build::new(2);
    build.refer = refer;
    build.tree(1000);
    let youngest = build.domain(layers, |layer| rules_of(layer, layers), 1000);
    build.thread(0, youngest);
    build.tables
}

/// A tree of 1,000 entries, and 41 layers with 4 to 36 rules in the domains of three threads.
pub fn crowded() -> Tables {
    let mut build = Build::new(3);
    build.tree(1000);
    for (thread, layers) in [(0, 16), (1, 16), (2, 9)] {
        let youngest = build.domain(layers, |layer| rules_of(layer, layers), 1000);
        build.thread(thread, youngest);
    }
    build.tables
}

/// From 4 rules in the oldest of the layers to 36 in the youngest, or to as many as the pool has room for; 20 in a single one.
fn rules_of(layer: u64, layers: u64) -> u64 {
    if layers == 1 {
        return 20;
    }
    let average = MAX_POOL as u64 / layers;
    let most_more = (2 * (average - 4)).min(32);
    4 + most_more * layer / (layers - 1)
}

/// Every table full: 1,024 entries, 256 layers with 4 rules, 16 rulesets with 64, 8 threads with domains of 64 layers.
pub fn full() -> Tables {
    let mut build = Build::new(4);
    build.tree(MAX_ENTRIES as u64);
    let domains = MAX_LAYERS / MAX_DOMAIN;
    let rules = (MAX_POOL / MAX_LAYERS) as u64;
    for domain in 0..domains {
        let youngest = build.domain(MAX_DOMAIN as u64, |_| rules, MAX_ENTRIES);
        for thread in (domain..MAX_THREADS).step_by(domains) {
            build.thread(thread, youngest);
        }
    }
    for ruleset in 0..MAX_RULESETS {
        build.ruleset(ruleset, MAX_RULES as u64);
    }
    build.tables
}

/// A chain 1,023 directories deep, and one layer of 4 rules, all near the root. The last entry is a file.
pub fn chain() -> Tables {
    let mut build = Build::new(5);
    for parent in 0..MAX_ENTRIES as u64 - 2 {
        build.entry(DIRECTORY, parent);
    }
    build.entry(REGULAR, MAX_ENTRIES as u64 - 2);
    let youngest = build.domain(1, |_| 4, 8);
    build.thread(0, youngest);
    build.tables
}

/// A tree of 1,000 entries, a thread without a layer and one with a domain of 64 layers, which no other one has.
pub fn with_leaver() -> Tables {
    let mut build = Build::new(6);
    build.tree(1000);
    let layers = MAX_DOMAIN as u64;
    let youngest = build.domain(layers, |layer| rules_of(layer, layers), 1000);
    build.thread(1, youngest);
    build.tables
}

/// A directory and 1,000 hard links of one file in it.
pub fn linked() -> Tables {
    let mut build = Build::new(7);
    let file = build.entry(REGULAR, 0);
    let object = build.tables.object(file);
    for _ in 1..1000 {
        build.put(REGULAR, 0, object);
    }
    build.tables
}

/// The root and 999 files in it whose names, as long as can be, begin alike.
pub fn long_names() -> Tables {
    let mut build = Build::new(8);
    build.name = |entry| format!("{entry:0>48}").into_bytes();
    for _ in 1..1000 {
        build.entry(REGULAR, 0);
    }
    build.tables
}

/// The root and 999 files in it whose names all fall into one bucket of the soundness test: the second word of each undoes what the first
/// one, eight digits, brings into the fold.
pub fn one_bucket() -> Tables {
    // With it no byte of a second word is a slash or 0.
    const FOLD: u64 = 0x4040_4040_4040_4040;
    let mut build = Build::new(9);
    build.name = |entry| {
        let digits = format!("{entry:08x}").into_bytes();
        let last_first = digits.iter().rev();
        let first = last_first.fold(0u64, |word, digit| word << 8 | u64::from(*digit));
        let second = first.rotate_left(19) ^ FOLD;
        [digits, second.to_le_bytes().to_vec()].concat()
    };
    for _ in 1..1000 {
        build.entry(REGULAR, 0);
    }
    build.tables
}

/// A tree of 1,000 entries with a directory in each of so many, and files beside it. The last entry is a file in the deepest one.
pub fn nested(depth: u64) -> Tables {
    let mut build = Build::new(10);
    let files = (1000 - depth) / depth - 1;
    let mut directory = 0;
    for _ in 1..depth {
        for _ in 0..files {
            build.entry(REGULAR, directory);
        }
        directory = build.entry(DIRECTORY, directory);
    }
    while build.entries < 1000 {
        build.entry(REGULAR, directory);
    }
    build.tables
}

/// The tables with every object number multiplied. By 1,024 all fall into one bucket, and differ in the digits next to it; by 2^22, as much as the
/// counter allows, in the highest digits alone, which makes the tree deepest.
pub fn spread(mut tables: Tables, factor: u64) -> Tables {
    tables.system[1] *= factor;
    for row in tables.entries.chunks_exact_mut(ENTRY_WIDTH) {
        row[2] *= factor;
    }
    let rulesets = tables.rulesets.chunks_exact_mut(RULESET_WIDTH);
    let rules = rulesets.flat_map(|row| row[RULESET_HEAD..].chunks_exact_mut(RULE_WIDTH));
    let rules = rules.chain(tables.pool.chunks_exact_mut(RULE_WIDTH));
    for rule in rules.filter(|rule| rule[0] == PATH_RULE) {
        rule[1] *= factor;
    }
    tables
}

/// A random entry with one or two of the rights that its kind can hold.
pub fn access_request(tables: &Tables, random: &mut Random) -> (u64, u64) {
    let entry = random.below(tables.live_entries());
    let held = held_rights(tables.kind(entry));
    let bits: Vec<u64> = (0..16).filter(|bit| held >> bit & 1 == 1).collect();
    let asked = 1 << random.pick(&bits) | 1 << random.pick(&bits);
    (entry, asked)
}

/// Tables in the making.
struct Build {
    tables: Tables,
    random: Random,
    entries: u64,
    refer: Refer,
    name: fn(u64) -> Vec<u8>,
}

impl Build {
    /// Fresh tables of the last level.
    fn new(seed: u64) -> Build {
        let mut build = Build {
            tables: Tables::zero(),
            random: Random::new(seed),
            entries: 0,
            refer: Refer::Everywhere,
            name: |entry| format!("entry-{entry}").into_bytes(),
        };
        build.tables.system[0] = LAST_LEVEL;
        build.entry(DIRECTORY, 0);
        build.thread(0, 0);
        build
    }

    /// Adds an entry with a new object; answers its number.
    fn entry(&mut self, kind: u64, parent: u64) -> u64 {
        let object = self.tables.system[1];
        self.tables.system[1] += 1;
        self.put(kind, parent, object)
    }

    fn put(&mut self, kind: u64, parent: u64, object: u64) -> u64 {
        let entry = self.entries;
        self.tables.put_entry(entry, [kind, parent, object]);
        if entry != 0 {
            self.tables.put_name(entry, &(self.name)(entry));
        }
        self.entries += 1;
        entry
    }

    /// Grows a tree to so many entries: a quarter are directories, one in sixteen is a hard link. The last one is a file.
    fn tree(&mut self, entries: u64) {
        let mut directories = vec![0];
        let mut files = vec![];
        while self.entries < entries {
            let parent = self.random.pick(&directories);
            let last = self.entries + 1 == entries;
            match self.random.below(16) {
                0..=3 if !last => directories.push(self.entry(DIRECTORY, parent)),
                4 if !last && !files.is_empty() => {
                    let file = self.random.pick(&files);
                    self.put(self.tables.kind(file), parent, self.tables.object(file));
                }
                5 | 6 if !last => {
                    let kind = 3 + self.random.below(5);
                    files.push(self.entry(kind, parent));
                }
                _ => files.push(self.entry(REGULAR, parent)),
            }
        }
    }

    /// Adds layers on top of each other, with rules on the first entries; answers the youngest one's number + 1.
    fn domain(&mut self, layers: u64, rules: impl Fn(u64) -> u64, entries: usize) -> u64 {
        let rules = (0..layers).map(rules);
        rules.fold(0, |parent, rules| self.layer(parent, rules, entries))
    }

    fn layer(&mut self, parent: u64, count: u64, entries: usize) -> u64 {
        let [layer, place] = [self.tables.system[2], self.tables.system[3]];
        let (handled, rules) = self.rules(count, entries);
        let row = [parent, handled, ALL_NET, 0, place, count, 0];
        let cells = self.tables.layer_mut(layer as usize);
        cells.copy_from_slice(&row);
        self.hold(parent);
        self.tables.pool[RULE_WIDTH * place as usize..][..rules.len()].copy_from_slice(&rules);
        self.tables.system[2] += 1;
        self.tables.system[3] += count;
        layer + 1
    }

    fn ruleset(&mut self, ruleset: usize, count: u64) {
        let (handled, rules) = self.rules(count, self.entries as usize);
        let row = &mut self.tables.rulesets[RULESET_WIDTH * ruleset..][..RULESET_WIDTH];
        row[..RULESET_HEAD].copy_from_slice(&[handled, ALL_NET, 0, count]);
        row[RULESET_HEAD..][..rules.len()].copy_from_slice(&rules);
    }

    /// Some handled rights, and rules: one is on the root, one in eight is for a port.
    fn rules(&mut self, count: u64, entries: usize) -> (u64, Vec<u64>) {
        let (handled, from_root) = self.handled();
        let mut rules = vec![[PATH_RULE, 0, from_root]];
        while rules.len() < count as usize {
            let rule = if rules.len() % 8 == 7 {
                [PORT_RULE, self.random.below(65_536), ALL_NET]
            } else {
                self.path_rule(handled, entries)
            };
            if rules.iter().all(|other| other[..2] != rule[..2]) {
                rules.push(rule);
            }
        }
        let place = self.random.below(count) as usize;
        rules.swap(0, place);
        (handled, rules.concat())
    }

    /// Random rights for a layer to handle, and those of them that it grants from the root.
    fn handled(&mut self) -> (u64, u64) {
        let some = COMMON | self.random.number() & ALL_FS;
        let withheld = (1 << self.random.below(16)) & !COMMON;
        match self.refer {
            Refer::Everywhere => (some | REFER, some & !withheld | REFER),
            Refer::InPlaces => (some | REFER, some & !withheld & !REFER),
            Refer::Nowhere => (some & !REFER, some & !withheld & !REFER),
        }
    }

    /// A rule on one of the first entries.
    fn path_rule(&mut self, handled: u64, entries: usize) -> [u64; RULE_WIDTH] {
        let entry = self.random.below(entries as u64);
        let rights = handled & self.random.number();
        let rights = if self.tables.kind(entry) == DIRECTORY {
            rights
        } else {
            rights & FILE_SET
        };
        [PATH_RULE, self.tables.object(entry), rights | READ_FILE]
    }

    fn thread(&mut self, thread: usize, youngest: u64) {
        self.tables.put_thread(thread as u64, [1, youngest, 1, 0]);
        self.hold(youngest);
    }

    /// Counts a holder of a layer (its number + 1, or 0).
    fn hold(&mut self, layer: u64) {
        if let Some(number) = layer.checked_sub(1) {
            self.tables.layer_mut(number as usize)[HOLDERS] += 1;
        }
    }
}
