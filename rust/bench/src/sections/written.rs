//! Policy files that are written, of the rulesets that take the longest.

use crate::measure::{against, agree, differ, line, table, time, Effort, Side};
use crate::plain::written::write;
use crate::tables::Tables;
use skeinrabbit_sys::layout::{MAX_ENTRIES, MAX_POLICY, MAX_RULES, RULE_WIDTH};
use skeinrabbit_sys::write_policy;

const REGULAR: u64 = 1;
const DIRECTORY: u64 = 2;
const READ_FILE: u64 = 4;
const ALL: u64 = MAX_ENTRIES as u64;

pub fn run(effort: Effort) {
    table(&[
        "Write a policy file",
        "answer",
        "proved core",
        "plain Rust",
        "ratio",
    ]);
    for (name, tables) in [
        ("2 rules, 3 entries", two_rules()),
        ("64 rules, 1,000 entries", wide()),
        (
            "64 rules on paths of 489 bytes, 240 deep",
            below(b"d", 240, 64, 1, 8),
        ),
        ("64 rules on paths of 499 bytes", deep(10, 64, 1, 8)),
        ("64 rules on paths of 4,095 bytes", deep(83, 64, 1, 27)),
        ("64 rules, 1,023 directories in one another", chain()),
        ("1 rule, 1,023 links in the root", deep(0, 1, 1023, 48)),
        (
            "1 rule, 940 links with paths of 4,095 bytes",
            deep(83, 1, 940, 27),
        ),
        (
            "64 rules, each with 14 links of 4,095 bytes",
            deep(83, 64, 14, 27),
        ),
    ] {
        compare(effort, name, &tables);
    }
}

/// Tables with a tree and one ruleset.
struct Tree {
    tables: Tables,
    entries: u64,
    objects: u64,
}

impl Tree {
    fn new() -> Tree {
        let mut tables = Tables::zero();
        tables.system[0] = 6;
        tables.put_entry(0, [DIRECTORY, 0, 0]);
        tables.put_thread(0, [1, 0, 0, 0]);
        tables.rulesets[0] = READ_FILE;
        Tree {
            tables,
            entries: 1,
            objects: 1,
        }
    }

    /// Puts an entry of a new object; answers its number.
    fn put(&mut self, kind: u64, parent: u64, name: &[u8]) -> u64 {
        self.objects += 1;
        self.link(kind, parent, self.objects - 1, name)
    }

    fn link(&mut self, kind: u64, parent: u64, object: u64, name: &[u8]) -> u64 {
        let entry = self.entries;
        self.tables.put_entry(entry, [kind, parent, object]);
        self.tables.put_name(entry, name);
        self.entries += 1;
        entry
    }

    /// Adds a rule on an entry's object.
    fn rule(&mut self, entry: u64) {
        let object = self.tables.object(entry);
        let count = &mut self.tables.rulesets[3];
        let place = 4 + RULE_WIDTH * *count as usize;
        *count += 1;
        self.tables.rulesets[place..][..RULE_WIDTH].copy_from_slice(&[1, object, READ_FILE]);
    }

    fn finish(mut self) -> Tables {
        self.tables.system[1] = self.objects;
        self.tables
    }
}

/// Two directories with a rule on each.
fn two_rules() -> Tables {
    let mut tree = Tree::new();
    for name in [&b"cal"[..], b"import"] {
        let directory = tree.put(DIRECTORY, 0, name);
        tree.rule(directory);
    }
    tree.finish()
}

/// 1,000 entries, four deep, and rules on some of them.
fn wide() -> Tables {
    let mut tree = Tree::new();
    while tree.entries < 1000 {
        let entry = tree.entries;
        let name = format!("entry-{entry}");
        tree.put(DIRECTORY, entry / 6, name.as_bytes());
    }
    for number in 0..MAX_RULES as u64 {
        tree.rule(999 - 15 * number);
    }
    tree.finish()
}

/// Directories in one another with names of 48 bytes; in the last one so many files with rules, each with so many links whose names
/// have a length, the first in byte order last.
fn deep(directories: u64, rules: u64, links: u64, name: usize) -> Tables {
    below(&[b'd'; 48], directories, rules, links, name)
}

/// The same with another name for the directories.
fn below(directory: &[u8], count: u64, rules: u64, links: u64, name: usize) -> Tables {
    let mut tree = Tree::new();
    let above = (0..count).fold(0, |parent, _| tree.put(DIRECTORY, parent, directory));
    for rule in 0..rules {
        let names = (0..links).map(|link| format!("{:0>name$}", rule * links + links - link));
        let mut names = names.collect::<Vec<String>>().into_iter();
        let first = names.next().unwrap_or_default();
        let file = tree.put(REGULAR, above, first.as_bytes());
        let object = tree.tables.object(file);
        for name in names {
            tree.link(REGULAR, above, object, name.as_bytes());
        }
        tree.rule(file);
    }
    tree.finish()
}

/// As many directories in one another as there may be, with names of one byte, and rules on the last ones, the last one last.
fn chain() -> Tables {
    let mut tree = Tree::new();
    for parent in 0..ALL - 1 {
        tree.put(DIRECTORY, parent, b"d");
    }
    for number in 0..MAX_RULES as u64 {
        tree.rule(ALL - MAX_RULES as u64 + number);
    }
    tree.finish()
}

/// The sides are the core and plain Rust, without a soundness test.
fn compare(effort: Effort, name: &str, tables: &Tables) {
    let mut outputs = [(); 2].map(|()| vec![7; MAX_POLICY]);
    let [of_core, of_plain] = &mut outputs;
    let number = write_policy(tables.shared(), 0, b"p", of_core);
    if number != write(tables, 0, b"p", of_plain) || of_core != of_plain {
        differ(name);
    }
    let mut core = |_: u64| write_policy(tables.shared(), 0, b"p", of_core);
    let mut plain = |_: u64| write(tables, 0, b"p", of_plain);
    let sides: &mut [&mut dyn Side] = &mut [&mut core, &mut plain];
    agree(name, 1, sides);
    let times = time(effort, 4, sides);
    let mut cells = vec![answer(number)];
    cells.extend(against(times[0], &times[1..]));
    line(name, &cells);
}

fn answer(number: u64) -> String {
    match number.wrapping_neg() {
        7 => "E2BIG".to_string(),
        _ => format!("{number} bytes"),
    }
}
