//! The calls that a search tries. Rights do not depend on names, so one free name in a directory stands for all. Left out is what
//! never helps: a remove, a rename over an entry, a call within one directory, and an entry that holds nothing (docs/SEARCH.md).
use crate::scenario::written;
use skeinrabbit::{Batch, Entry, EntryRow, Kind, Refusal, Rights, Tables, Thread};

/// A call that changes the tree.
#[derive(Clone, Copy, Debug, PartialEq, Eq)]
pub struct Step {
    pub thread: Thread,
    pub change: Change,
}

/// What is changed; the name in the directory is a free one.
#[derive(Clone, Copy, Debug, PartialEq, Eq)]
pub enum Change {
    Create { directory: Entry },
    Link { source: Entry, directory: Entry },
    Rename { source: Entry, directory: Entry },
    Exchange { source: Entry, other: Entry },
}

/// The longest name and path, in bytes.
const LONGEST_NAME: usize = 48;
const LONGEST_PATH: usize = 4095;

/// What a new directory is called.
const NEW: &[u8] = b"new";

/// Every step that the verdict grants one of the threads.
pub fn granted(tables: &Tables, threads: &[Thread]) -> Vec<Step> {
    let rows: Vec<EntryRow> = tables.entries().collect();
    let mut steps = Vec::new();
    let mut batch = Batch::new();
    for thread in threads {
        for change in moves(&rows) {
            let step = Step {
                thread: *thread,
                change,
            };
            step.ask(tables, &mut batch);
            steps.push(step);
        }
    }
    let verdicts = tables.batch(&mut batch);
    let answered = steps.into_iter().zip(verdicts.iter());
    let granted = answered.filter(|(_, verdict)| verdict.is_granted());
    let mut steps: Vec<Step> = granted.map(|(step, _)| step).collect();
    // A batch does not ask about create: a refused one is found out by making it.
    let directories = rows.iter().filter(|row| row.kind == Kind::DIRECTORY);
    for directory in directories.map(|row| row.entry) {
        let change = Change::Create { directory };
        steps.extend(threads.iter().map(|thread| Step {
            thread: *thread,
            change,
        }));
    }
    steps
}

/// The links, renames and exchanges between different directories.
fn moves(rows: &[EntryRow]) -> Vec<Change> {
    let mut moves = Vec::new();
    for (place, row) in rows.iter().enumerate() {
        let source = row.entry;
        if source == Entry::ROOT {
            continue;
        }
        let others = rows.iter().filter(|to| to.kind == Kind::DIRECTORY);
        for directory in others.map(|to| to.entry).filter(|to| *to != row.parent) {
            moves.push(Change::Rename { source, directory });
            if row.kind != Kind::DIRECTORY {
                moves.push(Change::Link { source, directory });
            }
        }
        let later = rows.iter().skip(place + 1);
        let later = later.filter(|other| other.parent != row.parent);
        moves.extend(later.map(|other| Change::Exchange {
            source,
            other: other.entry,
        }));
    }
    moves
}

impl Step {
    fn ask(&self, tables: &Tables, batch: &mut Batch) {
        let thread = self.thread;
        match self.change {
            Change::Create { .. } => batch,
            Change::Link { source, directory } => batch.link(
                thread,
                source,
                directory,
                free_name(tables, source, directory),
            ),
            Change::Rename { source, directory } => batch.rename(
                thread,
                source,
                directory,
                free_name(tables, source, directory),
            ),
            Change::Exchange { source, other } => {
                batch.exchange(thread, source, parent(tables, other), other)
            }
        };
    }

    /// Makes the call.
    pub fn make(&self, tables: &mut Tables) -> Result<(), Refusal<Rights>> {
        let thread = self.thread;
        match self.change {
            Change::Create { directory } => {
                let name = free(tables, directory, NEW);
                tables
                    .create(thread, directory, Kind::DIRECTORY, name)
                    .map(drop)
            }
            Change::Link { source, directory } => {
                let name = free_name(tables, source, directory);
                tables.link(thread, source, directory, name).map(drop)
            }
            Change::Rename { source, directory } => {
                let name = free_name(tables, source, directory);
                tables.rename(thread, source, directory, name)
            }
            Change::Exchange { source, other } => {
                tables.exchange(thread, source, parent(tables, other), other)
            }
        }
    }

    /// The call as a line of a scenario, on the tables that it is made on.
    pub fn text(&self, tables: &Tables, thread: &str) -> String {
        match self.change {
            Change::Create { directory } => {
                let name = free(tables, directory, NEW);
                format!(
                    "create {thread} {} directory",
                    place(tables, directory, &name)
                )
            }
            Change::Link { source, directory } => {
                let name = free_name(tables, source, directory);
                let place = place(tables, directory, &name);
                format!("link {thread} {} {place}", word(tables, source))
            }
            Change::Rename { source, directory } => {
                let name = free_name(tables, source, directory);
                let place = place(tables, directory, &name);
                format!("rename {thread} {} {place}", word(tables, source))
            }
            Change::Exchange { source, other } => {
                let [one, two] = [source, other].map(|entry| word(tables, entry));
                let directory = word(tables, parent(tables, other));
                format!("exchange {thread} {one} {directory} {two}")
            }
        }
    }
}

fn parent(tables: &Tables, entry: Entry) -> Entry {
    tables.entry(entry).map_or(Entry::ROOT, |row| row.parent)
}

/// An entry's path, or its number where the path is too long to be looked up.
pub fn word(tables: &Tables, entry: Entry) -> String {
    let path = tables.path(entry).unwrap_or_default();
    if path.is_empty() || path.len() > LONGEST_PATH {
        return entry.to_string();
    }
    written(&path)
}

/// A directory and a name, as a path where that is not too long.
fn place(tables: &Tables, directory: Entry, name: &[u8]) -> String {
    let above = tables.path(directory).unwrap_or_default();
    let path = match above.as_slice() {
        b"/" => [b"/", name].concat(),
        above => [above, b"/", name].concat(),
    };
    if path.len() > LONGEST_PATH {
        return format!("{directory} {}", written(name));
    }
    written(&path)
}

/// A free name in a directory: the entry's own, or one made of it.
fn free_name(tables: &Tables, source: Entry, directory: Entry) -> Vec<u8> {
    free(tables, directory, tables.name(source))
}

fn free(tables: &Tables, directory: Entry, wanted: &[u8]) -> Vec<u8> {
    let inside = tables.entries();
    let inside = inside.filter(|row| row.parent == directory && row.entry != Entry::ROOT);
    let taken: Vec<&[u8]> = inside.map(|row| tables.name(row.entry)).collect();
    let with = |number: usize| {
        let end = match number {
            0 => String::new(),
            _ => format!(".{number}"),
        };
        let kept = wanted.len().min(LONGEST_NAME - end.len());
        let start = wanted.get(..kept).unwrap_or_default();
        [start, end.as_bytes()].concat()
    };
    let mut names = (0..=taken.len()).map(with);
    names
        .find(|name| !taken.contains(&name.as_slice()))
        .unwrap_or_default()
}
