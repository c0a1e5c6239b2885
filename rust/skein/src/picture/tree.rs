//! The tree, flattened for drawing.
use crate::scenario::{written, Names, Space};
use skeinrabbit::{Entry, EntryRow, Tables};
use std::collections::BTreeMap;

/// An entry with its place in the drawing.
pub struct Node {
    pub row: EntryRow,
    /// Its name with the escapes of a scenario; the root's is a slash.
    pub name: String,
    /// The name that a line bound to it.
    pub label: Option<String>,
    /// Its path, with the same escapes.
    pub path: String,
    /// The lines that lead to it.
    pub branch: String,
    /// The directories above it.
    pub depth: usize,
    /// The entries of its object, this one among them.
    pub links: usize,
}

/// The live entries, each directory before what is in it, lowest number first.
pub fn nodes(tables: &Tables, names: &Names) -> Vec<Node> {
    let mut children: BTreeMap<Entry, Vec<EntryRow>> = BTreeMap::new();
    let mut links: BTreeMap<u64, usize> = BTreeMap::new();
    for row in tables.entries() {
        *links.entry(row.object).or_default() += 1;
        if row.entry != Entry::ROOT {
            children.entry(row.parent).or_default().push(row);
        }
    }
    let mut nodes = Vec::new();
    let mut waiting: Vec<Place> = tables
        .entry(Entry::ROOT)
        .map(Place::root)
        .into_iter()
        .collect();
    while let Some(place) = waiting.pop() {
        let inside = children.remove(&place.row.entry).unwrap_or_default();
        let last = inside.len().saturating_sub(1);
        // The last is put in first, so that the first comes out first.
        let below = inside.into_iter().enumerate().rev();
        waiting.extend(below.map(|(at, row)| place.below(row, at == last)));
        nodes.push(Node {
            row: place.row,
            name: match place.row.entry {
                Entry::ROOT => "/".to_owned(),
                entry => written(tables.name(entry)),
            },
            path: written(&tables.path(place.row.entry).unwrap_or_default()),
            label: names
                .name(Space::Entry, place.row.entry.number())
                .map(str::to_owned),
            branch: place.branch,
            depth: place.depth,
            links: links.get(&place.row.object).copied().unwrap_or(1),
        });
    }
    nodes
}

/// Whether a path is another one or leads to it.
pub fn is_above(path: &str, other: &str) -> bool {
    let rest = other.strip_prefix(path);
    path == "/" || rest.is_some_and(|rest| rest.is_empty() || rest.starts_with('/'))
}

/// An entry that is still to be drawn.
struct Place {
    row: EntryRow,
    branch: String,
    /// What stands before the branches of its children.
    indent: String,
    depth: usize,
}

impl Place {
    fn root(row: EntryRow) -> Place {
        Place {
            row,
            branch: String::new(),
            indent: String::new(),
            depth: 0,
        }
    }

    fn below(&self, row: EntryRow, last: bool) -> Place {
        let (branch, indent) = if last {
            ("└─ ", "   ")
        } else {
            ("├─ ", "│  ")
        };
        Place {
            row,
            branch: format!("{}{branch}", self.indent),
            indent: format!("{}{indent}", self.indent),
            depth: self.depth + 1,
        }
    }
}
