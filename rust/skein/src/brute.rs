//! Random small policies, and the independent model on the same tables: what the tests of search and least compare with.
use model::sound::decode;
use model::state::{Entry, Kind, Model};
use model::tables::Tables as ModelTables;
use random::Random;
use skeinrabbit::Tables;
use std::collections::BTreeMap;

/// The rights that moves need, refer aside.
pub const MOVING: [&str; 4] = ["remove_file", "make_reg", "remove_dir", "make_dir"];

/// A tree of three directories and two or three files.
pub fn tree(random: &mut Random) -> String {
    let mut text = String::from("create main /a directory\n");
    text.push_str(random.pick(&["create main /b directory\n", "create main /a/b directory\n"]));
    let b = if text.contains("/a/b") { "/a/b" } else { "/b" };
    for (name, places) in [("x", ["/a", b]), ("y", [b, "/a"])] {
        let place = random.pick(&places);
        text.push_str(&format!("create main {place}/{name} regular\n"));
    }
    text
}

/// Rights of a list, each with a chance; at least one.
pub fn some_of<'r>(random: &mut Random, rights: &[&'r str], percent: u64) -> Vec<&'r str> {
    let mut kept = rights.to_vec();
    kept.retain(|_| random.chance(percent));
    if kept.is_empty() {
        kept.push(random.pick(rights));
    }
    kept
}

/// The model of tables.
pub fn model_of(tables: &Tables) -> Model {
    let cells = tables.cells();
    let words: [&[u64]; 6] = [
        cells.system.as_slice(),
        cells.entries.as_slice(),
        cells.rulesets.as_slice(),
        cells.layers.as_slice(),
        cells.pool.as_slice(),
        cells.threads.as_slice(),
    ];
    let tables = ModelTables {
        cells: words.map(<[u64]>::to_vec),
        names: cells.names.to_vec(),
    };
    decode(&tables).expect("sound tables")
}

/// The rights that some of the threads have at each object, through any of its entries.
pub fn held(model: &Model, threads: &[u64]) -> BTreeMap<u64, u64> {
    let mut held = BTreeMap::new();
    for (number, entry) in &model.entries {
        for thread in threads {
            let denied = model.denied_by_domain(model.threads[thread].youngest, *number);
            *held.entry(entry.object).or_default() |= entry.kind.rights().without(denied).0;
        }
    }
    held
}

/// Every tree that one call of one of the threads leads to: any change of the tree, over any entry or to a free name.
pub fn after_one_call(model: &Model, threads: &[u64]) -> Vec<Model> {
    let mut after = Vec::new();
    let mut make = |call: &dyn Fn(&mut Model) -> bool| {
        let mut next = model.clone();
        if call(&mut next) {
            after.push(next);
        }
    };
    let directories: Vec<u64> = directories(model);
    let entries: Vec<u64> = model.entries.keys().copied().collect();
    for thread in threads.iter().copied() {
        for entry in entries.iter().copied() {
            make(&|model| model.remove(thread, entry).is_ok());
            for directory in directories.iter().copied() {
                for name in names(model, directory) {
                    make(&|model| model.rename(thread, entry, directory, &name).is_ok());
                    make(&|model| model.link(thread, entry, directory, &name).is_ok());
                }
            }
            for other in entries.iter().copied() {
                let directory = model.entries[&other].parent;
                make(&|model| model.exchange(thread, entry, directory, other).is_ok());
            }
        }
        for directory in directories.iter().copied() {
            for kind in [Kind::Regular, Kind::Directory] {
                make(&|model| {
                    model
                        .create(thread, directory, kind as u64, b"free")
                        .is_ok()
                });
            }
        }
    }
    after
}

fn directories(model: &Model) -> Vec<u64> {
    let is_directory = |(_, entry): &(&u64, &Entry)| entry.kind == Kind::Directory;
    let all = model.entries.iter().filter(is_directory);
    all.map(|(number, _)| *number).collect()
}

/// A free name in a directory, and those that are taken there.
fn names(model: &Model, directory: u64) -> Vec<Vec<u8>> {
    let inside = model.entries.iter();
    let inside = inside.filter(|(number, entry)| **number != 0 && entry.parent == directory);
    let mut names: Vec<Vec<u8>> = inside
        .map(|(number, _)| model.names.of(*number).to_vec())
        .collect();
    names.push(format!("n{}", names.len()).into_bytes());
    names
}

/// What tells trees apart as far as rights go: each object with its kind and the object of its directory.
pub fn places(model: &Model) -> Vec<(u64, u64, u64)> {
    let above = |entry: &Entry| model.entries[&entry.parent].object;
    let place = |entry: &Entry| (entry.object, entry.kind as u64, above(entry));
    let mut places: Vec<(u64, u64, u64)> = model.entries.values().map(place).collect();
    places.sort_unstable();
    places.dedup();
    places
}
