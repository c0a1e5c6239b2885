//! Request W1: the names of entries, and the paths that they make.

use crate::refusal::{Answer, Refusal};
use crate::state::{Model, ROOT};
use std::collections::BTreeMap;
use std::rc::Rc;

/// The bytes that a name has at most.
pub const LONGEST_NAME: usize = 48;
/// The bytes that a path to look up has at most.
pub const LONGEST_PATH: usize = 4095;

pub type Name = Vec<u8>;

/// Who bears which name where.
#[derive(Clone, PartialEq, Eq, Debug, Default)]
pub struct Names {
    /// The entry that bears a name in a directory.
    bearers: BTreeMap<(u64, Rc<[u8]>), u64>,
    /// The directory and the name of each entry.
    places: BTreeMap<u64, (u64, Rc<[u8]>)>,
}

impl Names {
    /// The names of entries, each with its directory; none if two of a directory are the same.
    pub fn of_all(all: Vec<(u64, u64, &[u8])>) -> Option<Names> {
        let places = all.into_iter();
        let places = places.map(|(entry, directory, name)| (entry, (directory, Rc::from(name))));
        let places: BTreeMap<u64, (u64, Rc<[u8]>)> = places.collect();
        let bearers = places.iter().map(|(entry, place)| (place.clone(), *entry));
        let bearers: BTreeMap<(u64, Rc<[u8]>), u64> = bearers.collect();
        (bearers.len() == places.len()).then_some(Names { bearers, places })
    }

    /// The entry that bears a name in a directory.
    pub fn bearer(&self, directory: u64, name: &[u8]) -> Option<u64> {
        self.bearers.get(&(directory, Rc::from(name))).copied()
    }

    /// The name of an entry; empty for the root.
    pub fn of(&self, entry: u64) -> &[u8] {
        let place = self.places.get(&entry);
        place.map_or(&[], |(_, name)| name)
    }

    /// Gives an entry a name in a directory, in place of the name it has.
    pub fn give(&mut self, entry: u64, directory: u64, name: &[u8]) {
        self.take(entry);
        let place = (directory, Rc::from(name));
        self.bearers.insert(place.clone(), entry);
        self.places.insert(entry, place);
    }

    /// Takes an entry's name.
    pub fn take(&mut self, entry: u64) -> Name {
        let Some(place) = self.places.remove(&entry) else {
            return Name::new();
        };
        self.bearers.remove(&place);
        place.1.to_vec()
    }

    /// Every entry with its name.
    pub fn iter(&self) -> impl Iterator<Item = (u64, &[u8])> {
        let places = self.places.iter();
        places.map(|(entry, (_, name))| (*entry, &**name))
    }
}

/// Refuses what can't be the name of an entry.
pub fn well_named(name: &[u8]) -> Result<(), Refusal> {
    match name {
        _ if name.len() > LONGEST_NAME => Err(Refusal::NameTooLong),
        b"" => Err(Refusal::EmptyName),
        b"." | b".." => Err(Refusal::NameOfDots),
        _ if name.contains(&b'/') => Err(Refusal::NameWithSlash),
        _ if name.contains(&0) => Err(Refusal::NameWithZero),
        _ => Ok(()),
    }
}

/// The components of a path, each with the place where it starts.
fn components(path: &[u8]) -> Vec<(usize, &[u8])> {
    let mut start = 0;
    let mut found = Vec::new();
    for part in path.split(|byte| *byte == b'/') {
        if !part.is_empty() {
            found.push((start, part));
        }
        start += part.len() + 1;
    }
    found
}

/// Where the first component stands that starts at a place or behind it, and its length; two zeros
/// if there is none.
pub fn component(path: &[u8], place: u64) -> (u64, u64) {
    let all = components(path).into_iter();
    let mut behind = all.filter(|(start, _)| *start as u64 >= place);
    let first = behind.next();
    first.map_or((0, 0), |(start, part)| (start as u64, part.len() as u64))
}

impl Model {
    /// The entry that an absolute path leads to.
    pub fn lookup(&self, path: &[u8]) -> Answer {
        if path.is_empty() {
            return Err(Refusal::EmptyPath);
        }
        if path.len() > LONGEST_PATH {
            return Err(Refusal::PathTooLong);
        }
        if !path.starts_with(b"/") {
            return Err(Refusal::RelativePath);
        }
        if path.contains(&0) {
            return Err(Refusal::PathWithZero);
        }
        let parts = components(path).into_iter();
        let reached = parts.map(|(_, part)| part).try_fold(ROOT, |at, part| {
            self.must_be_directory(at, Refusal::AfterNonDirectory)?;
            self.below(at, part)
        })?;
        if path.ends_with(b"/") {
            self.must_be_directory(reached, Refusal::SlashAfterNonDirectory)?;
        }
        Ok(reached)
    }

    /// Where a component leads from a directory.
    fn below(&self, directory: u64, part: &[u8]) -> Answer {
        match part {
            b"." => Ok(directory),
            b".." => Ok(self.entries[&directory].parent),
            _ if part.len() > LONGEST_NAME => Err(Refusal::ComponentTooLong),
            _ => {
                let bearer = self.names.bearer(directory, part);
                bearer.ok_or(Refusal::NoSuchName)
            }
        }
    }

    fn must_be_directory(&self, entry: u64, refusal: Refusal) -> Result<(), Refusal> {
        if self.entries[&entry].kind.is_directory() {
            Ok(())
        } else {
            Err(refusal)
        }
    }
}
