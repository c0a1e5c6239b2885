//! Request W12: the policy file of an open ruleset under a name.

use super::files::{opening, path_rule, port_rule};
use super::read::LONGEST_NAME;
use super::LONGEST_FILE;
use crate::names::LONGEST_PATH;
use crate::refusal::{Answer, Refusal};
use crate::rights::{Masks, Rights};
use crate::state::{Key, Model, Rules, ROOT};
use std::collections::BTreeMap;

/// What the bytes that a file may be written into hold before.
pub const UNWRITTEN_BYTE: u8 = 0x55;

/// What a caller gives beside the tables: a ruleset, a name, and so many bytes that a file may be written into.
#[derive(Clone, PartialEq, Eq, Debug)]
pub struct Writing {
    pub ruleset: u64,
    pub name: Vec<u8>,
    pub room: usize,
}

impl Writing {
    /// The bytes that a file may be written into.
    pub fn unwritten(&self) -> Vec<u8> {
        vec![UNWRITTEN_BYTE; self.room]
    }
}

/// The bytes of an output as the cells of a report.
pub fn cells_of(bytes: &[u8]) -> Vec<u64> {
    bytes.iter().map(|byte| u64::from(*byte)).collect()
}

/// Rules as they stand in a file: paths and ports, each with its rights.
#[derive(Clone, PartialEq, Eq, Debug, Default)]
pub struct InOrder {
    pub paths: Vec<(Vec<u8>, Rights)>,
    pub ports: Vec<(u16, Rights)>,
}

impl InOrder {
    /// The file of a ruleset with these rules.
    pub fn file(&self, name: &[u8], masks: &Masks) -> Vec<u8> {
        let mut file = opening(name, [masks.fs.0, masks.net.0, masks.scope.0]);
        for (path, rights) in &self.paths {
            file.extend(path_rule(rights.0, path));
        }
        for (port, rights) in &self.ports {
            file.extend(port_rule(rights.0, *port));
        }
        file
    }
}

impl Model {
    /// What writing answers, and every byte of the output after it: "All leave the output buffer alone; success
    /// returns the length and leaves the rest alone".
    pub fn write_policy(&self, writing: &Writing) -> (Answer, Vec<u8>) {
        let mut out = writing.unwritten();
        let answer = self.policy_file(writing.ruleset, &writing.name);
        let answer = answer.and_then(|file| {
            let room = out.get_mut(..file.len()).ok_or(Refusal::NoRoomForFile)?;
            room.copy_from_slice(&file);
            Ok(file.len() as u64)
        });
        (answer, out)
    }

    /// The file of a ruleset under a name, whatever room there is.
    pub fn policy_file(&self, ruleset: u64, name: &[u8]) -> Result<Vec<u8>, Refusal> {
        self.needs_landlock()?;
        let ruleset = self.open_ruleset(ruleset)?;
        match name.len() {
            0 => return Err(Refusal::FileWithoutName),
            1..=LONGEST_NAME => {}
            _ => return Err(Refusal::FileNameTooLong),
        }
        let rules = self.in_order(&ruleset.rules)?;
        let file = rules.file(name, &ruleset.masks);
        if file.len() > LONGEST_FILE {
            return Err(Refusal::FileTooLong);
        }
        Ok(file)
    }

    /// "path rules first by path in byte order, then ports rising", "each right set whole"; refused for "a root rule
    /// that W6 forbids", then "a rule whose object has no entry left", then "a chosen path over 4,095 bytes".
    pub fn in_order(&self, rules: &Rules) -> Result<InOrder, Refusal> {
        let root = self.entries[&ROOT].object;
        if rules.granted(Key::Object(root)).meets(Rights::CHANGING) {
            return Err(Refusal::SweepingRule);
        }
        let mut paths = BTreeMap::new();
        let mut ports = BTreeMap::new();
        for (key, rights) in rules.iter() {
            match key {
                Key::Object(object) => {
                    // "If an object has several paths the first in byte order is used".
                    let first = self.paths_of(object).into_iter().min();
                    paths.insert(first.ok_or(Refusal::NoEntryLeft)?, rights);
                }
                Key::Port(port) => {
                    ports.insert(port as u16, rights);
                }
            }
        }
        if paths.keys().any(|path| path.len() > LONGEST_PATH) {
            return Err(Refusal::ChosenPathTooLong);
        }
        Ok(InOrder {
            paths: paths.into_iter().collect(),
            ports: ports.into_iter().collect(),
        })
    }

    /// The paths of an object, one of each of its entries, in the order of these.
    pub fn paths_of(&self, object: u64) -> Vec<Vec<u8>> {
        let entries = self.entries.iter();
        let own = entries.filter(|(_, entry)| entry.object == object);
        own.map(|(number, _)| self.path_of(*number)).collect()
    }

    /// The path of an entry: a slash and a name for each entry on the way to it; of the root a slash.
    pub fn path_of(&self, entry: u64) -> Vec<u8> {
        let mut way = self.way_up(entry);
        way.retain(|entry| *entry != ROOT);
        if way.is_empty() {
            return b"/".to_vec();
        }
        let mut path = Vec::new();
        for entry in way.iter().rev() {
            path.push(b'/');
            path.extend_from_slice(self.names.of(*entry));
        }
        path
    }
}
