//! What the files that are written in a comparison are to meet.

use super::write::Writing;
use super::LONGEST_FILE;
use crate::names::LONGEST_PATH;
use crate::refusal::{Answer, Refusal};
use crate::state::{Key, Model, Rules};

#[derive(Clone, Copy, PartialEq, Eq, PartialOrd, Ord, Debug)]
pub enum Met {
    /// The room is as long as the file.
    ExactRoom,
    /// Bytes behind the file stay.
    RoomLeft,
    OneByteShort,
    LongestFile,
    LongestPath,
    /// A path is chosen although its object has a shorter one.
    NotTheShortest,
    /// A path is chosen that is not that of the object's lowest entry.
    NotTheLowestEntry,
    /// A path is too long although its object has one that is not.
    ShorterPathLeft,
    /// Path rules that stood in another order.
    PathsMoved,
    /// Paths whose components would be in another order.
    NotByComponents,
    /// Port rules that stood in another order.
    PortsMoved,
    /// A port rule that stood before a path rule.
    PortsBehindPaths,
}

impl Met {
    pub const ALL: [Met; 12] = [
        Met::ExactRoom,
        Met::RoomLeft,
        Met::OneByteShort,
        Met::LongestFile,
        Met::LongestPath,
        Met::NotTheShortest,
        Met::NotTheLowestEntry,
        Met::ShorterPathLeft,
        Met::PathsMoved,
        Met::NotByComponents,
        Met::PortsMoved,
        Met::PortsBehindPaths,
    ];

    /// What a file that is asked for meets on sound tables.
    pub fn of(writing: &Writing, answer: Answer, model: &Model) -> Vec<Met> {
        let Some(ruleset) = model.rulesets.get(&writing.ruleset) else {
            return Vec::new();
        };
        let met: Vec<(Met, bool)> = match answer {
            Err(Refusal::ChosenPathTooLong) => {
                let left = Chosen::of(model, &ruleset.rules).any(|first, paths| {
                    first.len() > LONGEST_PATH && shortest(paths) <= LONGEST_PATH
                });
                vec![(Met::ShorterPathLeft, left)]
            }
            Err(Refusal::NoRoomForFile) => {
                let file = model.policy_file(writing.ruleset, &writing.name);
                let length = file.map_or(0, |file| file.len());
                vec![(Met::OneByteShort, length == writing.room + 1)]
            }
            Err(_) => Vec::new(),
            Ok(length) => {
                let (length, room) = (length as usize, writing.room);
                let chosen = Chosen::of(model, &ruleset.rules);
                let rooms = [
                    (Met::ExactRoom, length == room),
                    (Met::RoomLeft, length < room),
                    (Met::LongestFile, length == LONGEST_FILE),
                ];
                let all = rooms.into_iter().chain(chosen.met());
                all.chain(order_met(&ruleset.rules)).collect()
            }
        };
        let met = met.into_iter().filter(|(_, really)| *really);
        met.map(|(met, _)| met).collect()
    }
}

fn shortest(paths: &[Vec<u8>]) -> usize {
    paths.iter().map(Vec::len).min().unwrap_or(0)
}

/// Of each path rule, as they stand, the first path of its object and all of them in the order of entries.
struct Chosen(Vec<(Vec<u8>, Vec<Vec<u8>>)>);

impl Chosen {
    fn of(model: &Model, rules: &Rules) -> Chosen {
        let objects = rules.iter().filter_map(|(key, _)| match key {
            Key::Object(object) => Some(model.paths_of(object)),
            Key::Port(_) => None,
        });
        let chosen = objects.filter_map(|paths| Some((paths.iter().min()?.clone(), paths)));
        Chosen(chosen.collect())
    }

    fn any(&self, test: impl Fn(&[u8], &[Vec<u8>]) -> bool) -> bool {
        self.0.iter().any(|(first, paths)| test(first, paths))
    }

    fn met(&self) -> [(Met, bool); 5] {
        let mut in_order: Vec<&[u8]> = self.0.iter().map(|(first, _)| &first[..]).collect();
        let moved = !in_order.is_sorted();
        in_order.sort();
        let components = in_order.iter().map(|path| components_of(path));
        let by_components = components.collect::<Vec<Vec<&[u8]>>>().is_sorted();
        let longest = self.any(|first, _| first.len() == LONGEST_PATH);
        let not_shortest = self.any(|first, paths| shortest(paths) < first.len());
        let not_lowest = self.any(|first, paths| paths.first().is_some_and(|path| path != first));
        [
            (Met::LongestPath, longest),
            (Met::NotTheShortest, not_shortest),
            (Met::NotTheLowestEntry, not_lowest),
            (Met::PathsMoved, moved),
            (Met::NotByComponents, !by_components),
        ]
    }
}

fn components_of(path: &[u8]) -> Vec<&[u8]> {
    path.split(|byte| *byte == b'/').collect()
}

fn order_met(rules: &Rules) -> [(Met, bool); 2] {
    let is_port = |key: &Key| matches!(key, Key::Port(_));
    let keys: Vec<Key> = rules.iter().map(|(key, _)| key).collect();
    let ports: Vec<Key> = keys.iter().copied().filter(is_port).collect();
    let from_first_port = keys.iter().skip_while(|key| !is_port(key));
    [
        (Met::PortsMoved, !ports.is_sorted()),
        (Met::PortsBehindPaths, from_first_port.count() > ports.len()),
    ]
}
