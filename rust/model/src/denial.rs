//! Request W8: which layer a refused verdict names, and that layer's set.

use crate::call::Call;
use crate::judge::Move;
use crate::refusal::{Errno, Refusal};
use crate::rights::Rights;
use crate::state::{Kind, Layer, Model};
use crate::tree::Needs;

/// A layer and its set.
#[derive(Clone, Copy, PartialEq, Eq, Debug)]
pub struct Denial {
    pub layer: usize,
    pub rights: Rights,
}

/// What a verdict is asked for.
enum Asked {
    Port {
        port: u64,
        rights: Rights,
    },
    /// Rights at entries, and entries moved from one directory to another.
    Tree {
        needs: Vec<(u64, Rights)>,
        moves: Vec<Move>,
    },
}

impl Model {
    /// The youngest layer whose set is not empty, and that set, if a verdict refused the call.
    pub fn denial(&self, call: &Call, refusal: Refusal) -> Option<Denial> {
        let mut sets = self.denials(call, refusal).into_iter();
        let named = sets.find(|denial| !denial.rights.is_empty());
        let by_verdict = matches!(refusal.errno(), Errno::EACCES | Errno::EXDEV);
        assert_eq!(named.is_some(), by_verdict, "{call:?}: {refusal:?}");
        named
    }

    /// Every layer of the domain with its set, the youngest first, if a verdict refused the call.
    pub fn denials(&self, call: &Call, refusal: Refusal) -> Vec<Denial> {
        let set: fn(&Model, &Layer, &Asked) -> Rights = match refusal.errno() {
            Errno::EACCES => Model::denied_needs,
            Errno::EXDEV => Model::crossing,
            _ => return Vec::new(),
        };
        let (thread, asked) = self.asked(call);
        let domain = self.domain(self.threads[&thread].youngest).into_iter();
        let denials = domain.map(|layer| Denial {
            layer,
            rights: set(self, &self.layers[&layer], &asked),
        });
        denials.collect()
    }

    /// The set of a refusal with EACCES: what a layer denies of the rights asked for or needed.
    fn denied_needs(&self, layer: &Layer, asked: &Asked) -> Rights {
        match asked {
            Asked::Port { port, rights } => layer.denied_at_port(*port).common(*rights),
            Asked::Tree { needs, .. } => {
                let needs = needs.iter();
                let denied = needs.map(|(at, rights)| self.denied(layer, *at).common(*rights));
                denied.fold(Rights::NONE, Rights::join)
            }
        }
    }

    /// The set of a refusal with EXDEV: REFER if a layer denies it, else what fails containment in it.
    fn crossing(&self, layer: &Layer, asked: &Asked) -> Rights {
        let Asked::Tree { moves, .. } = asked else {
            return Rights::NONE;
        };
        let refers = |moved: &Move| {
            let ends = [moved.from, moved.to].map(|at| self.denied(layer, at));
            ends[0].join(ends[1]).meets(Rights::REFER)
        };
        if moves.iter().any(refers) {
            return Rights::REFER;
        }
        let failing = moves.iter().map(|moved| self.failing(layer, *moved));
        failing.fold(Rights::NONE, Rights::join)
    }

    /// The thread of a call that a verdict refused, and what it asked for.
    fn asked(&self, call: &Call) -> (u64, Asked) {
        let kind = |entry: u64| self.entries[&entry].kind;
        match *call {
            Call::Access {
                thread,
                entry,
                rights,
                ..
            } => (thread, at(entry, Rights(rights))),
            Call::Port {
                thread,
                port,
                rights,
                ..
            } => {
                let rights = Rights(rights);
                (thread, Asked::Port { port, rights })
            }
            Call::Create {
                thread,
                directory,
                kind,
                ..
            } => {
                let make = Kind::of_number(kind).map_or(Rights::NONE, Kind::make);
                (thread, at(directory, make))
            }
            Call::Remove { thread, entry, .. } => {
                let parent = self.entries[&entry].parent;
                (thread, at(parent, kind(entry).remove()))
            }
            Call::Link {
                thread,
                source,
                directory,
                ..
            } => {
                let needs = Needs::of_link(kind(source));
                (thread, self.between(source, directory, needs, None))
            }
            Call::Rename {
                ref name,
                thread,
                source,
                directory,
                ..
            } => {
                let replaced = self.replaced_kind(directory, name);
                let needs = Needs::of_rename(kind(source), replaced);
                (thread, self.between(source, directory, needs, None))
            }
            Call::Exchange {
                thread,
                source,
                directory,
                entry,
                ..
            } => {
                let needs = Needs::of_exchange(kind(source), kind(entry));
                (thread, self.between(source, directory, needs, Some(entry)))
            }
            _ => panic!("{call:?} has no verdict"),
        }
    }

    /// What a call of two directories asks for; of an exchange the other entry goes the other way.
    fn between(&self, source: u64, directory: u64, needs: Needs, other: Option<u64>) -> Asked {
        let parent = self.entries[&source].parent;
        let there = Move {
            entry: source,
            from: parent,
            to: directory,
        };
        let back = other.map(|entry| Move {
            entry,
            from: directory,
            to: parent,
        });
        let moves = std::iter::once(there).chain(back);
        Asked::Tree {
            needs: vec![(parent, needs.at_parent), (directory, needs.at_target)],
            moves: moves.filter(|_| parent != directory).collect(),
        }
    }
}

/// Rights at one entry.
fn at(entry: u64, rights: Rights) -> Asked {
    Asked::Tree {
        needs: vec![(entry, rights)],
        moves: Vec::new(),
    }
}
