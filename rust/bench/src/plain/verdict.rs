//! Verdicts over the cells. The tables are sound and the numbers name live things.

use crate::landlock::{
    handled, held_rights, make_right, remove_right, EACCES, EXDEV, PATH_RULE, REFER,
};
use crate::tables::Tables;
use skeinrabbit_sys::layout::{ENTRY_WIDTH, LAYER_WIDTH, RULE_WIDTH};

/// The rights that the rules give an object.
pub fn rights_on(rules: &[u64], object: u64) -> u64 {
    for rule in rules.chunks_exact(RULE_WIDTH) {
        if rule[1] == object && rule[0] == PATH_RULE {
            return rule[2];
        }
    }
    0
}

/// Of the rights asked for, those that no rule from the entry up to the root grants.
pub fn missing(entries: &[u64], rules: &[u64], entry: u64, asked: u64) -> u64 {
    climb(entries, rules, entry, asked).0
}

/// The rights that are missing, and how many entries' rules were read until none was or the root was reached.
fn climb(entries: &[u64], rules: &[u64], mut entry: u64, mut asked: u64) -> (u64, u64) {
    let mut read = 0;
    while asked != 0 {
        let row = ENTRY_WIDTH * entry as usize;
        asked &= !rights_on(rules, entries[row + 2]);
        read += 1;
        if entry == 0 {
            break;
        }
        entry = entries[row + 1];
    }
    (asked, read)
}

/// What is answered about rights: 0 or an error number, which layer refuses (its number + 1) with which rights, and of an access how
/// many entries' rules were read.
#[derive(Clone, Copy, Debug, Default, PartialEq, Eq)]
pub struct Verdict {
    pub errno: u64,
    pub layer: u64,
    pub rights: u64,
    pub entries_read: u64,
}

impl From<u64> for Verdict {
    fn from(errno: u64) -> Verdict {
        Verdict::refused(errno)
    }
}

impl Verdict {
    /// A refusal that is no layer's.
    pub fn refused(errno: u64) -> Verdict {
        Verdict {
            errno,
            ..Verdict::default()
        }
    }
}

/// What a layer's row and its part of the pool say.
struct Layer<'a> {
    /// Its number + 1.
    number: u64,
    handled: u64,
    rules: &'a [u64],
}

impl Layer<'_> {
    /// Of the rights asked for at an entry, those that the layer denies.
    fn denied(&self, entries: &[u64], entry: u64, asked: u64) -> u64 {
        missing(entries, self.rules, entry, asked & self.handled)
    }
}

/// The layers of the domain with a youngest layer (its number + 1, or 0).
fn domain(tables: &Tables, youngest: u64) -> impl Iterator<Item = Layer<'_>> {
    let mut above = youngest;
    std::iter::from_fn(move || {
        let number = above;
        let place = number.checked_sub(1)? as usize;
        let row = &tables.layers[LAYER_WIDTH * place..][..LAYER_WIDTH];
        above = row[0];
        let rules = &tables.pool[RULE_WIDTH * row[4] as usize..];
        Some(Layer {
            number,
            handled: handled(row[1]),
            rules: &rules[..RULE_WIDTH * row[5] as usize],
        })
    })
}

/// The verdict on rights at an entry.
pub fn access_verdict(tables: &Tables, youngest: u64, entry: u64, asked: u64) -> Verdict {
    granted_by_all(domain(tables, youngest).map(|layer| {
        let asked = asked & layer.handled;
        (
            layer.number,
            climb(&tables.entries, layer.rules, entry, asked),
        )
    }))
}

/// The verdict on rights of which layers, the youngest first, miss some and have read so many entries. One that misses some has read
/// all.
pub fn granted_by_all(layers: impl Iterator<Item = (u64, (u64, u64))>) -> Verdict {
    let mut verdict = Verdict::default();
    for (layer, (rights, read)) in layers {
        verdict.entries_read = verdict.entries_read.max(read);
        if rights != 0 {
            return Verdict {
                errno: EACCES,
                layer,
                rights,
                ..verdict
            };
        }
    }
    verdict
}

/// What moves: its object, and the rights that its kind can hold.
#[derive(Clone, Copy, Default)]
pub struct Moved {
    pub object: u64,
    pub held: u64,
}

impl Moved {
    pub fn new(kind: u64, object: u64) -> Moved {
        Moved {
            object,
            held: held_rights(kind),
        }
    }
}

/// A move of an entry to a directory, and of another one the other way if they are exchanged.
pub struct Move {
    pub from: u64,
    pub to: u64,
    /// The needs other than REFER at each.
    pub leave: u64,
    pub enter: u64,
    pub there: Moved,
    /// Holds no right if nothing moves back.
    pub back: Moved,
}

impl Move {
    /// A rename with nothing replaced.
    pub fn new(kind: u64, from: u64, to: u64, object: u64) -> Move {
        Move {
            from,
            to,
            leave: remove_right(kind),
            enter: make_right(kind),
            there: Moved::new(kind, object),
            back: Moved::default(),
        }
    }

    /// What to look up at both directories beside the needs there.
    pub fn compared(&self) -> u64 {
        if self.from == self.to {
            0
        } else {
            REFER | self.there.held | self.back.held
        }
    }

    /// The needs other than REFER among the rights denied at each directory.
    fn denied(&self, at_source: u64, at_target: u64) -> u64 {
        self.leave & at_source | self.enter & at_target
    }

    /// REFER if it is denied, else the rights that fail containment; `own` are those of the rule on an object.
    fn crossing(&self, at_source: u64, at_target: u64, own: impl Fn(u64) -> u64) -> u64 {
        if self.from == self.to {
            return 0;
        }
        let refer = (at_source | at_target) & REFER;
        if refer != 0 {
            return refer;
        }
        let gained = |moved: &Moved, gained: u64| match gained & moved.held {
            0 => 0,
            some => some & !own(moved.object),
        };
        gained(&self.there, at_source & !at_target) | gained(&self.back, at_target & !at_source)
    }

    /// What a layer answers that denies these rights at each directory.
    pub fn judged(
        &self,
        layer: u64,
        at_source: u64,
        at_target: u64,
        own: impl Fn(u64) -> u64,
    ) -> Verdict {
        let denied = self.denied(at_source, at_target);
        let crossing = || self.crossing(at_source, at_target, own);
        let (errno, rights) = match denied {
            0 => (EXDEV, crossing()),
            _ => (EACCES, denied),
        };
        if rights == 0 {
            return Verdict::default();
        }
        Verdict {
            layer,
            rights,
            ..Verdict::refused(errno)
        }
    }
}

/// Of what the layers answer, the youngest first: the first EACCES, else the first EXDEV.
pub fn joined(verdicts: impl Iterator<Item = Verdict>) -> Verdict {
    let mut crossing = Verdict::default();
    for verdict in verdicts {
        if verdict.errno == EACCES {
            return verdict;
        }
        if crossing.errno == 0 {
            crossing = verdict;
        }
    }
    crossing
}

/// The verdict on renaming an entry into a directory, with nothing replaced.
pub fn rename_verdict(tables: &Tables, thread: u64, source: u64, directory: u64) -> Verdict {
    let kind = tables.kind(source);
    let step = Move::new(
        kind,
        tables.parent(source),
        directory,
        tables.object(source),
    );
    let compared = step.compared();
    joined(domain(tables, tables.youngest(thread)).map(|layer| {
        let at_source = layer.denied(&tables.entries, step.from, step.leave | compared);
        let at_target = layer.denied(&tables.entries, step.to, step.enter | compared);
        let own = |object| rights_on(layer.rules, object);
        step.judged(layer.number, at_source, at_target, own)
    }))
}
