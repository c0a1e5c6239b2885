//! Names for entries, rulesets and threads.
use super::text::Text;
use skeinrabbit::{Entry, Tables, Thread};
use std::collections::{BTreeMap, BTreeSet};

/// A space of names.
#[derive(Clone, Copy, Debug, PartialEq, Eq, PartialOrd, Ord)]
pub enum Space {
    Entry,
    Ruleset,
    Thread,
}

/// The names that always have the same meaning, each in its space.
const FIXED: [&str; 2] = ["root", "main"];

impl Space {
    /// What the space's names stand for.
    pub fn noun(self) -> &'static str {
        match self {
            Space::Entry => "entry",
            Space::Ruleset => "ruleset",
            Space::Thread => "thread",
        }
    }

    /// How one of them is given without a name, for messages.
    pub fn given(self) -> &'static str {
        match self {
            Space::Entry => "the entry's number or path",
            Space::Ruleset => "the ruleset's number",
            Space::Thread => "the thread's number",
        }
    }

    /// The number of a name that always has the same meaning.
    pub fn fixed(self, name: &str) -> Option<u64> {
        match (self, name) {
            (Space::Entry, "root") => Some(Entry::ROOT.number()),
            (Space::Thread, "main") => Some(Thread::MAIN.number()),
            _ => None,
        }
    }
}

/// An argument that stands for an entry, a ruleset or a thread.
#[derive(Clone, Debug, PartialEq, Eq)]
pub enum Operand {
    Number(u64),
    Name(String),
    /// An entry's path.
    Path(Text),
}

/// Whether a word can be a name.
pub fn is_name(word: &str) -> bool {
    let allowed = |c: char| c.is_alphabetic() || c.is_ascii_digit() || matches!(c, '_' | '-' | '.');
    !word.is_empty() && word.chars().all(allowed) && !word.starts_with(|c: char| c.is_ascii_digit())
}

/// The names that lines read so far bind.
#[derive(Default)]
pub struct Declared(BTreeSet<(Space, String)>);

impl Declared {
    pub fn add(&mut self, space: Space, name: &str) {
        self.0.insert((space, name.to_owned()));
    }

    pub fn has(&self, space: Space, name: &str) -> bool {
        space.fixed(name).is_some() || self.0.contains(&(space, name.to_owned()))
    }

    /// Names of a space, for messages: not all where there are very many.
    pub fn names(&self, space: Space) -> Vec<&str> {
        const MOST: usize = 256;
        let fixed = FIXED.into_iter().filter(|name| space.fixed(name).is_some());
        let bound = self.0.range((space, String::new())..);
        let bound = bound.take_while(|(of, _)| *of == space);
        fixed
            .chain(bound.map(|(_, name)| name.as_str()))
            .take(MOST)
            .collect()
    }
}

/// A number that a name was bound to.
#[derive(Clone)]
struct Bound {
    number: u64,
    /// Whether it still stands for what it was bound to: numbers are used again.
    current: bool,
}

/// The names bound while a scenario is played.
#[derive(Clone, Default)]
pub struct Names(BTreeMap<(Space, String), Bound>);

impl Names {
    /// The number that a name stands for, if it is bound.
    pub fn number(&self, space: Space, name: &str) -> Option<u64> {
        let bound = self.0.get(&(space, name.to_owned()));
        space.fixed(name).or(bound.map(|bound| bound.number))
    }

    pub fn bind(&mut self, space: Space, name: &str, number: u64) {
        let current = true;
        self.0
            .insert((space, name.to_owned()), Bound { number, current });
    }

    /// Marks the names whose entry, ruleset or thread is gone. They keep their number.
    pub fn forget_gone(&mut self, tables: &Tables) {
        for ((space, _), bound) in &mut self.0 {
            let there = match space {
                Space::Entry => tables.entry(bound.number.into()).is_some(),
                Space::Ruleset => tables.open_ruleset(bound.number.into()).is_some(),
                Space::Thread => tables.thread(bound.number.into()).is_some(),
            };
            bound.current &= there;
        }
    }

    /// The name of a live entry, an open ruleset or a live thread.
    pub fn name(&self, space: Space, number: u64) -> Option<&str> {
        if let Some(name) = FIXED
            .into_iter()
            .find(|name| space.fixed(name) == Some(number))
        {
            return Some(name);
        }
        let named = self
            .0
            .iter()
            .find(|((of, _), bound)| *of == space && bound.current && bound.number == number);
        named.map(|((_, name), _)| name.as_str())
    }
}
