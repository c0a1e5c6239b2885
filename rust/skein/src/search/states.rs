//! The states of a search, breadth first. A state is kept as the step that led to it and the one before; trees that differ in
//! names, numbers or the order of new directories alone are one state.
use super::goal::Goal;
use super::step::{granted, Step};
use skeinrabbit::{Entry, EntryRow, Tables, Thread};
use std::collections::{BTreeMap, BTreeSet, HashSet};
use std::hash::{DefaultHasher, Hash, Hasher};

/// How a search ended.
#[derive(Debug)]
pub enum Ended {
    /// These steps, fewest that there are, lead to the goal.
    Found(Vec<Step>),
    /// No list of so many steps does.
    None { depth: usize },
    /// No list of any length does: there is no further state.
    Exhausted { depth: usize },
    /// There are more states than may be looked at; no list of so many steps does.
    Undecided { depth: usize },
}

/// A state: the one before, and the step from there.
struct State {
    before: usize,
    step: Option<Step>,
}

pub struct States<'t> {
    start: &'t Tables,
    threads: &'t [Thread],
    /// The objects of the start; others are new.
    old: BTreeSet<u64>,
    states: Vec<State>,
    seen: HashSet<u128>,
}

impl<'t> States<'t> {
    pub fn new(start: &'t Tables, threads: &'t [Thread]) -> States<'t> {
        let old = start.entries().map(|row| row.object).collect();
        let mut states = States {
            start,
            threads,
            old,
            states: Vec::new(),
            seen: HashSet::new(),
        };
        states.is_new(start);
        states.states.push(State {
            before: 0,
            step: None,
        });
        states
    }

    /// How many states were looked at.
    pub fn count(&self) -> usize {
        self.states.len()
    }

    /// Looks at states up to a depth, and at most so many.
    pub fn search(&mut self, goal: &Goal, depth: usize, most: usize) -> Ended {
        let mut level = 0..1;
        for done in 0..depth {
            for place in level.clone() {
                let tables = self.tables(place);
                for step in granted(&tables, self.threads) {
                    let mut after = tables.clone();
                    if step.make(&mut after).is_err() || !self.is_new(&after) {
                        continue;
                    }
                    if self.states.len() >= most {
                        return Ended::Undecided { depth: done };
                    }
                    self.states.push(State {
                        before: place,
                        step: Some(step),
                    });
                    if goal.is_met(&after) {
                        return Ended::Found(self.steps(self.states.len() - 1));
                    }
                }
            }
            level = level.end..self.states.len();
            if level.is_empty() {
                return Ended::Exhausted { depth: done };
            }
        }
        Ended::None { depth }
    }

    /// The steps that lead to a state.
    fn steps(&self, mut place: usize) -> Vec<Step> {
        let mut steps = Vec::new();
        while let Some(State {
            before,
            step: Some(step),
        }) = self.states.get(place)
        {
            steps.push(*step);
            place = *before;
        }
        steps.reverse();
        steps
    }

    /// The tables of a state, made anew from the start.
    fn tables(&self, place: usize) -> Tables {
        let mut tables = self.start.clone();
        for step in self.steps(place) {
            // It was granted when the state was found.
            let _ = step.make(&mut tables);
        }
        tables
    }

    /// Whether a tree was not seen before. It is now.
    fn is_new(&mut self, tables: &Tables) -> bool {
        let shape = Shape::of(tables, &self.old);
        self.seen.insert(shape)
    }
}

/// The hash of a tree without its names and numbers.
struct Shape<'s> {
    inside: BTreeMap<Entry, Vec<EntryRow>>,
    old: &'s BTreeSet<u64>,
}

impl Shape<'_> {
    fn of(tables: &Tables, old: &BTreeSet<u64>) -> u128 {
        let mut inside: BTreeMap<Entry, Vec<EntryRow>> = BTreeMap::new();
        for row in tables.entries().filter(|row| row.entry != Entry::ROOT) {
            inside.entry(row.parent).or_default().push(row);
        }
        let root = tables.entry(Entry::ROOT);
        root.map_or(0, |root| Shape { inside, old }.hash(root))
    }

    /// The object, or that it is new, with what is inside in any order; several entries of one object there count once.
    fn hash(&self, row: EntryRow) -> u128 {
        let object = self.old.contains(&row.object).then_some(row.object);
        let inside = self.inside.get(&row.entry).map_or(&[][..], Vec::as_slice);
        let mut below: Vec<(u128, u64)> = inside
            .iter()
            .map(|row| (self.hash(*row), row.object))
            .collect();
        below.sort();
        below.dedup();
        let below: Vec<u128> = below.into_iter().map(|(hash, _)| hash).collect();
        let half = |salt: u8| {
            let mut hasher = DefaultHasher::new();
            (salt, object, &below).hash(&mut hasher);
            u128::from(hasher.finish())
        };
        half(0) << 64 | half(1)
    }
}
