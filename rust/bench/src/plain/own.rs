//! Verdicts over structures of its own, made from the cells once.

use super::verdict::{granted_by_all, joined, Move, Verdict};
use crate::landlock::{handled, PATH_RULE};
use crate::tables::Tables;
use skeinrabbit_sys::layout::{ENTRY_WIDTH, LAYER_WIDTH, RULE_WIDTH, THREAD_WIDTH};
use std::collections::HashMap;

struct Entry {
    kind: u64,
    parent: usize,
    object: u64,
}

struct Layer {
    handled: u64,
    /// The rights of the rule on each object.
    rules: HashMap<u64, u64>,
}

pub struct Policy {
    entries: Vec<Entry>,
    layers: Vec<Layer>,
    /// The layers of each thread's domain, youngest first.
    domains: Vec<Vec<usize>>,
}

impl Policy {
    /// The policy that sound tables show.
    pub fn new(tables: &Tables) -> Policy {
        let entries = tables.entries.chunks_exact(ENTRY_WIDTH).map(|row| Entry {
            kind: row[0],
            parent: row[1] as usize,
            object: row[2],
        });
        let layers = tables.layers.chunks_exact(LAYER_WIDTH);
        let threads = tables.threads.chunks_exact(THREAD_WIDTH);
        Policy {
            entries: entries.collect(),
            layers: layers.map(|row| layer(tables, row)).collect(),
            domains: threads.map(|row| domain(tables, row[1])).collect(),
        }
    }

    /// The layers of a thread's domain, each with its number + 1.
    fn domain(&self, thread: usize) -> impl Iterator<Item = (u64, &Layer)> {
        self.domains[thread]
            .iter()
            .map(|number| (*number as u64 + 1, &self.layers[*number]))
    }

    /// Of the rights asked for at an entry, those that the layer denies.
    fn denied(&self, layer: &Layer, entry: usize, asked: u64) -> u64 {
        self.climb(layer, entry, asked).0
    }

    /// The rights that the layer denies, and how many entries' rules were read until none was missing or the root was reached.
    fn climb(&self, layer: &Layer, mut entry: usize, asked: u64) -> (u64, u64) {
        let mut missing = asked & layer.handled;
        let mut read = 0;
        while missing != 0 {
            let Entry { parent, object, .. } = self.entries[entry];
            missing &= !layer.rights_on(object);
            read += 1;
            if entry == 0 {
                break;
            }
            entry = parent;
        }
        (missing, read)
    }

    /// The verdict on rights at an entry.
    pub fn access_verdict(&self, thread: usize, entry: usize, asked: u64) -> Verdict {
        let layers = self.domain(thread);
        granted_by_all(layers.map(|(number, layer)| (number, self.climb(layer, entry, asked))))
    }

    /// The verdict on renaming an entry into a directory, with nothing replaced.
    pub fn rename_verdict(&self, thread: usize, source: usize, directory: usize) -> Verdict {
        let Entry {
            kind,
            parent,
            object,
        } = self.entries[source];
        let step = Move::new(kind, parent as u64, directory as u64, object);
        let compared = step.compared();
        joined(self.domain(thread).map(|(number, layer)| {
            let at_source = self.denied(layer, parent, step.leave | compared);
            let at_target = self.denied(layer, directory, step.enter | compared);
            let own = |object| layer.rights_on(object);
            step.judged(number, at_source, at_target, own)
        }))
    }
}

impl Layer {
    fn rights_on(&self, object: u64) -> u64 {
        self.rules.get(&object).copied().unwrap_or(0)
    }
}

fn layer(tables: &Tables, row: &[u64]) -> Layer {
    let rules = &tables.pool[RULE_WIDTH * row[4] as usize..][..RULE_WIDTH * row[5] as usize];
    let rules = rules.chunks_exact(RULE_WIDTH);
    Layer {
        handled: handled(row[1]),
        rules: rules
            .filter(|rule| rule[0] == PATH_RULE)
            .map(|rule| (rule[1], rule[2]))
            .collect(),
    }
}

/// The layers of the domain with a youngest layer (its number + 1, or 0).
fn domain(tables: &Tables, youngest: u64) -> Vec<usize> {
    let number = |layer: u64| layer.checked_sub(1).map(|number| number as usize);
    let parent = |layer: &usize| number(tables.layers[LAYER_WIDTH * layer]);
    std::iter::successors(number(youngest), parent).collect()
}
