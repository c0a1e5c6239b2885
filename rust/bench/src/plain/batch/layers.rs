//! The rules of each layer by themselves, which is climbed with for each layer.

use super::{Entry, Rules};
use crate::landlock::{handled, EACCES, PATH_RULE};
use crate::plain::verdict::{joined, Move, Verdict};
use crate::tables::Tables;
use skeinrabbit_sys::layout::{LAYER_WIDTH, RULE_WIDTH};
use std::collections::HashMap;
use std::hash::BuildHasher;

/// The rights for each key.
pub trait Keyed {
    fn new(rules: impl Iterator<Item = (u64, u64)>) -> Self;

    fn rights(&self, key: u64) -> u64;
}

impl<S: BuildHasher + Default> Keyed for HashMap<u64, u64, S> {
    fn new(rules: impl Iterator<Item = (u64, u64)>) -> Self {
        rules.collect()
    }

    fn rights(&self, key: u64) -> u64 {
        self.get(&key).copied().unwrap_or(0)
    }
}

/// Keys in order, each with its rights.
pub struct Sorted(Vec<(u64, u64)>);

impl Keyed for Sorted {
    fn new(rules: impl Iterator<Item = (u64, u64)>) -> Self {
        let mut rules: Vec<_> = rules.collect();
        rules.sort_unstable();
        Sorted(rules)
    }

    fn rights(&self, key: u64) -> u64 {
        let place = self.0.binary_search_by_key(&key, |(key, _)| *key);
        place.map_or(0, |place| self.0[place].1)
    }
}

struct Layer<K> {
    /// Its number + 1.
    number: u64,
    handled: u64,
    net: u64,
    paths: K,
    ports: K,
}

pub struct Layers<K> {
    layers: Vec<Layer<K>>,
    /// The layers of each domain, youngest first.
    domains: Vec<Vec<usize>>,
}

impl<K: Keyed> Layers<K> {
    fn domain(&self, domain: usize) -> impl Iterator<Item = &Layer<K>> {
        let numbers = self.domains[domain].iter();
        numbers.map(|number| &self.layers[*number])
    }
}

impl<K: Keyed> Rules for Layers<K> {
    fn new(tables: &Tables, domains: &[Vec<usize>]) -> Self {
        let rows = tables.layers.chunks_exact(LAYER_WIDTH).enumerate();
        Layers {
            layers: rows
                .map(|(number, row)| Layer::new(tables, number, row))
                .collect(),
            domains: domains.to_vec(),
        }
    }

    fn access(&self, entries: &[Entry], domain: usize, entry: usize, asked: u64) -> Verdict {
        let denied = |layer: &Layer<K>| layer.denied(entries, entry, asked);
        first_denied(
            self.domain(domain)
                .map(|layer| (layer.number, denied(layer))),
        )
    }

    fn port(&self, domain: usize, port: u64, asked: u64) -> Verdict {
        let denied = |layer: &Layer<K>| match asked & layer.net {
            0 => 0,
            some => some & !layer.ports.rights(port),
        };
        first_denied(
            self.domain(domain)
                .map(|layer| (layer.number, denied(layer))),
        )
    }

    fn moved(&self, entries: &[Entry], domain: usize, step: &Move) -> Verdict {
        let compared = step.compared();
        let [from, to] = [step.from, step.to].map(|entry| entry as usize);
        joined(self.domain(domain).map(|layer| {
            let at_source = layer.denied(entries, from, step.leave | compared);
            let at_target = layer.denied(entries, to, step.enter | compared);
            let own = |object| layer.paths.rights(object);
            step.judged(layer.number, at_source, at_target, own)
        }))
    }
}

impl<K: Keyed> Layer<K> {
    fn new(tables: &Tables, number: usize, row: &[u64]) -> Self {
        let rules = &tables.pool[RULE_WIDTH * row[4] as usize..][..RULE_WIDTH * row[5] as usize];
        let rules = rules.chunks_exact(RULE_WIDTH);
        let (paths, ports): (Vec<_>, Vec<_>) = rules.partition(|rule| rule[0] == PATH_RULE);
        let keyed = |rules: Vec<&[u64]>| K::new(rules.into_iter().map(|rule| (rule[1], rule[2])));
        Layer {
            number: number as u64 + 1,
            handled: handled(row[1]),
            net: row[2],
            paths: keyed(paths),
            ports: keyed(ports),
        }
    }

    /// Of the rights asked for at an entry, those that the layer denies.
    fn denied(&self, entries: &[Entry], mut entry: usize, asked: u64) -> u64 {
        let mut missing = asked & self.handled;
        while missing != 0 {
            let Entry { parent, object, .. } = entries[entry];
            missing &= !self.paths.rights(object);
            if entry == 0 {
                break;
            }
            entry = parent;
        }
        missing
    }
}

/// The verdict of layers of which the first that denies something refuses.
fn first_denied(layers: impl Iterator<Item = (u64, u64)>) -> Verdict {
    let mut layers = layers.filter(|(_, rights)| *rights != 0);
    let refused = layers.next().map(|(layer, rights)| Verdict {
        layer,
        rights,
        ..Verdict::refused(EACCES)
    });
    refused.unwrap_or_default()
}
