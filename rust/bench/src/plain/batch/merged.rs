//! The rules of a domain in one map, with the layers that each right is granted by: the tree is climbed once for all layers.

use super::{Entry, Rules};
use crate::landlock::{handled, EACCES, EXDEV, PATH_RULE, REFER};
use crate::plain::verdict::{Move, Moved, Verdict};
use crate::tables::Tables;
use skeinrabbit_sys::layout::{LAYER_WIDTH, RULE_WIDTH};
use std::collections::HashMap;
use std::hash::BuildHasher;

/// For each right a set of layers: the oldest is bit 0.
type Sets<const RIGHTS: usize> = [u64; RIGHTS];
type Paths = Sets<16>;
type Ports = Sets<2>;

struct Domain<S> {
    /// The number + 1 of each layer, the oldest first.
    numbers: Vec<u64>,
    handled: Paths,
    net: Ports,
    paths: HashMap<u64, Paths, S>,
    ports: HashMap<u64, Ports, S>,
}

pub struct Merged<S>(Vec<Domain<S>>);

impl<S: BuildHasher + Default> Rules for Merged<S> {
    fn new(tables: &Tables, domains: &[Vec<usize>]) -> Self {
        let domains = domains.iter();
        Merged(domains.map(|layers| Domain::new(tables, layers)).collect())
    }

    fn access(&self, entries: &[Entry], domain: usize, entry: usize, asked: u64) -> Verdict {
        let domain = &self.0[domain];
        domain.refused(EACCES, &domain.denied(entries, entry, asked))
    }

    fn port(&self, domain: usize, port: u64, asked: u64) -> Verdict {
        let domain = &self.0[domain];
        let mut missing = among(&domain.net, asked);
        if let Some(granted) = domain.ports.get(&port) {
            remove(&mut missing, granted);
        }
        domain.refused(EACCES, &missing)
    }

    fn moved(&self, entries: &[Entry], domain: usize, step: &Move) -> Verdict {
        let domain = &self.0[domain];
        let compared = step.compared();
        let [from, to] = [step.from, step.to].map(|entry| entry as usize);
        let at_source = domain.denied(entries, from, step.leave | compared);
        let at_target = domain.denied(entries, to, step.enter | compared);
        let mut needs = among(&at_source, step.leave);
        join(&mut needs, &among(&at_target, step.enter));
        if needs != [0; 16] {
            return domain.refused(EACCES, &needs);
        }
        if compared == 0 {
            return Verdict::default();
        }
        domain.crossed(step, &at_source, &at_target)
    }
}

impl<S: BuildHasher + Default> Domain<S> {
    /// Of layers from the youngest on, by their numbers.
    fn new(tables: &Tables, layers: &[usize]) -> Self {
        let mut domain = Domain {
            numbers: Vec::new(),
            handled: [0; 16],
            net: [0; 2],
            paths: HashMap::default(),
            ports: HashMap::default(),
        };
        for (place, layer) in layers.iter().rev().enumerate() {
            let row = &tables.layers[LAYER_WIDTH * layer..][..LAYER_WIDTH];
            domain.numbers.push(*layer as u64 + 1);
            add(&mut domain.handled, handled(row[1]), place);
            add(&mut domain.net, row[2], place);
            let rules = &tables.pool[RULE_WIDTH * row[4] as usize..];
            for rule in rules.chunks_exact(RULE_WIDTH).take(row[5] as usize) {
                if rule[0] == PATH_RULE {
                    add(domain.paths.entry(rule[1]).or_default(), rule[2], place);
                } else {
                    add(domain.ports.entry(rule[1]).or_default(), rule[2], place);
                }
            }
        }
        domain
    }

    /// For each right asked for at an entry the layers that deny it.
    fn denied(&self, entries: &[Entry], mut entry: usize, asked: u64) -> Paths {
        let mut missing = among(&self.handled, asked);
        if missing == [0; 16] {
            return missing;
        }
        loop {
            let Entry { parent, object, .. } = entries[entry];
            if let Some(granted) = self.paths.get(&object) {
                remove(&mut missing, granted);
                if missing == [0; 16] {
                    break;
                }
            }
            if entry == 0 {
                break;
            }
            entry = parent;
        }
        missing
    }

    /// What the layers answer of which one denies REFER, or something fails containment.
    fn crossed(&self, step: &Move, at_source: &Paths, at_target: &Paths) -> Verdict {
        let mut failed = self.gained(&step.there, at_source, at_target);
        join(&mut failed, &self.gained(&step.back, at_target, at_source));
        let refer = REFER.trailing_zeros() as usize;
        let refers = at_source[refer] | at_target[refer];
        // Of a layer that denies REFER nothing else is said.
        for layers in &mut failed {
            *layers &= !refers;
        }
        failed[refer] |= refers;
        self.refused(EXDEV, &failed)
    }

    /// The rights that something gains by a move, for each the layers that denied it before.
    fn gained(&self, moved: &Moved, before: &Paths, after: &Paths) -> Paths {
        let mut gained = among(before, moved.held);
        remove(&mut gained, after);
        if gained != [0; 16] {
            if let Some(own) = self.paths.get(&moved.object) {
                remove(&mut gained, own);
            }
        }
        gained
    }

    /// Refuses by the youngest layer in the sets, if there is one, with the rights in whose sets it is.
    fn refused<const RIGHTS: usize>(&self, errno: u64, sets: &Sets<RIGHTS>) -> Verdict {
        let layers = sets.iter().fold(0, |all, layers| all | layers);
        let Some(youngest) = layers.checked_ilog2() else {
            return Verdict::default();
        };
        let rights = sets.iter().rev();
        Verdict {
            layer: self.numbers[youngest as usize],
            rights: rights.fold(0, |rights, layers| rights << 1 | layers >> youngest & 1),
            ..Verdict::refused(errno)
        }
    }
}

/// Puts a layer into the sets of the rights.
fn add<const RIGHTS: usize>(sets: &mut Sets<RIGHTS>, rights: u64, layer: usize) {
    for (right, layers) in sets.iter_mut().enumerate() {
        *layers |= (rights >> right & 1) << layer;
    }
}

/// The sets of the rights, and none for the others.
fn among<const RIGHTS: usize>(sets: &Sets<RIGHTS>, rights: u64) -> Sets<RIGHTS> {
    std::array::from_fn(|right| sets[right] & (rights >> right & 1).wrapping_neg())
}

fn remove<const RIGHTS: usize>(sets: &mut Sets<RIGHTS>, others: &Sets<RIGHTS>) {
    for (layers, others) in sets.iter_mut().zip(others) {
        *layers &= !others;
    }
}

fn join<const RIGHTS: usize>(sets: &mut Sets<RIGHTS>, others: &Sets<RIGHTS>) {
    for (layers, others) in sets.iter_mut().zip(others) {
        *layers |= others;
    }
}
