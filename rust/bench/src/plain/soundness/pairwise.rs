//! Loops over pairs.

use super::names::{are_twins, is_named};
use super::{unlike_those_before, Method};
use crate::landlock::DIRECTORY;
use crate::tables::HOLDERS;
use skeinrabbit_sys::layout::{
    ENTRY_WIDTH, LAYER_WIDTH, MAX_DOMAIN, MAX_ENTRIES, MAX_LAYERS, THREAD_WIDTH,
};

pub struct Pairwise<'a> {
    entries: &'a [u64],
}

impl<'a> Method<'a> for Pairwise<'a> {
    fn new(entries: &'a [u64], _: usize) -> Option<Pairwise<'a>> {
        let climbs_end = (0..MAX_ENTRIES).all(|entry| reaches_root(entries, entry));
        let sound = climbs_end && (0..MAX_ENTRIES).all(|entry| links_sound(entries, entry));
        sound.then_some(Pairwise { entries })
    }

    fn names_apart(entries: &[u64], names: &[u8]) -> bool {
        (0..MAX_ENTRIES)
            .filter(|entry| is_named(entries, *entry))
            .all(|entry| {
                let mut before = (0..entry).filter(|other| is_named(entries, *other));
                before.all(|other| !are_twins(entries, names, entry, other))
            })
    }

    fn is_file_object(&self, object: u64) -> bool {
        let mut rows = self.entries.chunks_exact(ENTRY_WIDTH);
        rows.any(|row| row[2] == object && row[0] != 0 && row[0] != DIRECTORY)
    }

    type Seen = ();

    fn key_new(_: &mut (), rules: &[u64], number: usize) -> bool {
        unlike_those_before(rules, number)
    }

    fn runs_apart(layers: &[u64]) -> bool {
        let mut each = layers.chunks_exact(LAYER_WIDTH).enumerate();
        each.all(|(number, row)| {
            let mut before = layers.chunks_exact(LAYER_WIDTH).take(number);
            before.all(|other| other[4] + other[5] <= row[4] || row[4] + row[5] <= other[4])
        })
    }

    fn counts_true(layers: &[u64], threads: &[u64]) -> bool {
        let mut each = (1..).zip(layers.chunks_exact(LAYER_WIDTH));
        each.all(|(named, row)| {
            let parents = layers.chunks_exact(LAYER_WIDTH).map(|row| row[0]);
            let youngest = threads.chunks_exact(THREAD_WIDTH).map(|row| row[1]);
            let holders = parents.chain(youngest).filter(|layer| *layer == named);
            row[HOLDERS] == holders.count() as u64
        })
    }

    fn domains_end(layers: &[u64]) -> bool {
        (1..=MAX_LAYERS).all(|layer| {
            let parent = |layer: &usize| layers[LAYER_WIDTH * (layer - 1)] as usize;
            let climb =
                std::iter::successors(Some(layer), |at| Some(parent(at)).filter(|at| *at != 0));
            climb.take(MAX_DOMAIN + 1).count() <= MAX_DOMAIN
        })
    }

    fn all_zero(cells: &[u64]) -> bool {
        cells.iter().all(|cell| *cell == 0)
    }

    fn rows_used(_: &[u64]) -> usize {
        MAX_ENTRIES
    }
}

/// Whether climbing comes to entry 0; a free row's parent cell is 0.
fn reaches_root(entries: &[u64], entry: usize) -> bool {
    let mut at = entry;
    for _ in 0..MAX_ENTRIES {
        if at == 0 {
            return true;
        }
        at = entries[ENTRY_WIDTH * at + 1] as usize;
    }
    false
}

/// Whether the entries before a live one that share its object agree with it.
fn links_sound(entries: &[u64], entry: usize) -> bool {
    let (before, row) = entries.split_at(ENTRY_WIDTH * entry);
    let (kind, object) = (row[0], row[2]);
    if kind == 0 {
        return true;
    }
    let mut before = before.chunks_exact(ENTRY_WIDTH);
    before.all(|other| {
        if other[2] != object || other[0] == 0 {
            return true;
        }
        other[0] == kind && kind != DIRECTORY
    })
}
