//! Near-linear: entries in buckets by object and in a search tree in each, marks along climbs, bit maps for keys and pool places.

use super::names::apart_by_chains;
use super::{unlike_those_before, Method};
use crate::landlock::DIRECTORY;
use crate::tables::HOLDERS;
use skeinrabbit_sys::layout::{
    ENTRY_WIDTH, LAYER_WIDTH, MAX_DOMAIN, MAX_ENTRIES, MAX_LAYERS, MAX_POOL, RULE_WIDTH,
    THREAD_WIDTH,
};

const BUCKETS: usize = 1024;
/// The children of a node of a bucket's tree.
const BRANCHES: usize = 4;
const KEY_FLAGS: usize = 1024;
/// Cells joined at a time when looking for one that isn't zero, and rows of entries.
const BLOCK: usize = 8;
/// Flags in a word of a bit map.
const WORD: usize = u64::BITS as usize;

pub struct Buckets<'a> {
    entries: &'a [u64],
    /// For each bucket the root of its tree, an entry + 1, or 0.
    heads: [u16; BUCKETS],
    /// For each entry in a tree its children, each + 1, or 0.
    links: [u16; BRANCHES * MAX_ENTRIES],
}

impl<'a> Method<'a> for Buckets<'a> {
    fn new(entries: &'a [u64], end: usize) -> Option<Buckets<'a>> {
        let mut buckets = Buckets {
            entries,
            heads: [0; BUCKETS],
            links: [0; BRANCHES * MAX_ENTRIES],
        };
        let sound = climbs_end(entries, end) && (0..end).all(|entry| buckets.add(entry));
        sound.then_some(buckets)
    }

    fn rows_used(entries: &[u64]) -> usize {
        let mut blocks = entries.chunks_exact(ENTRY_WIDTH * BLOCK);
        let used = blocks.rposition(|block| !Self::all_zero(block));
        used.map_or(0, |block| BLOCK * (block + 1))
    }

    fn names_apart(entries: &[u64], names: &[u8]) -> bool {
        apart_by_chains(entries, names)
    }

    fn is_file_object(&self, object: u64) -> bool {
        let root = usize::from(self.heads[object as usize % BUCKETS]);
        let is_file = |entry: usize| self.entries[ENTRY_WIDTH * entry] != DIRECTORY;
        root != 0 && self.search(object, root).is_ok_and(is_file)
    }

    type Seen = [u64; KEY_FLAGS / WORD];

    fn key_new(seen: &mut Self::Seen, rules: &[u64], number: usize) -> bool {
        let flag = rules[RULE_WIDTH * number + 1] as usize % KEY_FLAGS;
        let (word, bit) = (&mut seen[flag / WORD], 1 << (flag % WORD));
        if *word & bit != 0 {
            return unlike_those_before(rules, number);
        }
        *word |= bit;
        true
    }

    fn runs_apart(layers: &[u64]) -> bool {
        let mut taken = [0u64; MAX_POOL / WORD];
        let mut rows = layers.chunks_exact(LAYER_WIDTH);
        rows.all(|row| take_run(&mut taken, row[4] as usize, row[5] as usize))
    }

    fn counts_true(layers: &[u64], threads: &[u64]) -> bool {
        let mut counts = [0; MAX_LAYERS + 1];
        for row in layers.chunks_exact(LAYER_WIDTH) {
            counts[row[0] as usize] += 1;
        }
        for row in threads.chunks_exact(THREAD_WIDTH) {
            counts[row[1] as usize] += 1;
        }
        let mut rows = layers.chunks_exact(LAYER_WIDTH).zip(&counts[1..]);
        rows.all(|(row, count)| row[HOLDERS] == *count)
    }

    fn domains_end(layers: &[u64]) -> bool {
        let mut depths = [0; MAX_LAYERS + 1];
        (1..=MAX_LAYERS).all(|layer| find_depth(layers, layer, &mut depths))
    }

    fn all_zero(cells: &[u64]) -> bool {
        let joined = |block: &[u64]| block.iter().fold(0, |joined, cell| joined | cell);
        let mut blocks = cells.chunks_exact(BLOCK);
        joined(blocks.remainder()) == 0 && blocks.all(|block| joined(block) == 0)
    }
}

impl Buckets<'_> {
    /// Adds an entry if it is live and the first of its object; otherwise answers whether it agrees with the first.
    fn add(&mut self, entry: usize) -> bool {
        let (kind, object) = (
            self.entries[ENTRY_WIDTH * entry],
            self.entries[ENTRY_WIDTH * entry + 2],
        );
        if kind == 0 {
            return true;
        }
        let head = &mut self.heads[object as usize % BUCKETS];
        let root = usize::from(*head);
        if root == 0 {
            *head = entry as u16 + 1;
            return true;
        }
        match self.search(object, root) {
            Ok(first) => kind == self.entries[ENTRY_WIDTH * first] && kind != DIRECTORY,
            Err(link) => {
                self.links[link] = entry as u16 + 1;
                true
            }
        }
    }

    /// The entry that stands for an object in the tree, or the link where it would be.
    fn search(&self, object: u64, root: usize) -> Result<usize, usize> {
        let (mut at, mut key) = (root, object / BUCKETS as u64);
        loop {
            let entry = at - 1;
            if self.entries[ENTRY_WIDTH * entry + 2] == object {
                return Ok(entry);
            }
            let link = BRANCHES * entry + key as usize % BRANCHES;
            at = usize::from(self.links[link]);
            if at == 0 {
                return Err(link);
            }
            key /= BRANCHES as u64;
        }
    }
}

/// Sets the flags of a run of at most as many places as a word has, if all are clear: in one word or two.
fn take_run(taken: &mut [u64], first: usize, count: usize) -> bool {
    if count == 0 {
        return true;
    }
    let (word, at) = (first / WORD, first % WORD);
    let run = u64::MAX >> (WORD - count);
    let (low, high) = (
        run << at,
        if at + count > WORD {
            run >> (WORD - at)
        } else {
            0
        },
    );
    if taken[word] & low != 0 || (high != 0 && taken[word + 1] & high != 0) {
        return false;
    }
    taken[word] |= low;
    if high != 0 {
        taken[word + 1] |= high;
    }
    true
}

/// Finds how deep a layer (its number + 1) and those below it are, where that isn't known; answers whether none is too deep.
fn find_depth(layers: &[u64], layer: usize, depths: &mut [u8; MAX_LAYERS + 1]) -> bool {
    let parent = |layer: usize| layers[LAYER_WIDTH * (layer - 1)] as usize;
    let (mut at, mut steps) = (layer, 0);
    while at != 0 && depths[at] == 0 {
        if steps == MAX_DOMAIN {
            return false;
        }
        steps += 1;
        at = parent(at);
    }
    let mut depth = usize::from(depths[at]) + steps;
    let sound = depth <= MAX_DOMAIN;
    at = layer;
    for _ in 0..steps {
        depths[at] = depth as u8;
        depth -= 1;
        at = parent(at);
    }
    sound
}

/// Whether climbing from every live entry, all of them before the end, comes to entry 0.
fn climbs_end(entries: &[u64], end: usize) -> bool {
    let mut marks = [0; MAX_ENTRIES];
    (0..end).all(|entry| entries[ENTRY_WIDTH * entry] == 0 || climb(entries, entry, &mut marks))
}

/// Climbs to entry 0 or to one with an older climb's mark, marking the way; answers whether there is one.
fn climb(entries: &[u64], entry: usize, marks: &mut [u16; MAX_ENTRIES]) -> bool {
    let own = entry as u16 + 1;
    let mut at = entry;
    while at != 0 && marks[at] == 0 {
        marks[at] = own;
        at = entries[ENTRY_WIDTH * at + 1] as usize;
    }
    at == 0 || marks[at] != own
}
