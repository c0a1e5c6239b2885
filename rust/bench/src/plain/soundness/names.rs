//! The names: each row by itself, and that no two entries of one directory have the same.

use crate::tables::words_of;
use skeinrabbit_sys::layout::{ENTRY_WIDTH, MAX_ENTRIES, MAX_NAME, NAME_WIDTH};

const BUCKETS: usize = 4096;
/// Steps along the chains of all buckets: names may be chosen so that all fall into one.
const STEPS: usize = 4096;

/// The row of an entry's name.
pub fn row(names: &[u8], entry: usize) -> &[u8] {
    &names[NAME_WIDTH * entry..][..NAME_WIDTH]
}

/// Whether an entry is live and not the root.
pub fn is_named(entries: &[u64], entry: usize) -> bool {
    entry != 0 && entries[ENTRY_WIDTH * entry] != 0
}

pub fn rows_sound(entries: &[u64], names: &[u8]) -> bool {
    let mut rows = names.chunks_exact(NAME_WIDTH).enumerate();
    rows.all(|(entry, row)| {
        if is_named(entries, entry) {
            row_sound(row)
        } else {
            row == [0; NAME_WIDTH]
        }
    })
}

/// All bytes are looked at, whatever the length, so that they are looked at many at a time.
fn row_sound(row: &[u8]) -> bool {
    let (length, bytes) = (row[0], &row[1..][..MAX_NAME]);
    let mut bad = false;
    for (place, byte) in bytes.iter().enumerate() {
        let inside = (place as u8) < length;
        bad |= ((*byte == 0) == inside) | (*byte == b'/');
    }
    let dots = matches!(row[..4], [1, b'.', ..] | [2, b'.', b'.', ..]);
    !bad && !dots && (1..=MAX_NAME as u8).contains(&length)
}

/// Whether a name that is not empty cannot be an entry's.
pub fn is_bad(name: &[u8]) -> bool {
    name.iter().any(|byte| matches!(byte, 0 | b'/')) || name == b"." || name == b".."
}

pub fn are_twins(entries: &[u64], names: &[u8], one: usize, other: usize) -> bool {
    entries[ENTRY_WIDTH * one + 1] == entries[ENTRY_WIDTH * other + 1]
        && row(names, one) == row(names, other)
}

/// By chains of the entries in one bucket; where these grow long, by sorting.
pub fn apart_by_chains(entries: &[u64], names: &[u8]) -> bool {
    let mut heads = [0u16; BUCKETS];
    let mut links = [0u16; MAX_ENTRIES];
    let mut steps = STEPS;
    for entry in (0..MAX_ENTRIES).filter(|entry| is_named(entries, *entry)) {
        let head = &mut heads[bucket(entries[ENTRY_WIDTH * entry + 1], row(names, entry))];
        let mut other = usize::from(*head);
        while other != 0 {
            if are_twins(entries, names, entry, other) {
                return false;
            }
            if steps == 0 {
                return apart_by_order(entries, names);
            }
            steps -= 1;
            other = usize::from(links[other]);
        }
        links[entry] = *head;
        *head = entry as u16;
    }
    true
}

/// The bucket of a name in a directory, as the core has it.
fn bucket(parent: u64, row: &[u8]) -> usize {
    let fold = words_of(&row[1..]).fold(parent, |fold, word| fold.rotate_left(19) ^ word);
    let (low, high) = (fold & 0xffff_ffff, fold >> 32);
    let mixed = (low * 0x9e37_79b1) ^ (high * 0x85eb_ca77);
    (mixed ^ (mixed >> 32)) as usize % BUCKETS
}

fn apart_by_order(entries: &[u64], names: &[u8]) -> bool {
    let key = |entry: usize| (entries[ENTRY_WIDTH * entry + 1], row(names, entry));
    let mut order: Vec<usize> = (0..MAX_ENTRIES)
        .filter(|entry| is_named(entries, *entry))
        .collect();
    order.sort_unstable_by(|one, other| key(*one).cmp(&key(*other)));
    order.windows(2).all(|pair| key(pair[0]) != key(pair[1]))
}
