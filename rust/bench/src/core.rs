//! The parts of the proved core that `.ci/archive measured` exports, with no soundness test in front; and that test.

use crate::landlock::ESRCH;
use crate::tables::Tables;

extern "C" {
    fn skein_measure_rights_on(rules: *const u64, rules_len: usize, object: u64) -> u64;
    fn skein_measure_missing(
        entries: *const u64,
        entries_len: usize,
        rules: *const u64,
        rules_len: usize,
        entry: u64,
        asked: u64,
    ) -> u64;
    fn skein_measure_access(
        entries: *const u64,
        entries_len: usize,
        layers: *const u64,
        layers_len: usize,
        pool: *const u64,
        pool_len: usize,
        threads: *const u64,
        threads_len: usize,
        thread: u64,
        entry: u64,
        asked: u64,
    ) -> u64;
    fn skein_measure_rename(
        entries: *const u64,
        entries_len: usize,
        layers: *const u64,
        layers_len: usize,
        pool: *const u64,
        pool_len: usize,
        threads: *const u64,
        threads_len: usize,
        thread: u64,
        source: u64,
        directory: u64,
    ) -> u64;
}

/// A table as its pointer and its length in cells.
fn cells(table: &[u64]) -> (*const u64, usize) {
    (table.as_ptr(), table.len())
}

/// The rights that the rules give an object.
pub fn rights_on(rules: &[u64], object: u64) -> u64 {
    let (rules, rules_len) = cells(rules);
    // The core only reads, and no further than the length; so do all calls below.
    unsafe { skein_measure_rights_on(rules, rules_len, object) }
}

/// Of the rights asked for, those that no rule from the entry up to the root grants.
pub fn missing(entries: &[u64], rules: &[u64], entry: u64, asked: u64) -> u64 {
    let (entries, entries_len) = cells(entries);
    let (rules, rules_len) = cells(rules);
    unsafe { skein_measure_missing(entries, entries_len, rules, rules_len, entry, asked) }
}

/// The verdict on an access: 0 or an error number.
pub fn access_verdict(tables: &Tables, thread: u64, entry: u64, asked: u64) -> u64 {
    let (entries, entries_len) = cells(&tables.entries);
    let (layers, layers_len) = cells(&tables.layers);
    let (pool, pool_len) = cells(&tables.pool);
    let (threads, threads_len) = cells(&tables.threads);
    unsafe {
        skein_measure_access(
            entries,
            entries_len,
            layers,
            layers_len,
            pool,
            pool_len,
            threads,
            threads_len,
            thread,
            entry,
            asked,
        )
    }
}

/// The verdict on renaming an entry into a directory, with nothing replaced: 0 or an error number.
pub fn rename_verdict(tables: &Tables, thread: u64, source: u64, directory: u64) -> u64 {
    let (entries, entries_len) = cells(&tables.entries);
    let (layers, layers_len) = cells(&tables.layers);
    let (pool, pool_len) = cells(&tables.pool);
    let (threads, threads_len) = cells(&tables.threads);
    unsafe {
        skein_measure_rename(
            entries,
            entries_len,
            layers,
            layers_len,
            pool,
            pool_len,
            threads,
            threads_len,
            thread,
            source,
            directory,
        )
    }
}

/// Whether the tables are sound, names included: an access of no thread tests this, then refuses.
pub fn is_sound(tables: &Tables) -> bool {
    let answer = skeinrabbit_sys::access(tables.shared(), u64::MAX, 0, 0, &mut []);
    answer == ESRCH.wrapping_neg()
}
