//! Our side: the proved core on tables of its own.

use crate::rights::*;
use model::call::{Broker as _, Call};
use model::proved::Core;
use model::state::{MAX_ENTRIES, MAX_RULESETS, MAX_THREADS};
use model::tables::Table::{self, *};
use model::tables::Tables;
use std::iter::successors;

/// The seven tables.
#[derive(Clone)]
pub struct Broker {
    tables: Tables,
}

impl Broker {
    /// Fresh tables at a level.
    pub fn new(level: u64) -> Broker {
        let mut broker = Broker {
            tables: Tables::default(),
        };
        let answer = broker.ask(&Call::Fresh { level });
        assert_eq!(answer, 0, "fresh tables at level {level}");
        broker
    }

    /// Makes the call; the success number or a negative error number.
    pub fn ask(&mut self, call: &Call) -> i64 {
        Core.answer(&mut self.tables, call).number as i64
    }

    fn cell(&self, table: Table, row: u64, place: usize) -> u64 {
        let row = usize::try_from(row).unwrap_or(usize::MAX);
        row.checked_mul(table.width())
            .and_then(|first| self.tables.of(table).get(first + place))
            .copied()
            .unwrap_or(0)
    }

    pub fn level(&self) -> u64 {
        self.cell(System, 0, 0)
    }

    pub fn pool_used(&self) -> u64 {
        self.cell(System, 0, 3)
    }

    /// An entry's kind, 0 if it is not live.
    pub fn kind(&self, entry: u64) -> u64 {
        self.cell(Entries, entry, 0)
    }

    pub fn parent(&self, entry: u64) -> u64 {
        self.cell(Entries, entry, 1)
    }

    pub fn object(&self, entry: u64) -> u64 {
        self.cell(Entries, entry, 2)
    }

    /// An entry's name in its directory; empty for the root.
    pub fn name(&self, entry: u64) -> String {
        let row = self.tables.name_row(entry as usize);
        String::from_utf8_lossy(&row[1..=row[0] as usize]).into_owned()
    }

    /// The entry that bears a name in a directory.
    pub fn bearer(&self, directory: u64, name: &[u8]) -> Option<u64> {
        let mut entries = self.live_entries().into_iter().filter(|&entry| entry != 0);
        entries
            .find(|&entry| self.parent(entry) == directory && self.name(entry).as_bytes() == name)
    }

    pub fn is_live(&self, entry: u64) -> bool {
        self.kind(entry) != 0
    }

    pub fn is_directory(&self, entry: u64) -> bool {
        self.kind(entry) == DIRECTORY
    }

    /// Whether `upper` is `entry` or above it.
    pub fn is_at_or_above(&self, upper: u64, entry: u64) -> bool {
        entry == upper || (entry != 0 && self.is_at_or_above(upper, self.parent(entry)))
    }

    pub fn live_entries(&self) -> Vec<u64> {
        (0..MAX_ENTRIES)
            .filter(|&entry| self.is_live(entry))
            .collect()
    }

    /// The rights, network rights and scopes that a ruleset handles; zeros if it is not open.
    pub fn handled(&self, ruleset: u64) -> [u64; 3] {
        [0, 1, 2].map(|place| self.cell(Rulesets, ruleset, place))
    }

    pub fn rules(&self, ruleset: u64) -> u64 {
        self.cell(Rulesets, ruleset, 3)
    }

    pub fn is_open(&self, ruleset: u64) -> bool {
        self.handled(ruleset) != [0; 3]
    }

    pub fn open_rulesets(&self) -> Vec<u64> {
        (0..MAX_RULESETS)
            .filter(|&ruleset| self.is_open(ruleset))
            .collect()
    }

    pub fn live_threads(&self) -> Vec<u64> {
        (0..MAX_THREADS)
            .filter(|&thread| self.cell(Threads, thread, 0) != 0)
            .collect()
    }

    pub fn is_restricted(&self, thread: u64) -> bool {
        self.domain(thread) != 0
    }

    /// The number of layers in a thread's domain.
    pub fn domain(&self, thread: u64) -> usize {
        let youngest = self.cell(Threads, thread, 1).checked_sub(1);
        let below = |layer: &u64| self.cell(Layers, *layer, 0).checked_sub(1);
        successors(youngest, below).count()
    }
}
