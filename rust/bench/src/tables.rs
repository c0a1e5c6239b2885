//! The seven tables that both sides work on.

use skeinrabbit_sys::layout::{
    ENTRY_WIDTH, LAYER_WIDTH, MAX_ENTRIES, NAMES_SIZE, NAME_WIDTH, SIZES, THREAD_WIDTH,
};
use skeinrabbit_sys::{Cells, SharedCells};

/// The cell of a layer that counts its holders.
pub const HOLDERS: usize = LAYER_WIDTH - 1;

#[derive(Clone, PartialEq, Eq)]
pub struct Tables {
    pub system: Vec<u64>,
    pub entries: Vec<u64>,
    pub rulesets: Vec<u64>,
    pub layers: Vec<u64>,
    pub pool: Vec<u64>,
    pub threads: Vec<u64>,
    pub names: Vec<u8>,
}

impl Tables {
    pub fn zero() -> Tables {
        let [system, entries, rulesets, layers, pool, threads] = SIZES.map(|size| vec![0; size]);
        Tables {
            system,
            entries,
            rulesets,
            layers,
            pool,
            threads,
            names: vec![0; NAMES_SIZE],
        }
    }

    /// The tables as the core's calls take them.
    pub fn cells(&mut self) -> Cells<'_> {
        Cells {
            system: &mut self.system,
            entries: &mut self.entries,
            rulesets: &mut self.rulesets,
            layers: &mut self.layers,
            pool: &mut self.pool,
            threads: &mut self.threads,
            names: &mut self.names,
        }
    }

    /// The tables as the core's requests take them.
    pub fn shared(&self) -> SharedCells<'_> {
        SharedCells {
            system: &self.system,
            entries: &self.entries,
            rulesets: &self.rulesets,
            layers: &self.layers,
            pool: &self.pool,
            threads: &self.threads,
            names: &self.names,
        }
    }

    /// The tables of 64-bit cells.
    pub fn all(&self) -> [&Vec<u64>; 6] {
        [
            &self.system,
            &self.entries,
            &self.rulesets,
            &self.layers,
            &self.pool,
            &self.threads,
        ]
    }

    /// The sum of all cells: what it takes to read each once.
    pub fn sum(&self) -> u64 {
        let sum = |cells: &Vec<u64>| cells.iter().copied().fold(0, u64::wrapping_add);
        let names = words_of(&self.names).fold(0, u64::wrapping_add);
        self.all()
            .map(sum)
            .into_iter()
            .fold(names, u64::wrapping_add)
    }

    pub fn all_mut(&mut self) -> [&mut Vec<u64>; 6] {
        [
            &mut self.system,
            &mut self.entries,
            &mut self.rulesets,
            &mut self.layers,
            &mut self.pool,
            &mut self.threads,
        ]
    }

    /// Makes every cell as in other tables.
    pub fn copy_from(&mut self, other: &Tables) {
        for (to, from) in self.all_mut().into_iter().zip(other.all()) {
            to.copy_from_slice(from);
        }
        self.names.copy_from_slice(&other.names);
    }

    /// An entry's name.
    pub fn name(&self, entry: u64) -> &[u8] {
        let row = &self.names[NAME_WIDTH * entry as usize..][..NAME_WIDTH];
        &row[1..][..row[0].into()]
    }

    /// The row of an entry's name; without a name it is zero.
    pub fn put_name(&mut self, entry: u64, name: &[u8]) {
        let row = &mut self.names[NAME_WIDTH * entry as usize..][..NAME_WIDTH];
        row.fill(0);
        row[0] = name.len() as u8;
        row[1..][..name.len()].copy_from_slice(name);
    }

    /// The path of an entry.
    pub fn path(&self, mut entry: u64) -> Vec<u8> {
        let mut path = Vec::new();
        while entry != 0 {
            path.splice(..0, [b"/", self.name(entry)].concat());
            entry = self.parent(entry);
        }
        path
    }

    /// An entry's kind; 0 for a number that is no live entry's.
    pub fn kind(&self, entry: u64) -> u64 {
        if entry < MAX_ENTRIES as u64 {
            self.entries[ENTRY_WIDTH * entry as usize]
        } else {
            0
        }
    }

    pub fn parent(&self, entry: u64) -> u64 {
        self.entries[ENTRY_WIDTH * entry as usize + 1]
    }

    pub fn object(&self, entry: u64) -> u64 {
        self.entries[ENTRY_WIDTH * entry as usize + 2]
    }

    pub fn put_entry(&mut self, entry: u64, row: [u64; ENTRY_WIDTH]) {
        self.entries[ENTRY_WIDTH * entry as usize..][..ENTRY_WIDTH].copy_from_slice(&row);
    }

    pub fn is_thread(&self, thread: u64) -> bool {
        let mut rows = self.threads.chunks_exact(THREAD_WIDTH);
        rows.nth(thread as usize).is_some_and(|row| row[0] != 0)
    }

    /// A live thread's youngest layer: its number + 1, or 0.
    pub fn youngest(&self, thread: u64) -> u64 {
        self.threads[THREAD_WIDTH * thread as usize + 1]
    }

    pub fn put_thread(&mut self, thread: u64, row: [u64; THREAD_WIDTH]) {
        self.threads[THREAD_WIDTH * thread as usize..][..THREAD_WIDTH].copy_from_slice(&row);
    }

    pub fn live_threads(&self) -> usize {
        let rows = self.threads.chunks_exact(THREAD_WIDTH);
        rows.filter(|row| row[0] != 0).count()
    }

    /// The row of a layer, to be written.
    pub fn layer_mut(&mut self, layer: usize) -> &mut [u64] {
        &mut self.layers[LAYER_WIDTH * layer..][..LAYER_WIDTH]
    }

    /// The number of live entries, which come first in the tables measured here.
    pub fn live_entries(&self) -> u64 {
        let rows = self.entries.chunks_exact(ENTRY_WIDTH);
        rows.take_while(|row| row[0] != 0).count() as u64
    }
}

/// The bytes as words of eight; bytes past the last whole one are left out.
pub fn words_of(bytes: &[u8]) -> impl Iterator<Item = u64> + '_ {
    let words = bytes.chunks_exact(8);
    words.map(|word| word.try_into().map_or(0, u64::from_le_bytes))
}
