//! Batches of requests over structures made from sound tables: entries in a vector, names in a map, and the rules as each of the
//! programs keeps them. Names have the quick hash, to the advantage of all: once the standard one is compiled for their bytes too, it is
//! called, and looking a number up takes 1.4 to 1.7 times as long.

mod hash;
mod layers;
mod merged;

pub use hash::Quick;
pub use layers::{Layers, Sorted};
pub use merged::Merged;

use super::broker::{name_good, refuse};
use super::verdict::{Move, Moved, Verdict};
use crate::landlock::{
    held_rights, make_right, remove_right, ALL_FS, ALL_NET, DIRECTORY, EBUSY, EEXIST, EINVAL,
    ENOENT, ENOTDIR, EPERM, ESRCH, LAST_PORT,
};
use crate::requests::{part, ANSWER_WIDTH, REQUEST_WIDTH};
use crate::tables::Tables;
use skeinrabbit_sys::layout::{ENTRY_WIDTH, LAYER_WIDTH, THREAD_WIDTH};
use std::collections::HashMap;

/// The rules of domains, and what is judged by them.
pub trait Rules {
    /// Of domains, each of which is the layers from the youngest on, by their numbers.
    fn new(tables: &Tables, domains: &[Vec<usize>]) -> Self;

    /// Rights at an entry.
    fn access(&self, entries: &[Entry], domain: usize, entry: usize, asked: u64) -> Verdict;

    /// Rights at a port.
    fn port(&self, domain: usize, port: u64, asked: u64) -> Verdict;

    fn moved(&self, entries: &[Entry], domain: usize, step: &Move) -> Verdict;
}

#[derive(Clone, Copy)]
pub struct Entry {
    pub kind: u64,
    pub parent: usize,
    pub object: u64,
}

/// A program that answers batches, with what it made of the tables.
pub struct Batch<'a, R> {
    entries: Vec<Entry>,
    /// The entry that bears a name in a directory.
    bearers: HashMap<(u64, &'a [u8]), usize, Quick>,
    /// The domain of each live thread.
    threads: Vec<Option<usize>>,
    rules: R,
}

impl<'a, R: Rules> Batch<'a, R> {
    pub fn new(tables: &'a Tables) -> Self {
        let rows = tables.entries.chunks_exact(ENTRY_WIDTH);
        let live = (1..rows.len() as u64).filter(|entry| tables.kind(*entry) != 0);
        let bearers = live.map(|entry| {
            let place = (tables.parent(entry), tables.name(entry));
            (place, entry as usize)
        });
        let (threads, domains) = domains(tables);
        Batch {
            bearers: bearers.collect(),
            entries: rows.map(entry).collect(),
            threads,
            rules: R::new(tables, &domains),
        }
    }

    /// Answers requests, or nothing if they are not in their form; then the number is 2^64 minus EINVAL.
    pub fn answer(&self, requests: &[u64], names: &[u8], answers: &mut [u64]) -> u64 {
        let rows = requests.chunks_exact(REQUEST_WIDTH);
        if !rows.remainder().is_empty()
            || rows.clone().any(|row| !(1..=5).contains(&row[0]))
            || answers.len() < ANSWER_WIDTH * rows.len()
        {
            return EINVAL.wrapping_neg();
        }
        for (row, answer) in rows.zip(answers.chunks_exact_mut(ANSWER_WIDTH)) {
            let (Ok(verdict) | Err(verdict)) = self.judged(row, names);
            answer.copy_from_slice(&[verdict.errno, verdict.layer, verdict.rights]);
        }
        0
    }

    fn judged(&self, row: &[u64], names: &[u8]) -> Result<Verdict, Verdict> {
        let [sort, thread, a, b, c, from, length] = row else {
            unreachable!("a row has so many cells");
        };
        let name = || part(names, *from, *length);
        match sort {
            1 => self.access(*thread, *a, *b),
            2 => self.port(*thread, *a, *b),
            3 => self.link(*thread, *a, *b, name()),
            4 => self.rename(*thread, *a, *b, name()),
            _ => self.exchange(*thread, *a, *b, *c),
        }
    }

    fn access(&self, thread: u64, entry: u64, asked: u64) -> Result<Verdict, Verdict> {
        let domain = self.thread(thread)?;
        let kind = self.live(entry)?.kind;
        refuse(asked == 0 || asked & !ALL_FS != 0, EINVAL)?;
        refuse(asked & !held_rights(kind) != 0, EINVAL)?;
        let entry = entry as usize;
        Ok(self.rules.access(&self.entries, domain, entry, asked))
    }

    fn port(&self, thread: u64, port: u64, asked: u64) -> Result<Verdict, Verdict> {
        let domain = self.thread(thread)?;
        refuse(port > LAST_PORT, EINVAL)?;
        refuse(asked == 0 || asked & !ALL_NET != 0, EINVAL)?;
        Ok(self.rules.port(domain, port, asked))
    }

    fn link(
        &self,
        thread: u64,
        source: u64,
        directory: u64,
        name: &[u8],
    ) -> Result<Verdict, Verdict> {
        let (domain, moved) = self.named(thread, source, directory, name)?;
        refuse(self.bearer(directory, name).is_some(), EEXIST)?;
        refuse(moved.kind == DIRECTORY, EPERM)?;
        let step = Move {
            leave: 0,
            ..Move::new(moved.kind, moved.parent as u64, directory, moved.object)
        };
        Ok(self.rules.moved(&self.entries, domain, &step))
    }

    fn rename(
        &self,
        thread: u64,
        source: u64,
        directory: u64,
        name: &[u8],
    ) -> Result<Verdict, Verdict> {
        let (domain, moved) = self.named(thread, source, directory, name)?;
        refuse(self.is_above(source, directory), EINVAL)?;
        let mut step = Move::new(moved.kind, moved.parent as u64, directory, moved.object);
        if let Some(replaced) = self.bearer(directory, name) {
            step.enter |= remove_right(replaced.kind);
        }
        Ok(self.rules.moved(&self.entries, domain, &step))
    }

    fn exchange(
        &self,
        thread: u64,
        source: u64,
        directory: u64,
        other: u64,
    ) -> Result<Verdict, Verdict> {
        let domain = self.thread(thread)?;
        let moved = self.live(source)?;
        let to = self.live(directory)?;
        let back = self.live(other)?;
        let from = moved.parent as u64;
        refuse(source == 0 || other == 0, EBUSY)?;
        refuse(to.kind != DIRECTORY, ENOTDIR)?;
        refuse(back.parent as u64 != directory, EINVAL)?;
        refuse(self.is_above(source, directory), EINVAL)?;
        refuse(self.is_above(other, from), EINVAL)?;
        let mut step = Move::new(moved.kind, from, directory, moved.object);
        step.leave |= make_right(back.kind);
        step.enter |= remove_right(back.kind);
        step.back = Moved::new(back.kind, back.object);
        Ok(self.rules.moved(&self.entries, domain, &step))
    }

    /// What is tested of a source, a directory and a name; the domain and the source.
    fn named(
        &self,
        thread: u64,
        source: u64,
        directory: u64,
        name: &[u8],
    ) -> Result<(usize, &Entry), Verdict> {
        let domain = self.thread(thread)?;
        let moved = self.live(source)?;
        let to = self.live(directory)?;
        refuse(source == 0, EBUSY)?;
        refuse(to.kind != DIRECTORY, ENOTDIR)?;
        name_good(name)?;
        Ok((domain, moved))
    }

    fn thread(&self, thread: u64) -> Result<usize, u64> {
        let domain = self.threads.get(thread as usize);
        domain.copied().flatten().ok_or(ESRCH)
    }

    fn live(&self, entry: u64) -> Result<&Entry, u64> {
        let entry = self.entries.get(entry as usize);
        entry.filter(|entry| entry.kind != 0).ok_or(ENOENT)
    }

    fn bearer(&self, directory: u64, name: &[u8]) -> Option<&Entry> {
        let entry = self.bearers.get(&(directory, name))?;
        Some(&self.entries[*entry])
    }

    /// Whether a live entry is another one or stands above it.
    fn is_above(&self, entry: u64, other: u64) -> bool {
        let [entry, mut other] = [entry, other].map(|entry| entry as usize);
        while other != entry && other != 0 {
            other = self.entries[other].parent;
        }
        other == entry
    }
}

fn entry(row: &[u64]) -> Entry {
    Entry {
        kind: row[0],
        parent: row[1] as usize,
        object: row[2],
    }
}

/// The domain of each live thread, and the layers of each domain from the youngest on.
fn domains(tables: &Tables) -> (Vec<Option<usize>>, Vec<Vec<usize>>) {
    let mut youngest = Vec::new();
    let threads = tables.threads.chunks_exact(THREAD_WIDTH).map(|row| {
        if row[0] == 0 {
            return None;
        }
        let known = youngest.iter().position(|layer| *layer == row[1]);
        Some(known.unwrap_or_else(|| {
            youngest.push(row[1]);
            youngest.len() - 1
        }))
    });
    let threads = threads.collect();
    let number = |layer: u64| layer.checked_sub(1).map(|number| number as usize);
    let parent = |layer: &usize| number(tables.layers[LAYER_WIDTH * layer]);
    let layers = |layer: &u64| std::iter::successors(number(*layer), parent).collect();
    (threads, youngest.iter().map(layers).collect())
}
