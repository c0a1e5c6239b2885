//! What a search looks for: a right at something that was there at the start, under any of its names, that none of the threads had.
use skeinrabbit::{Batch, Entry, EntryRow, Rights, Tables, Thread};
use std::collections::BTreeMap;

pub struct Goal<'t> {
    threads: &'t [Thread],
    /// For each object the rights that are looked for: those of its kind that no thread had at any of its entries.
    lacked: BTreeMap<u64, Rights>,
}

/// A right that a thread has come to, and where.
#[derive(Clone, Copy, Debug, PartialEq, Eq)]
pub struct Gain {
    pub thread: Thread,
    pub entry: Entry,
    pub object: u64,
    pub right: Rights,
}

impl<'t> Goal<'t> {
    /// The rights that the threads lack on these tables, of those asked for at the entries asked for.
    pub fn of(
        tables: &Tables,
        threads: &'t [Thread],
        entries: &[Entry],
        rights: Rights,
    ) -> Goal<'t> {
        let asked = |row: &EntryRow| entries.is_empty() || entries.contains(&row.entry);
        let rows = tables.entries().filter(asked);
        let lacked = rows.map(|row| (row.object, rights & row.kind.rights()));
        let mut goal = Goal {
            threads,
            lacked: lacked.collect(),
        };
        for gain in goal.gains(tables) {
            if let Some(lacked) = goal.lacked.get_mut(&gain.object) {
                *lacked -= gain.right;
            }
        }
        goal
    }

    pub fn is_met(&self, tables: &Tables) -> bool {
        !self.gains(tables).is_empty()
    }

    /// Every right that is looked for and that a thread has.
    pub fn gains(&self, tables: &Tables) -> Vec<Gain> {
        let mut asked = Vec::new();
        let mut batch = Batch::new();
        for row in tables.entries() {
            let lacked = self.lacked.get(&row.object).copied().unwrap_or_default();
            for (thread, right) in self.threads.iter().flat_map(|thread| {
                let each = lacked.iter();
                each.map(move |right| (*thread, right))
            }) {
                batch.access(thread, row.entry, right);
                asked.push(Gain {
                    thread,
                    entry: row.entry,
                    object: row.object,
                    right,
                });
            }
        }
        let verdicts = tables.batch(&mut batch);
        let answered = asked.into_iter().zip(verdicts.iter());
        let granted = answered.filter(|(_, verdict)| verdict.is_granted());
        granted.map(|(gain, _)| gain).collect()
    }
}
