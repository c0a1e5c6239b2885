//! Whole calls over the cells, each with a soundness test in front. Answers are as the core's: the success number, or 2^64
//! minus an error number. Requests and changes of the tree report which layer refuses, with which rights, and an access how many
//! entries' rules it read.

use super::soundness::is_bad;
use super::verdict::{access_verdict, rename_verdict, Verdict};
use crate::landlock::{
    held_rights, make_right, remove_right, ALL_FS, DIRECTORY, EAGAIN, EBUSY, EEXIST, EINVAL, EIO,
    ENAMETOOLONG, ENOENT, ENOSPC, ENOTDIR, ENOTEMPTY, ESRCH, LAST_KIND, OBJECTS_END,
};
use crate::tables::{Tables, HOLDERS};
use skeinrabbit_sys::layout::{
    ENTRY_WIDTH, LAYER_WIDTH, MAX_NAME, MAX_PATH, RULE_WIDTH, THREAD_WIDTH,
};

/// A broker with its soundness test.
#[derive(Clone, Copy)]
pub struct Broker {
    pub is_sound: fn(&Tables) -> bool,
}

/// The layer that refuses (its number + 1, or 0 for none), its rights and, of an access, how many entries' rules were read.
pub type Report = [u64; 3];

type Answer = Result<u64, Verdict>;

pub fn refuse(applies: bool, errno: u64) -> Result<(), u64> {
    if applies {
        Err(errno)
    } else {
        Ok(())
    }
}

/// Refuses what a verdict refuses.
fn granted(verdict: Verdict) -> Result<(), Verdict> {
    if verdict.errno == 0 {
        Ok(())
    } else {
        Err(verdict)
    }
}

fn number(answer: Answer) -> u64 {
    answer.unwrap_or_else(|verdict| verdict.errno.wrapping_neg())
}

fn reported(answer: Answer, report: &mut Report) -> u64 {
    let (layer, rights) = answer.map_or_else(|verdict| (verdict.layer, verdict.rights), |_| (0, 0));
    report[..2].copy_from_slice(&[layer, rights]);
    number(answer)
}

impl Broker {
    /// Whether a thread may use an entry with the rights.
    pub fn access(
        self,
        tables: &Tables,
        thread: u64,
        (entry, asked): (u64, u64),
        report: &mut Report,
    ) -> u64 {
        let answer = self.accessed(tables, thread, entry, asked);
        let (Ok(verdict) | Err(verdict)) = answer;
        *report = [verdict.layer, verdict.rights, verdict.entries_read];
        number(answer.map(|_| 0))
    }

    /// Creates an entry of a kind in a directory, with a name; answers its number.
    pub fn create(
        self,
        tables: &mut Tables,
        thread: u64,
        (directory, kind, name): (u64, u64, &[u8]),
        report: &mut Report,
    ) -> u64 {
        reported(self.created(tables, thread, directory, kind, name), report)
    }

    /// The entry of a path.
    pub fn lookup(self, tables: &Tables, path: &[u8]) -> u64 {
        number(self.found(tables, path))
    }

    /// Removes an entry.
    pub fn remove(self, tables: &mut Tables, thread: u64, entry: u64, report: &mut Report) -> u64 {
        reported(self.removed(tables, thread, entry), report)
    }

    /// Renames an entry into a directory, with a name that is not taken there.
    pub fn rename(
        self,
        tables: &mut Tables,
        thread: u64,
        (source, directory, name): (u64, u64, &[u8]),
        report: &mut Report,
    ) -> u64 {
        reported(
            self.renamed(tables, thread, source, directory, name),
            report,
        )
    }

    /// Clones a thread; answers the new one.
    pub fn clone_thread(self, tables: &mut Tables, thread: u64) -> u64 {
        number(self.cloned(tables, thread))
    }

    /// Ends a thread.
    pub fn end(self, tables: &mut Tables, thread: u64) -> u64 {
        number(self.ended(tables, thread))
    }

    /// What every call tests first.
    fn begin(self, tables: &Tables, thread: u64) -> Result<(), Verdict> {
        refuse(!(self.is_sound)(tables), EIO)?;
        Ok(refuse(!tables.is_thread(thread), ESRCH)?)
    }

    fn accessed(
        self,
        tables: &Tables,
        thread: u64,
        entry: u64,
        asked: u64,
    ) -> Result<Verdict, Verdict> {
        self.begin(tables, thread)?;
        let kind = tables.kind(entry);
        refuse(kind == 0, ENOENT)?;
        refuse(asked == 0 || asked & !ALL_FS != 0, EINVAL)?;
        refuse(asked & !held_rights(kind) != 0, EINVAL)?;
        let youngest = tables.youngest(thread);
        let verdict = access_verdict(tables, youngest, entry, asked);
        granted(verdict)?;
        Ok(verdict)
    }

    fn created(
        self,
        tables: &mut Tables,
        thread: u64,
        directory: u64,
        kind: u64,
        name: &[u8],
    ) -> Answer {
        self.begin(tables, thread)?;
        refuse(tables.kind(directory) == 0, ENOENT)?;
        refuse(tables.kind(directory) != DIRECTORY, ENOTDIR)?;
        name_good(name)?;
        refuse(child(tables, directory, name).is_some(), EEXIST)?;
        refuse(kind == 0 || kind > LAST_KIND, EINVAL)?;
        let youngest = tables.youngest(thread);
        let right = make_right(kind);
        granted(access_verdict(tables, youngest, directory, right))?;
        let entry = free_entry(tables).ok_or(Verdict::refused(ENOSPC))?;
        let object = tables.system[1];
        refuse(object == OBJECTS_END, ENOSPC)?;
        tables.system[1] = object + 1;
        tables.put_entry(entry, [kind, directory, object]);
        tables.put_name(entry, name);
        Ok(entry)
    }

    fn removed(self, tables: &mut Tables, thread: u64, entry: u64) -> Answer {
        self.begin(tables, thread)?;
        let kind = tables.kind(entry);
        refuse(kind == 0, ENOENT)?;
        refuse(entry == 0, EBUSY)?;
        let (youngest, parent) = (tables.youngest(thread), tables.parent(entry));
        let right = remove_right(kind);
        granted(access_verdict(tables, youngest, parent, right))?;
        refuse(kind == DIRECTORY && has_child(tables, entry), ENOTEMPTY)?;
        tables.put_entry(entry, [0; ENTRY_WIDTH]);
        tables.put_name(entry, b"");
        Ok(0)
    }

    /// Without what is asked of a replaced entry: there is none in the calls that are measured.
    fn renamed(
        self,
        tables: &mut Tables,
        thread: u64,
        source: u64,
        directory: u64,
        name: &[u8],
    ) -> Answer {
        self.begin(tables, thread)?;
        refuse(tables.kind(source) == 0, ENOENT)?;
        refuse(tables.kind(directory) == 0, ENOENT)?;
        refuse(source == 0, EBUSY)?;
        refuse(tables.kind(directory) != DIRECTORY, ENOTDIR)?;
        name_good(name)?;
        refuse(is_above(tables, source, directory), EINVAL)?;
        assert!(
            child(tables, directory, name).is_none(),
            "nothing is replaced"
        );
        granted(rename_verdict(tables, thread, source, directory))?;
        tables.entries[ENTRY_WIDTH * source as usize + 1] = directory;
        tables.put_name(source, name);
        Ok(0)
    }

    fn found(self, tables: &Tables, path: &[u8]) -> Answer {
        refuse(!(self.is_sound)(tables), EIO)?;
        refuse(path.is_empty(), ENOENT)?;
        refuse(path.len() > MAX_PATH, ENAMETOOLONG)?;
        refuse(path[0] != b'/' || path.contains(&0), EINVAL)?;
        let mut at = 0;
        let components = path.split(|byte| *byte == b'/');
        for component in components.filter(|component| !component.is_empty()) {
            refuse(tables.kind(at) != DIRECTORY, ENOTDIR)?;
            refuse(component.len() > MAX_NAME, ENAMETOOLONG)?;
            at = match component {
                b"." => at,
                b".." => tables.parent(at),
                name => child(tables, at, name).ok_or(Verdict::refused(ENOENT))?,
            };
        }
        let closing = path.last() == Some(&b'/');
        refuse(closing && tables.kind(at) != DIRECTORY, ENOTDIR)?;
        Ok(at)
    }

    fn cloned(self, tables: &mut Tables, thread: u64) -> Answer {
        self.begin(tables, thread)?;
        let mut rows = tables.threads.chunks_exact(THREAD_WIDTH);
        let free = rows.position(|row| row[0] == 0);
        let free = free.ok_or(Verdict::refused(EAGAIN))?;
        let first = THREAD_WIDTH * thread as usize;
        let row = first..first + THREAD_WIDTH;
        tables.threads.copy_within(row, THREAD_WIDTH * free);
        if let Some(layer) = tables.youngest(thread).checked_sub(1) {
            tables.layer_mut(layer as usize)[HOLDERS] += 1;
        }
        Ok(free as u64)
    }

    fn ended(self, tables: &mut Tables, thread: u64) -> Answer {
        self.begin(tables, thread)?;
        refuse(tables.live_threads() == 1, EBUSY)?;
        let youngest = tables.youngest(thread);
        tables.put_thread(thread, [0; THREAD_WIDTH]);
        release(tables, youngest);
        Ok(0)
    }
}

/// Takes a holder from a layer (its number + 1, or 0). Without one it is given back, and so on with its parent.
fn release(tables: &mut Tables, mut layer: u64) {
    while let Some(number) = layer.checked_sub(1) {
        let row = tables.layer_mut(number as usize);
        row[HOLDERS] -= 1;
        if row[HOLDERS] != 0 {
            return;
        }
        let (first, count) = (row[4], row[5]);
        layer = row[0];
        row.fill(0);
        tables.system[2] -= 1;
        close_up(tables, first, count);
    }
}

/// Takes a run out of the pool; those behind it move down.
fn close_up(tables: &mut Tables, first: u64, count: u64) {
    let used = tables.system[3];
    let [from, to, end] = [first + count, first, used].map(|place| RULE_WIDTH * place as usize);
    tables.pool.copy_within(from..end, to);
    tables.pool[end - (from - to)..end].fill(0);
    for row in tables.layers.chunks_exact_mut(LAYER_WIDTH) {
        if row[5] != 0 && row[4] > first {
            row[4] -= count;
        }
    }
    tables.system[3] = used - count;
}

/// Whether an entry is another one or stands above it.
pub fn is_above(tables: &Tables, entry: u64, mut other: u64) -> bool {
    while other != entry && other != 0 {
        other = tables.parent(other);
    }
    other == entry
}

fn free_entry(tables: &Tables) -> Option<u64> {
    let mut rows = tables.entries.chunks_exact(ENTRY_WIDTH);
    let place = rows.position(|row| row[0] == 0)?;
    Some(place as u64)
}

pub fn name_good(name: &[u8]) -> Result<(), u64> {
    refuse(name.len() > MAX_NAME, ENAMETOOLONG)?;
    refuse(name.is_empty() || is_bad(name), EINVAL)
}

/// The entry of a directory that bears a name.
fn child(tables: &Tables, directory: u64, name: &[u8]) -> Option<u64> {
    let rows = tables.entries.chunks_exact(ENTRY_WIDTH).enumerate().skip(1);
    let mut inside = rows.filter(|(_, row)| row[0] != 0 && row[1] == directory);
    let (entry, _) = inside.find(|(entry, _)| tables.name(*entry as u64) == name)?;
    Some(entry as u64)
}

fn has_child(tables: &Tables, directory: u64) -> bool {
    let mut rows = tables.entries.chunks_exact(ENTRY_WIDTH).skip(1);
    rows.any(|row| row[0] != 0 && row[1] == directory)
}
