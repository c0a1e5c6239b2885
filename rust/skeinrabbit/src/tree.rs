//! The calls that change the tree, without a log.
use crate::kind::Kind;
use crate::numbers::{Entry, Thread};
use crate::refusal::Refusal;
use crate::rights::AccessFs;
use crate::tables::Tables;

/// # The tree
///
/// Every entry but the root has a name of 1 to 48 bytes without slash or zero byte, not `.` or `..`, that no other entry of its
/// directory has. A name is bad if it is over-long, ENAMETOOLONG, or otherwise none of these, EINVAL.
///
/// Where a call names two directories, EACCES comes before EXDEV: EACCES where a layer denies a right that the step needs
/// (making, removing), EXDEV where only REFER is denied at either directory or the entry would gain a right by the move. With
/// either the refusal says which layer it is and which rights.
///
/// These calls keep no log; those of [`Tables::logged`] do.
impl Tables {
    /// Creates an entry in a directory and answers its number, the lowest that is free.
    ///
    /// Refusals, in order: tables not sound, EIO; thread not live, ESRCH; directory not live, ENOENT; not a directory, ENOTDIR;
    /// a bad name, ENAMETOOLONG or EINVAL; a name that the directory has, EEXIST; unknown kind, EINVAL; making the kind denied,
    /// EACCES; no free entry or no object number left, ENOSPC.
    ///
    /// ```
    /// # use skeinrabbit::*;
    /// let mut tables = Tables::new(Level::LATEST)?;
    /// let cal = tables.create(Thread::MAIN, Entry::ROOT, Kind::DIRECTORY, "cal")?;
    /// let table = tables.create(Thread::MAIN, cal, Kind::REGULAR, "table")?;
    /// assert_eq!(table, Entry::new(2));
    /// let mut create = |directory, name| tables.create(Thread::MAIN, directory, Kind::REGULAR, name);
    /// assert_eq!(create(table, "table"), Err(Errno::ENOTDIR.into()));
    /// assert_eq!(create(cal, "a/b"), Err(Errno::EINVAL.into()));
    /// assert_eq!(create(cal, "table"), Err(Errno::EEXIST.into()));
    /// # Ok::<(), Errno>(())
    /// ```
    pub fn create(
        &mut self,
        thread: Thread,
        directory: Entry,
        kind: Kind,
        name: impl AsRef<[u8]>,
    ) -> Result<Entry, Refusal<AccessFs>> {
        self.unlogged(|tables| tables.create(thread, directory, kind, name))
    }

    /// Removes an entry.
    ///
    /// Refusals, in order: tables not sound, EIO; thread not live, ESRCH; entry not live, ENOENT; the root, EBUSY; removing the
    /// kind denied at the parent, EACCES; directory not empty, ENOTEMPTY.
    ///
    /// ```
    /// # use skeinrabbit::*;
    /// let mut tables = Tables::new(Level::LATEST)?;
    /// let file = tables.create(Thread::MAIN, Entry::ROOT, Kind::REGULAR, "file")?;
    /// assert_eq!(tables.remove(Thread::MAIN, file), Ok(()));
    /// assert_eq!(tables.remove(Thread::MAIN, file), Err(Errno::ENOENT.into()));
    /// assert_eq!(tables.remove(Thread::MAIN, Entry::ROOT), Err(Errno::EBUSY.into()));
    /// # Ok::<(), Errno>(())
    /// ```
    pub fn remove(&mut self, thread: Thread, entry: Entry) -> Result<(), Refusal<AccessFs>> {
        self.unlogged(|tables| tables.remove(thread, entry))
    }

    /// Links an entry's object into a directory and answers the new entry, the lowest number that is free.
    ///
    /// Refusals, in order: tables not sound, EIO; thread not live, ESRCH; source or directory not live, ENOENT; the root as
    /// source, EBUSY; not a directory, ENOTDIR; a bad name, ENAMETOOLONG or EINVAL; a name that the directory has, EEXIST; a
    /// directory as source, EPERM; making the kind denied, EACCES; into another directory, REFER denied or rights widened, EXDEV;
    /// no free entry, ENOSPC.
    ///
    /// ```
    /// # use skeinrabbit::*;
    /// let mut tables = Tables::new(Level::LATEST)?;
    /// let file = tables.create(Thread::MAIN, Entry::ROOT, Kind::REGULAR, "file")?;
    /// let link = tables.link(Thread::MAIN, file, Entry::ROOT, "link")?;
    /// let object = |entry| tables.entry(entry).map(|row| row.object);
    /// assert_eq!(object(link), object(file));
    /// # Ok::<(), Errno>(())
    /// ```
    pub fn link(
        &mut self,
        thread: Thread,
        source: Entry,
        directory: Entry,
        name: impl AsRef<[u8]>,
    ) -> Result<Entry, Refusal<AccessFs>> {
        self.unlogged(|tables| tables.link(thread, source, directory, name))
    }

    /// Moves an entry to a directory and gives it a name, in place of the entry that bears the name there. The source keeps its
    /// number, and a replaced entry's is free. Where both have one object nothing changes.
    ///
    /// Refusals, in order: tables not sound, EIO; thread not live, ESRCH; source or directory not live, ENOENT; the root as
    /// source, EBUSY; not a directory, ENOTDIR; a bad name, ENAMETOOLONG or EINVAL; source equal to the directory or above it,
    /// EINVAL; a need denied, EACCES; into another directory, REFER denied or rights widened, EXDEV; a directory over something
    /// else, ENOTDIR, the reverse, EISDIR; replaced directory not empty, ENOTEMPTY.
    ///
    /// ```
    /// # use skeinrabbit::*;
    /// let mut tables = Tables::new(Level::LATEST)?;
    /// let cal = tables.create(Thread::MAIN, Entry::ROOT, Kind::DIRECTORY, "cal")?;
    /// let feed = tables.create(Thread::MAIN, Entry::ROOT, Kind::REGULAR, "feed")?;
    /// let old = tables.create(Thread::MAIN, cal, Kind::REGULAR, "table")?;
    /// assert_eq!(tables.rename(Thread::MAIN, feed, cal, "table"), Ok(()));
    /// assert_eq!(tables.lookup("/cal/table"), Ok(feed));
    /// assert_eq!(tables.entry(old), None);
    /// assert_eq!(tables.rename(Thread::MAIN, cal, cal, "cal"), Err(Errno::EINVAL.into()));
    /// # Ok::<(), Errno>(())
    /// ```
    pub fn rename(
        &mut self,
        thread: Thread,
        source: Entry,
        directory: Entry,
        name: impl AsRef<[u8]>,
    ) -> Result<(), Refusal<AccessFs>> {
        self.unlogged(|tables| tables.rename(thread, source, directory, name))
    }

    /// Exchanges an entry with an entry of a directory, names with places. Where both have one object nothing changes.
    ///
    /// Refusals, in order: tables not sound, EIO; thread not live, ESRCH; any of the three not live, ENOENT; the root as source
    /// or entry, EBUSY; not a directory, ENOTDIR; entry no child of the directory, EINVAL; source equal to the directory or
    /// above it, EINVAL; entry equal to the source's parent or above it, EINVAL; a need denied, EACCES; with another directory,
    /// REFER denied or rights of either widened, EXDEV.
    ///
    /// ```
    /// # use skeinrabbit::*;
    /// let mut tables = Tables::new(Level::LATEST)?;
    /// let folder = tables.create(Thread::MAIN, Entry::ROOT, Kind::DIRECTORY, "folder")?;
    /// let inner = tables.create(Thread::MAIN, folder, Kind::REGULAR, "inner")?;
    /// let outer = tables.create(Thread::MAIN, Entry::ROOT, Kind::FIFO, "outer")?;
    /// assert_eq!(tables.exchange(Thread::MAIN, inner, Entry::ROOT, outer), Ok(()));
    /// assert_eq!(tables.lookup("/folder/inner"), Ok(outer));
    /// assert_eq!(tables.lookup("/outer"), Ok(inner));
    /// # Ok::<(), Errno>(())
    /// ```
    pub fn exchange(
        &mut self,
        thread: Thread,
        source: Entry,
        directory: Entry,
        entry: Entry,
    ) -> Result<(), Refusal<AccessFs>> {
        self.unlogged(|tables| tables.exchange(thread, source, directory, entry))
    }
}
