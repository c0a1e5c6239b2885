//! Names and paths.
use crate::errno::Errno;
use crate::numbers::Entry;
use crate::tables::Tables;
use alloc::vec::Vec;
use core::ops::Range;
use skeinrabbit_sys as sys;
use skeinrabbit_sys::layout::{MAX_ENTRIES, NAME_WIDTH};

/// # Names and paths
///
/// A name or a path is any bytes: a `str`, a slice of bytes, an array of them.
impl Tables {
    /// Looks up an absolute path and answers its entry. Repeated slashes count as one, `.` stays, `..` goes to the parent, of the
    /// root to the root. A symlink is never followed.
    ///
    /// Refusals, in order: tables not sound, EIO; an empty path, ENOENT; more than 4,095 bytes, ENAMETOOLONG; no leading slash or
    /// a zero byte, EINVAL; then component by component: after an entry that is no directory, ENOTDIR (a closing slash there too);
    /// more than 48 bytes, ENAMETOOLONG; no such name, ENOENT.
    ///
    /// ```
    /// # use skeinrabbit::*;
    /// let mut tables = Tables::new(Level::LATEST)?;
    /// let cal = tables.create(Thread::MAIN, Entry::ROOT, Kind::DIRECTORY, "cal")?;
    /// let table = tables.create(Thread::MAIN, cal, Kind::REGULAR, "table")?;
    /// assert_eq!(tables.lookup("/cal/table"), Ok(table));
    /// assert_eq!(tables.lookup(b"//cal/../cal/./table"), Ok(table));
    /// assert_eq!(tables.lookup("/.."), Ok(Entry::ROOT));
    /// assert_eq!(tables.lookup("/cal/table/"), Err(Errno::ENOTDIR));
    /// assert_eq!(tables.lookup("/cal/feed"), Err(Errno::ENOENT));
    /// assert_eq!(tables.lookup("cal"), Err(Errno::EINVAL));
    /// # Ok::<(), Errno>(())
    /// ```
    pub fn lookup(&self, path: impl AsRef<[u8]>) -> Result<Entry, Errno> {
        let raw = sys::lookup(self.shared(), path.as_ref());
        Errno::answer(raw).map(Entry::new)
    }

    /// The name of an entry; empty for the root and for an entry that is not live. It is read as it stands and not tested.
    ///
    /// ```
    /// # use skeinrabbit::*;
    /// let mut tables = Tables::new(Level::LATEST)?;
    /// let cal = tables.create(Thread::MAIN, Entry::ROOT, Kind::DIRECTORY, "cal")?;
    /// assert_eq!(tables.name(cal), b"cal");
    /// assert_eq!(tables.name(Entry::ROOT), b"");
    /// # Ok::<(), Errno>(())
    /// ```
    pub fn name(&self, entry: Entry) -> &[u8] {
        self.named(entry).unwrap_or_default()
    }

    fn named(&self, entry: Entry) -> Option<&[u8]> {
        let start = usize::try_from(entry.number())
            .ok()?
            .checked_mul(NAME_WIDTH)?;
        let row = self
            .cells()
            .names
            .get(start..start.checked_add(NAME_WIDTH)?)?;
        let (length, bytes) = row.split_first()?;
        Some(bytes.get(..usize::from(*length)).unwrap_or(bytes))
    }

    /// The absolute path of an entry, if it is live; no other entry has the same. [`Tables::lookup`] finds the entry by it if it
    /// is at most 4,095 bytes long. It is put together of the cells as they stand.
    ///
    /// ```
    /// # use skeinrabbit::*;
    /// let mut tables = Tables::new(Level::LATEST)?;
    /// let cal = tables.create(Thread::MAIN, Entry::ROOT, Kind::DIRECTORY, "cal")?;
    /// let table = tables.create(Thread::MAIN, cal, Kind::REGULAR, "table")?;
    /// assert_eq!(tables.path(table).as_deref(), Some(&b"/cal/table"[..]));
    /// assert_eq!(tables.path(Entry::ROOT).as_deref(), Some(&b"/"[..]));
    /// assert_eq!(tables.path(Entry::new(9)), None);
    /// # Ok::<(), Errno>(())
    /// ```
    pub fn path(&self, entry: Entry) -> Option<Vec<u8>> {
        let first = self.entry(entry)?;
        let up = core::iter::successors(Some(first), |row| self.entry(row.parent))
            .take_while(|row| row.entry != Entry::ROOT)
            .take(MAX_ENTRIES);
        let names: Vec<&[u8]> = up.map(|row| self.name(row.entry)).collect();
        let mut path = Vec::new();
        for name in names.iter().rev() {
            path.push(b'/');
            path.extend_from_slice(name);
        }
        if path.is_empty() {
            path.push(b'/');
        }
        Some(path)
    }
}

/// The first component of a path that starts at or after a place, as a part of the path; empty where there is none. A place
/// within a component skips the rest of it. Components are what stands between slashes; any bytes are a path here.
///
/// ```
/// use skeinrabbit::component;
/// let path = "/cal//table";
/// assert_eq!(component(path, 0), b"cal");
/// assert_eq!(component(path, 1), b"cal");
/// assert_eq!(component(path, 2), b"table");
/// assert_eq!(component(path, 7), b"");
/// ```
pub fn component<P: AsRef<[u8]> + ?Sized>(path: &P, place: usize) -> &[u8] {
    let path = path.as_ref();
    let part = component_range(path, place).and_then(|range| path.get(range));
    part.unwrap_or_default()
}

/// Where [`component`]'s part of the path stands, if there is one.
///
/// ```
/// use skeinrabbit::component_range;
/// assert_eq!(component_range("/cal//table", 2), Some(6..11));
/// assert_eq!(component_range("/cal//table", 7), None);
/// ```
pub fn component_range<P: AsRef<[u8]> + ?Sized>(path: &P, place: usize) -> Option<Range<usize>> {
    let mut report = [0; 2];
    // It refuses nothing: its answer is always 0.
    sys::component(path.as_ref(), place as u64, &mut report);
    let [start, length] = report.map(|cell| usize::try_from(cell).unwrap_or(usize::MAX));
    let range = start..start.checked_add(length)?;
    (!range.is_empty()).then_some(range)
}

/// The components of a path, from the first to the last.
///
/// ```
/// use skeinrabbit::components;
/// let path = "//cal/./table/";
/// assert_eq!(components(path).collect::<Vec<_>>(), [&b"cal"[..], b".", b"table"]);
/// ```
pub fn components<P: AsRef<[u8]> + ?Sized>(path: &P) -> impl Iterator<Item = &[u8]> {
    let path = path.as_ref();
    let next = |range: &Range<usize>| component_range(path, range.end);
    let ranges = core::iter::successors(component_range(path, 0), next);
    ranges.filter_map(|range| path.get(range))
}
