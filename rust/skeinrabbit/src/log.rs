//! The log of changes of the tree: where it is kept, the changes that go into it, and replay.
use crate::errno::Errno;
use crate::kind::Kind;
use crate::numbers::{Entry, Thread};
use crate::refusal::Refusal;
use crate::rights::AccessFs;
use crate::tables::Tables;
use alloc::vec;
use alloc::vec::Vec;
use core::fmt;
use skeinrabbit_sys as sys;

/// A log of changes of the tree: room for it, and how much of that is written. docs/LOG.md says what stands in it.
///
/// The room is anything that holds bytes: a `Vec<u8>`, an array, or a `&mut [u8]` that stands elsewhere. It does not grow. What is
/// written ([`Log::written`]) is what a broker keeps in a file, and what [`Tables::replay`] takes.
///
/// ```
/// # use skeinrabbit::*;
/// let mut tables = Tables::new(Level::LATEST)?;
/// let start = tables.clone();
/// let mut log = Log::with_capacity(100);
/// let cal = tables.logged(&mut log).create(Thread::MAIN, Entry::ROOT, Kind::DIRECTORY, "cal")?;
/// tables.logged(&mut log).rename(Thread::MAIN, cal, Entry::ROOT, "old")?;
/// assert_eq!(log.written(), b"\x10\x06\x00\x02\x00\x00cal\x13\x07\x00\x01\x00\x00\x00old");
///
/// // The power failed while the second change was written.
/// let kept = &log.written()[..15];
/// let mut again = start.clone();
/// assert_eq!(again.replay(kept), Ok(6));
/// assert_eq!(again.lookup("/cal"), Ok(cal));
///
/// let mut again = start;
/// assert_eq!(again.replay(log.written()), Ok(0));
/// assert_eq!(again, tables);
/// # Ok::<(), Errno>(())
/// ```
#[derive(Clone)]
pub struct Log<B = Vec<u8>> {
    room: B,
    used: u64,
}

impl Log {
    /// An empty log with room for so many bytes.
    pub fn with_capacity(capacity: usize) -> Self {
        Self::new(vec![0; capacity])
    }
}

impl<B> Log<B> {
    /// An empty log in this room, whatever that holds.
    ///
    /// ```
    /// # use skeinrabbit::*;
    /// let mut room = [0; 12];
    /// let mut log = Log::new(&mut room[..]);
    /// let mut tables = Tables::new(Level::LATEST)?;
    /// tables.logged(&mut log).create(Thread::MAIN, Entry::ROOT, Kind::REGULAR, "file")?;
    /// assert_eq!(room[..6], [16, 7, 0, 1, 0, 0]);
    /// assert_eq!(room[6..], *b"file\0\0");
    /// # Ok::<(), Errno>(())
    /// ```
    pub fn new(room: B) -> Self {
        Self::from_parts(room, 0)
    }

    /// A log whose first `used` bytes are written. Any number may stand there: behind the end of the room it leaves none.
    ///
    /// ```
    /// # use skeinrabbit::*;
    /// let mut log = Log::from_parts([0; 100], 101);
    /// let mut tables = Tables::new(Level::LATEST)?;
    /// let refused = tables.logged(&mut log).create(Thread::MAIN, Entry::ROOT, Kind::REGULAR, "file");
    /// assert_eq!(refused, Err(Errno::ENOSPC.into()));
    /// # Ok::<(), Errno>(())
    /// ```
    pub fn from_parts(room: B, used: u64) -> Self {
        Self { room, used }
    }

    /// The room, and how many bytes of it are written.
    pub fn into_parts(self) -> (B, u64) {
        (self.room, self.used)
    }

    /// How many bytes of the room are written.
    pub fn used(&self) -> u64 {
        self.used
    }

    /// Whether nothing is written.
    pub fn is_empty(&self) -> bool {
        self.used == 0
    }

    /// Empties the log, to start it anew at the tables of this moment.
    pub fn clear(&mut self) {
        self.used = 0;
    }

    /// Cuts the log after so many bytes, as a loss of power may; one that has no more of them stays.
    pub fn cut(&mut self, length: u64) {
        self.used = self.used.min(length);
    }
}

impl<B: AsRef<[u8]>> Log<B> {
    /// The log itself: the bytes that are written.
    pub fn written(&self) -> &[u8] {
        let room = self.room.as_ref();
        let used = usize::try_from(self.used).ok();
        used.and_then(|used| room.get(..used)).unwrap_or(room)
    }

    /// How many bytes the room has, written ones included.
    pub fn capacity(&self) -> usize {
        self.room.as_ref().len()
    }

    /// How many bytes can still be written.
    pub fn left(&self) -> usize {
        let written = self.written().len();
        self.capacity().saturating_sub(written)
    }
}

/// How much is written, and how much room there is.
impl<B: AsRef<[u8]>> fmt::Debug for Log<B> {
    fn fmt(&self, f: &mut fmt::Formatter<'_>) -> fmt::Result {
        f.debug_struct("Log")
            .field("used", &self.used)
            .field("capacity", &self.capacity())
            .finish()
    }
}

/// Tables whose changes go into a log: see [`Tables::logged`].
///
/// Each method is that of [`Tables`] with the same name. One that succeeds and changes an entry or a name, be it the name alone, is
/// appended to the log as one field; one that changes nothing, as a rename between links of one file, is not, and needs no room.
/// A change whose field has no room is refused with ENOSPC, after all its other refusals: tables and log stay as they were.
pub struct Logged<'a> {
    tables: &'a mut Tables,
    log: sys::Log<'a>,
}

impl Logged<'_> {
    /// As [`Tables::create`].
    pub fn create(
        &mut self,
        thread: Thread,
        directory: Entry,
        kind: Kind,
        name: impl AsRef<[u8]>,
    ) -> Result<Entry, Refusal<AccessFs>> {
        let (thread, directory) = (thread.number(), directory.number());
        let answer = self.change(|tables, log, report| {
            let (kind, name) = (kind.number(), name.as_ref());
            sys::create(tables, thread, directory, kind, name, log, report)
        });
        answer.map(Entry::new)
    }

    /// As [`Tables::remove`].
    pub fn remove(&mut self, thread: Thread, entry: Entry) -> Result<(), Refusal<AccessFs>> {
        let (thread, entry) = (thread.number(), entry.number());
        let answer =
            self.change(|tables, log, report| sys::remove(tables, thread, entry, log, report));
        answer.map(drop)
    }

    /// As [`Tables::link`].
    pub fn link(
        &mut self,
        thread: Thread,
        source: Entry,
        directory: Entry,
        name: impl AsRef<[u8]>,
    ) -> Result<Entry, Refusal<AccessFs>> {
        let (source, directory) = (source.number(), directory.number());
        let answer = self.change(|tables, log, report| {
            let (thread, name) = (thread.number(), name.as_ref());
            sys::link(tables, thread, source, directory, name, log, report)
        });
        answer.map(Entry::new)
    }

    /// As [`Tables::rename`].
    pub fn rename(
        &mut self,
        thread: Thread,
        source: Entry,
        directory: Entry,
        name: impl AsRef<[u8]>,
    ) -> Result<(), Refusal<AccessFs>> {
        let (source, directory) = (source.number(), directory.number());
        let answer = self.change(|tables, log, report| {
            let (thread, name) = (thread.number(), name.as_ref());
            sys::rename(tables, thread, source, directory, name, log, report)
        });
        answer.map(drop)
    }

    /// As [`Tables::exchange`].
    pub fn exchange(
        &mut self,
        thread: Thread,
        source: Entry,
        directory: Entry,
        entry: Entry,
    ) -> Result<(), Refusal<AccessFs>> {
        let (source, directory) = (source.number(), directory.number());
        let answer = self.change(|tables, log, report| {
            let (thread, entry) = (thread.number(), entry.number());
            sys::exchange(tables, thread, source, directory, entry, log, report)
        });
        answer.map(drop)
    }

    fn change(
        &mut self,
        call: impl FnOnce(&mut sys::Cells, &mut sys::Log, &mut [u64]) -> u64,
    ) -> Result<u64, Refusal<AccessFs>> {
        Refusal::answer(AccessFs::from_bits, |report| {
            call(&mut self.tables.raw(), &mut self.log, report)
        })
    }
}

/// # The log
impl Tables {
    /// These tables with a log, which the changes of the tree go into.
    ///
    /// ```
    /// # use skeinrabbit::*;
    /// let mut tables = Tables::new(Level::LATEST)?;
    /// let mut log = Log::with_capacity(20);
    /// let mut logged = tables.logged(&mut log);
    /// let file = logged.create(Thread::MAIN, Entry::ROOT, Kind::REGULAR, "file")?;
    /// // 10 of 20 bytes are left: too few for the name, but enough for what changes nothing.
    /// let refused = logged.rename(Thread::MAIN, file, Entry::ROOT, "other");
    /// assert_eq!(refused, Err(Errno::ENOSPC.into()));
    /// assert_eq!(logged.rename(Thread::MAIN, file, Entry::ROOT, "file"), Ok(()));
    /// assert_eq!(log.left(), 10);
    /// // Without a log.
    /// assert_eq!(tables.rename(Thread::MAIN, file, Entry::ROOT, "other"), Ok(()));
    /// # Ok::<(), Errno>(())
    /// ```
    pub fn logged<'a, B: AsMut<[u8]>>(&'a mut self, log: &'a mut Log<B>) -> Logged<'a> {
        let log = sys::Log {
            bytes: log.room.as_mut(),
            used: &mut log.used,
        };
        Logged { tables: self, log }
    }

    /// Makes a change without a log.
    pub(crate) fn unlogged<T>(&mut self, change: impl FnOnce(&mut Logged) -> T) -> T {
        let mut none = sys::NoLog::new();
        let log = none.log();
        change(&mut Logged { tables: self, log })
    }

    /// Makes the changes of a log again, without threads and verdicts, and answers how many bytes at its tail were dropped because
    /// they are no whole field. On the tables at which the log was empty this gives the tree after exactly those changes whose fields
    /// are whole; docs/LOG.md has the conditions. Rulesets, layers and threads stay as they are here.
    ///
    /// The bytes are those that were written ([`Log::written`]), or what a cut left of them, and not the whole room: zeros behind them
    /// would be damage.
    ///
    /// Refusals, in order: tables not sound, EIO; a whole field of an unknown tag, with another value than is listed, or whose call would
    /// refuse (thread, verdict and log apart) or change nothing, EBADMSG. Then nothing has changed, whatever stood before that field.
    ///
    /// ```
    /// # use skeinrabbit::*;
    /// let mut tables = Tables::new(Level::LATEST)?;
    /// let create = b"\x10\x07\x00\x01\x00\x00file";
    /// let twice = [&create[..], create].concat();
    /// assert_eq!(tables.replay(&twice), Err(Errno::EBADMSG)); // the name is taken by then
    /// assert_eq!(tables.lookup("/file"), Err(Errno::ENOENT));
    /// // The second field is cut: its 9 bytes are dropped, whatever they are.
    /// assert_eq!(tables.replay(&twice[..19]), Ok(9));
    /// assert_eq!(tables.lookup("/file"), Ok(Entry::new(1)));
    /// # Ok::<(), Errno>(())
    /// ```
    pub fn replay(&mut self, log: &[u8]) -> Result<usize, Errno> {
        let dropped = Errno::answer(sys::replay(&mut self.raw(), log))?;
        // No more bytes than the log has.
        Ok(usize::try_from(dropped).unwrap_or(usize::MAX))
    }
}
