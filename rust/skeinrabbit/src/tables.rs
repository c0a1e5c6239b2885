//! The tables, and whether they are sound.
use crate::cells::Cells;
use crate::errno::Errno;
use crate::level::Level;
use crate::numbers::{Entry, Thread};
use crate::refusal::Refusal;
use crate::rights::AccessFs;
use core::fmt;
use skeinrabbit_sys as sys;

/// All state of the broker: the file tree with its names, rulesets, layers and threads.
///
/// The methods that are calls answer as document 01 says, and first of all EIO where the tables are not sound.
/// A refusal changes nothing. Requests and all else that changes nothing take `&self`, and may come from many threads at once.
///
/// ```
/// # use skeinrabbit::*;
/// let mut tables = Tables::new(Level::LATEST)?;
/// let file = tables.create(Thread::MAIN, Entry::ROOT, Kind::REGULAR, "file")?;
/// assert_eq!(tables.access(Thread::MAIN, file, AccessFs::WRITE_FILE), Ok(()));
/// # Ok::<(), Errno>(())
/// ```
#[derive(Clone, PartialEq, Eq)]
pub struct Tables {
    cells: Cells,
}

impl Tables {
    /// Fresh tables: a root directory, a thread without a layer or marks, and nothing else.
    ///
    /// Refusals: a level above 6, EINVAL.
    ///
    /// ```
    /// # use skeinrabbit::*;
    /// assert!(Tables::new(Level::new(3)).is_ok());
    /// assert_eq!(Tables::new(Level::new(7)), Err(Errno::EINVAL));
    /// ```
    pub fn new(level: Level) -> Result<Self, Errno> {
        let mut tables = Self::from_cells(Cells::zeroed());
        tables.fresh(level)?;
        Ok(tables)
    }

    /// Makes these tables fresh, whatever they held.
    ///
    /// Refusals: a level above 6, EINVAL.
    ///
    /// ```
    /// # use skeinrabbit::*;
    /// let mut tables = Tables::from_cells(Cells::zeroed());
    /// assert!(!tables.is_sound());
    /// tables.fresh(Level::new(1))?;
    /// assert!(tables.is_sound());
    /// # Ok::<(), Errno>(())
    /// ```
    pub fn fresh(&mut self, level: Level) -> Result<(), Errno> {
        let raw = sys::fresh(&mut self.raw(), level.number());
        Errno::answer(raw).map(drop)
    }

    /// Tables with these cells, such as those that [`Tables::into_cells`] gave. Each call tests them.
    ///
    /// ```
    /// # use skeinrabbit::*;
    /// let mut cells = Tables::new(Level::LATEST)?.into_cells();
    /// cells.threads[3] = 7; // an admin mark is 0 or 1
    /// let tables = Tables::from_cells(cells);
    /// let refused = tables.access(Thread::MAIN, Entry::ROOT, AccessFs::READ_DIR);
    /// assert_eq!(refused, Err(Refusal::Other(Errno::EIO)));
    /// # Ok::<(), Errno>(())
    /// ```
    pub fn from_cells(cells: Cells) -> Self {
        Self { cells }
    }

    /// The cells, to be kept somewhere.
    pub fn into_cells(self) -> Cells {
        self.cells
    }

    /// The cells, to be read.
    pub fn cells(&self) -> &Cells {
        &self.cells
    }

    /// Whether the tables are sound, as every call asks first.
    ///
    /// ```
    /// # use skeinrabbit::*;
    /// assert!(Tables::new(Level::DISABLED)?.is_sound());
    /// # Ok::<(), Errno>(())
    /// ```
    pub fn is_sound(&self) -> bool {
        // No thread has this number: sound tables answer ESRCH, others EIO.
        let nobody = Thread::new(u64::MAX);
        self.access(nobody, Entry::ROOT, AccessFs::NONE) == Err(Refusal::Other(Errno::ESRCH))
    }

    pub(crate) fn shared(&self) -> sys::SharedCells<'_> {
        self.cells.shared()
    }

    pub(crate) fn raw(&mut self) -> sys::Cells<'_> {
        self.cells.raw()
    }
}

impl fmt::Debug for Tables {
    fn fmt(&self, f: &mut fmt::Formatter<'_>) -> fmt::Result {
        f.debug_struct("Tables")
            .field("level", &self.level())
            .field("entries", &self.entries().count())
            .field("open_rulesets", &self.open_rulesets().count())
            .field("layers", &self.layers().count())
            .field("threads", &self.threads().count())
            .finish()
    }
}
