//! The cells of the seven tables.
use crate::text::ParseError;
use alloc::boxed::Box;
use core::fmt;
use core::str::FromStr;
use skeinrabbit_sys::{self as sys, NAMES_SIZE, SIZES};

/// The cells of the seven tables, each of its right length and with any contents.
///
/// Row `i` of a table with rows of `w` cells starts at cell `w * i`.
#[derive(Clone, PartialEq, Eq)]
pub struct Cells {
    /// Level, next object number, layers used, pool rules used.
    pub system: Box<[u64; SIZES[0]]>,
    /// 1,024 rows: kind, parent, object number.
    pub entries: Box<[u64; SIZES[1]]>,
    /// 16 rows: handled rights at files and at ports, scopes, number of rules, 64 rules.
    pub rulesets: Box<[u64; SIZES[2]]>,
    /// 256 rows: parent layer + 1, handled rights at files and at ports, scopes, first pool rule, number of rules, number of
    /// holders.
    pub layers: Box<[u64; SIZES[3]]>,
    /// 1,024 rules: type (1 path, 2 port), object number or port, rights.
    pub pool: Box<[u64; SIZES[4]]>,
    /// 8 rows: live, youngest layer + 1, no_new_privs, admin.
    pub threads: Box<[u64; SIZES[5]]>,
    /// 1,024 rows of 49 bytes, one for each entry: length of its name, the name, zeros.
    pub names: Box<[u8; NAMES_SIZE]>,
}

impl Cells {
    /// Cells that are all 0. Tables of these are not sound: [`Tables::fresh`](crate::Tables::fresh) makes them so.
    pub fn zeroed() -> Self {
        Self {
            system: Box::new([0; SIZES[0]]),
            entries: Box::new([0; SIZES[1]]),
            rulesets: Box::new([0; SIZES[2]]),
            layers: Box::new([0; SIZES[3]]),
            pool: Box::new([0; SIZES[4]]),
            threads: Box::new([0; SIZES[5]]),
            names: Box::new([0; NAMES_SIZE]),
        }
    }

    /// A cell of a table, if the table has it.
    ///
    /// ```
    /// # use skeinrabbit::*;
    /// let tables = Tables::new(Level::LATEST)?;
    /// assert_eq!(tables.cells().get(Table::System, 0), Some(6));
    /// assert_eq!(tables.cells().get(Table::System, 4), None);
    /// # Ok::<(), Errno>(())
    /// ```
    pub fn get(&self, table: Table, cell: usize) -> Option<u64> {
        match table {
            Table::System => self.system.get(cell).copied(),
            Table::Entries => self.entries.get(cell).copied(),
            Table::Rulesets => self.rulesets.get(cell).copied(),
            Table::Layers => self.layers.get(cell).copied(),
            Table::Pool => self.pool.get(cell).copied(),
            Table::Threads => self.threads.get(cell).copied(),
            Table::Names => self.names.get(cell).copied().map(u64::from),
        }
    }

    /// Writes a cell of a table, if the table has it and it can hold the value: a cell of the names is a byte. Answers whether it
    /// did.
    ///
    /// ```
    /// # use skeinrabbit::*;
    /// let mut cells = Cells::zeroed();
    /// assert!(cells.set(Table::Names, 49, 255));
    /// assert!(!cells.set(Table::Names, 49, 256));
    /// assert_eq!(cells.get(Table::Names, 49), Some(255));
    /// ```
    pub fn set(&mut self, table: Table, cell: usize, value: u64) -> bool {
        let words: &mut [u64] = match table {
            Table::System => self.system.as_mut_slice(),
            Table::Entries => self.entries.as_mut_slice(),
            Table::Rulesets => self.rulesets.as_mut_slice(),
            Table::Layers => self.layers.as_mut_slice(),
            Table::Pool => self.pool.as_mut_slice(),
            Table::Threads => self.threads.as_mut_slice(),
            Table::Names => {
                let byte = u8::try_from(value).ok();
                return replace(self.names.get_mut(cell), byte);
            }
        };
        replace(words.get_mut(cell), Some(value))
    }

    /// The cells, for the core to read.
    pub(crate) fn shared(&self) -> sys::SharedCells<'_> {
        sys::SharedCells {
            system: self.system.as_slice(),
            entries: self.entries.as_slice(),
            rulesets: self.rulesets.as_slice(),
            layers: self.layers.as_slice(),
            pool: self.pool.as_slice(),
            threads: self.threads.as_slice(),
            names: self.names.as_slice(),
        }
    }

    /// The cells, for the core to change.
    pub(crate) fn raw(&mut self) -> sys::Cells<'_> {
        sys::Cells {
            system: self.system.as_mut_slice(),
            entries: self.entries.as_mut_slice(),
            rulesets: self.rulesets.as_mut_slice(),
            layers: self.layers.as_mut_slice(),
            pool: self.pool.as_mut_slice(),
            threads: self.threads.as_mut_slice(),
            names: self.names.as_mut_slice(),
        }
    }
}

/// Writes a value where there is a cell for it and it fits.
fn replace<T>(cell: Option<&mut T>, value: Option<T>) -> bool {
    match (cell, value) {
        (Some(cell), Some(value)) => {
            *cell = value;
            true
        }
        _ => false,
    }
}

/// A row of `W` cells, if the table has it.
pub(crate) fn row<const W: usize>(table: &[u64], number: u64) -> Option<[u64; W]> {
    let start = usize::try_from(number).ok()?.checked_mul(W)?;
    let cells = table.get(start..start.checked_add(W)?)?;
    cells.try_into().ok()
}

/// The number of cells that are not 0, table by table: the cells themselves would fill pages.
impl fmt::Debug for Cells {
    fn fmt(&self, f: &mut fmt::Formatter<'_>) -> fmt::Result {
        let mut counts = f.debug_struct("Cells");
        for table in Table::ALL {
            let used = (0..table.size()).filter(|cell| self.get(table, *cell) != Some(0));
            counts.field(table.name(), &used.count());
        }
        counts.finish()
    }
}

/// One of the seven tables.
#[derive(Clone, Copy, Debug, PartialEq, Eq)]
pub enum Table {
    /// Level and counters.
    System,
    /// The file tree.
    Entries,
    /// The open rulesets.
    Rulesets,
    /// The layers.
    Layers,
    /// The rules of all layers.
    Pool,
    /// The threads.
    Threads,
    /// The names of the entries, in bytes.
    Names,
}

impl Table {
    /// The seven tables, in their order.
    pub const ALL: [Table; 7] = [
        Table::System,
        Table::Entries,
        Table::Rulesets,
        Table::Layers,
        Table::Pool,
        Table::Threads,
        Table::Names,
    ];

    /// The name.
    pub fn name(self) -> &'static str {
        match self {
            Table::System => "system",
            Table::Entries => "entries",
            Table::Rulesets => "rulesets",
            Table::Layers => "layers",
            Table::Pool => "pool",
            Table::Threads => "threads",
            Table::Names => "names",
        }
    }

    /// The number of cells; those of the names are bytes.
    pub fn size(self) -> usize {
        match self {
            Table::System => SIZES[0],
            Table::Entries => SIZES[1],
            Table::Rulesets => SIZES[2],
            Table::Layers => SIZES[3],
            Table::Pool => SIZES[4],
            Table::Threads => SIZES[5],
            Table::Names => NAMES_SIZE,
        }
    }
}

/// Reads a table's name.
impl FromStr for Table {
    type Err = ParseError;

    fn from_str(text: &str) -> Result<Self, ParseError> {
        let named = Self::ALL.into_iter().find(|table| table.name() == text);
        named.ok_or_else(|| {
            ParseError::new(
                text,
                "a table: system, entries, rulesets, layers, pool, threads or names",
            )
        })
    }
}
