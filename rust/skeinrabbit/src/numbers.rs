//! Numbers of entries, rulesets, threads, layers and slots.
use core::fmt;

macro_rules! number {
    ($(#[$doc:meta])* $name:ident) => {
        $(#[$doc])*
        ///
        /// Any number may stand here: one out of range counts as not live, not open or not in use.
        #[derive(Clone, Copy, Debug, PartialEq, Eq, PartialOrd, Ord, Hash)]
        pub struct $name(u64);

        impl $name {
            /// The one with this number; the core tests it.
            pub const fn new(number: u64) -> Self {
                Self(number)
            }

            /// The number.
            pub const fn number(self) -> u64 {
                self.0
            }
        }

        impl From<u64> for $name {
            fn from(number: u64) -> Self {
                Self(number)
            }
        }

        impl fmt::Display for $name {
            fn fmt(&self, f: &mut fmt::Formatter<'_>) -> fmt::Result {
                self.0.fmt(f)
            }
        }
    };
}

number! {
    /// An entry of the file tree, one of 1,024.
    Entry
}

number! {
    /// A ruleset, one of 16.
    ///
    /// One whose number is dropped restricts no thread, and the compiler warns of it:
    ///
    /// ```compile_fail
    /// #![deny(unused_must_use)]
    /// # use skeinrabbit::*;
    /// let mut tables = Tables::new(Level::LATEST)?;
    /// tables.create_ruleset(&[4, 0, 0, 0, 0, 0, 0, 0], 0)?;
    /// # Ok::<(), Errno>(())
    /// ```
    #[must_use = "a ruleset restricts no thread before `Tables::restrict`"]
    Ruleset
}

number! {
    /// A thread, one of 8.
    Thread
}

number! {
    /// A layer, one of 256.
    Layer
}

number! {
    /// A slot of a [`Queue`](crate::Queue), one of 8.
    Slot
}

impl Entry {
    /// The root of the tree.
    pub const ROOT: Entry = Entry(0);
}

impl Layer {
    /// The layer of a cell that holds its number with 1 added, 0 for none.
    pub(crate) fn from_cell(cell: u64) -> Option<Layer> {
        cell.checked_sub(1).map(Layer)
    }
}

impl Thread {
    /// The thread of fresh tables.
    pub const MAIN: Thread = Thread(0);
}
