//! Levels of Landlock.
use core::fmt;

/// How much of Landlock the tables know: 0 (disabled) to 6, fixed for the life of the tables.
///
/// ```
/// use skeinrabbit::{AccessFs, Level};
/// assert!(!AccessFs::from_all(Level::new(1)).contains(AccessFs::REFER));
/// assert_eq!(Level::LATEST.known_size(), 24);
/// ```
#[derive(Clone, Copy, Debug, PartialEq, Eq, PartialOrd, Ord, Hash)]
pub struct Level(u64);

impl Level {
    /// Landlock is disabled.
    pub const DISABLED: Level = Level(0);

    /// The level that knows every right and scope.
    pub const LATEST: Level = Level(6);

    /// The level with this number; the core tests it.
    pub const fn new(number: u64) -> Self {
        Self(number)
    }

    /// The number.
    pub const fn number(self) -> u64 {
        self.0
    }

    /// The bytes of a ruleset's attribute that the level knows: 8, 16 or 24, and 0 where there is no ruleset.
    pub const fn known_size(self) -> usize {
        match self.0 {
            1..=3 => 8,
            4 | 5 => 16,
            6 => 24,
            _ => 0,
        }
    }
}

impl fmt::Display for Level {
    fn fmt(&self, f: &mut fmt::Formatter<'_>) -> fmt::Result {
        self.0.fmt(f)
    }
}
