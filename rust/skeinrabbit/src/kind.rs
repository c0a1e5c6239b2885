//! Kinds of entries.
use crate::rights::AccessFs;
use crate::text::{parse_number, ParseError};
use core::fmt;
use core::str::FromStr;

/// What an entry is.
///
/// ```
/// use skeinrabbit::{AccessFs, Kind};
/// assert_eq!("directory".parse(), Ok(Kind::DIRECTORY));
/// assert_eq!(Kind::FIFO.to_string(), "fifo");
/// assert_eq!(Kind::FIFO.rights(), AccessFs::FILE_SET);
/// ```
#[derive(Clone, Copy, PartialEq, Eq, PartialOrd, Ord, Hash)]
pub struct Kind(u64);

const NAMES: [&str; 7] = [
    "regular",
    "directory",
    "character",
    "block",
    "fifo",
    "socket",
    "symlink",
];

impl Kind {
    /// A regular file.
    pub const REGULAR: Kind = Kind(1);
    /// A directory.
    pub const DIRECTORY: Kind = Kind(2);
    /// A character device.
    pub const CHARACTER: Kind = Kind(3);
    /// A block device.
    pub const BLOCK: Kind = Kind(4);
    /// A fifo.
    pub const FIFO: Kind = Kind(5);
    /// A socket.
    pub const SOCKET: Kind = Kind(6);
    /// A symbolic link.
    pub const SYMLINK: Kind = Kind(7);

    /// The kind with this number; the core tests it.
    pub const fn new(number: u64) -> Self {
        Self(number)
    }

    /// The number.
    pub const fn number(self) -> u64 {
        self.0
    }

    /// The name, where the number is from 1 to 7.
    pub fn name(self) -> Option<&'static str> {
        let place = usize::try_from(self.0.checked_sub(1)?).ok()?;
        NAMES.get(place).copied()
    }

    /// The rights that an entry of the kind can hold: all 16 for a directory, else the file set.
    pub fn rights(self) -> AccessFs {
        match self {
            Kind::DIRECTORY => AccessFs::ALL,
            _ => AccessFs::FILE_SET,
        }
    }
}

impl fmt::Display for Kind {
    fn fmt(&self, f: &mut fmt::Formatter<'_>) -> fmt::Result {
        match self.name() {
            Some(name) => f.pad(name),
            None => self.0.fmt(f),
        }
    }
}

impl fmt::Debug for Kind {
    fn fmt(&self, f: &mut fmt::Formatter<'_>) -> fmt::Result {
        write!(f, "Kind({self})")
    }
}

/// Reads a name or any number.
impl FromStr for Kind {
    type Err = ParseError;

    fn from_str(text: &str) -> Result<Self, ParseError> {
        let named = || (1..=7).map(Kind).find(|kind| kind.name() == Some(text));
        parse_number(text).map(Kind).or_else(named).ok_or_else(|| {
            let expected =
                "a kind: regular, directory, character, block, fifo, socket, symlink, or a number";
            ParseError::new(text, expected)
        })
    }
}

#[cfg(test)]
mod tests {
    use super::*;

    #[test]
    fn names_and_numbers_agree() {
        for number in 1..=7 {
            let kind = Kind::new(number);
            assert_eq!(kind.to_string().parse(), Ok(kind));
            assert_eq!(number.to_string().parse(), Ok(kind));
        }
        for number in [0, 8, u64::MAX] {
            assert_eq!(Kind::new(number).name(), None);
            assert_eq!(Kind::new(number).to_string().parse(), Ok(Kind::new(number)));
        }
        assert!("Regular".parse::<Kind>().is_err());
    }
}
