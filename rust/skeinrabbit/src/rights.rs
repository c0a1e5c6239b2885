//! Sets of rights: for files, for ports, and scopes. Where the crate `landlock` has the same thing, it has the same name.
use crate::level::Level;
use crate::text::{read_mask, write_mask, ParseError};
use core::fmt;
use core::ops::{BitAnd, BitAndAssign, BitOr, BitOrAssign, Sub, SubAssign};
use core::str::FromStr;

macro_rules! set {
    (
        $(#[$doc:meta])*
        $set:ident, $expected:literal,
        $($(#[$right_doc:meta])* $right:ident = $bit:literal, $name:literal;)*
    ) => {
        $(#[$doc])*
        #[derive(Clone, Copy, PartialEq, Eq, PartialOrd, Ord, Hash, Default)]
        pub struct $set(u64);

        impl $set {
            $($(#[$right_doc])* pub const $right: $set = $set(1 << $bit);)*

            /// The empty set.
            pub const NONE: $set = $set(0);

            /// Every right with a name.
            pub const ALL: $set = $set($(1 << $bit)|*);

            const NAMES: &'static [&'static str] = &[$($name),*];

            /// The set with these bits; the core tests them.
            pub const fn from_bits(bits: u64) -> Self {
                Self(bits)
            }

            /// The bits of the set.
            pub const fn bits(self) -> u64 {
                self.0
            }

            /// Whether nothing is in the set.
            pub const fn is_empty(self) -> bool {
                self.0 == 0
            }

            /// Whether everything in `other` is in this set.
            pub const fn contains(self, other: Self) -> bool {
                self.0 & other.0 == other.0
            }

            /// [`Self::from_all`], under its earlier name.
            pub const fn of_level(level: Level) -> Self {
                Self::from_all(level)
            }

            /// The named rights in the set, one by one, lowest bit first.
            pub fn iter(self) -> impl Iterator<Item = Self> {
                (0..Self::NAMES.len())
                    .map(|bit| Self(1 << bit))
                    .filter(move |right| self.contains(*right))
            }
        }

        impl BitOr for $set {
            type Output = Self;
            fn bitor(self, other: Self) -> Self {
                Self(self.0 | other.0)
            }
        }

        impl BitAnd for $set {
            type Output = Self;
            fn bitand(self, other: Self) -> Self {
                Self(self.0 & other.0)
            }
        }

        /// What is in the first set and not in the second.
        impl Sub for $set {
            type Output = Self;
            fn sub(self, other: Self) -> Self {
                Self(self.0 & !other.0)
            }
        }

        impl BitOrAssign for $set {
            fn bitor_assign(&mut self, other: Self) {
                *self = *self | other;
            }
        }

        impl BitAndAssign for $set {
            fn bitand_assign(&mut self, other: Self) {
                *self = *self & other;
            }
        }

        impl SubAssign for $set {
            fn sub_assign(&mut self, other: Self) {
                *self = *self - other;
            }
        }

        /// `none`, names joined by `+`, or a hexadecimal number where a bit has no name.
        impl fmt::Display for $set {
            fn fmt(&self, f: &mut fmt::Formatter<'_>) -> fmt::Result {
                write_mask(f, self.0, Self::NAMES)
            }
        }

        impl fmt::Debug for $set {
            fn fmt(&self, f: &mut fmt::Formatter<'_>) -> fmt::Result {
                write!(f, "{}({self})", stringify!($set))
            }
        }

        /// Reads what `Display` writes, in any letter case, and any number.
        impl FromStr for $set {
            type Err = ParseError;

            fn from_str(text: &str) -> Result<Self, ParseError> {
                match read_mask(text, Self::NAMES) {
                    Some(bits) => Ok(Self(bits)),
                    None => Err(ParseError::new(text, $expected)),
                }
            }
        }
    };
}

set! {
    /// Rights at the file system: a set of them, which may be one right alone.
    ///
    /// ```
    /// use skeinrabbit::AccessFs;
    /// let edit = AccessFs::READ_FILE | AccessFs::WRITE_FILE;
    /// assert_eq!(edit.to_string(), "write_file+read_file");
    /// assert_eq!("read_file+write_file".parse(), Ok(edit));
    /// assert_eq!(edit - AccessFs::WRITE_FILE, AccessFs::READ_FILE);
    /// assert!(edit.contains(AccessFs::READ_FILE));
    /// assert_eq!(AccessFs::FILE_SET.bits(), 0xc007);
    /// ```
    AccessFs, "a number, or rights at files joined by + (read_file+write_file), or none",
    /// Execute a file.
    EXECUTE = 0, "execute";
    /// Open a file to write it.
    WRITE_FILE = 1, "write_file";
    /// Open a file to read it.
    READ_FILE = 2, "read_file";
    /// List a directory.
    READ_DIR = 3, "read_dir";
    /// Remove a directory, or move it away.
    REMOVE_DIR = 4, "remove_dir";
    /// Remove anything but a directory, or move it away.
    REMOVE_FILE = 5, "remove_file";
    /// Make a character device.
    MAKE_CHAR = 6, "make_char";
    /// Make a directory.
    MAKE_DIR = 7, "make_dir";
    /// Make a regular file.
    MAKE_REG = 8, "make_reg";
    /// Make a socket.
    MAKE_SOCK = 9, "make_sock";
    /// Make a fifo.
    MAKE_FIFO = 10, "make_fifo";
    /// Make a block device.
    MAKE_BLOCK = 11, "make_block";
    /// Make a symbolic link.
    MAKE_SYM = 12, "make_sym";
    /// Link or move to another directory. A layer handles it, asked or not, unless it handles nothing of the file system.
    REFER = 13, "refer";
    /// Truncate a file.
    TRUNCATE = 14, "truncate";
    /// Send a device its own commands.
    IOCTL_DEV = 15, "ioctl_dev";
}

impl AccessFs {
    /// The rights that something other than a directory can have.
    pub const FILE_SET: AccessFs = AccessFs(
        AccessFs::EXECUTE.0
            | AccessFs::WRITE_FILE.0
            | AccessFs::READ_FILE.0
            | AccessFs::TRUNCATE.0
            | AccessFs::IOCTL_DEV.0,
    );

    /// The rights to change something, which no rule on the root may ask for.
    pub const NOT_AT_ROOT: AccessFs = AccessFs(
        AccessFs::WRITE_FILE.0
            | AccessFs::REMOVE_DIR.0
            | AccessFs::REMOVE_FILE.0
            | AccessFs::MAKE_CHAR.0
            | AccessFs::MAKE_DIR.0
            | AccessFs::MAKE_REG.0
            | AccessFs::MAKE_SOCK.0
            | AccessFs::MAKE_FIFO.0
            | AccessFs::MAKE_BLOCK.0
            | AccessFs::MAKE_SYM.0
            | AccessFs::REFER.0
            | AccessFs::TRUNCATE.0,
    );

    /// The rights that read.
    const READ: AccessFs =
        AccessFs(AccessFs::EXECUTE.0 | AccessFs::READ_FILE.0 | AccessFs::READ_DIR.0);

    /// All rights that a ruleset can handle at a level. A ruleset that handles them denies whatever it does not grant.
    ///
    /// ```
    /// use skeinrabbit::{AccessFs, Level};
    /// assert_eq!(AccessFs::from_all(Level::LATEST), AccessFs::ALL);
    /// assert_eq!(AccessFs::from_all(Level::new(4)), AccessFs::ALL - AccessFs::IOCTL_DEV);
    /// assert_eq!(AccessFs::from_all(Level::DISABLED), AccessFs::NONE);
    /// ```
    pub const fn from_all(level: Level) -> AccessFs {
        AccessFs(match level.number() {
            1 => 0x1fff,
            2 => 0x3fff,
            3 | 4 => 0x7fff,
            5 | 6 => 0xffff,
            _ => 0,
        })
    }

    /// The rights of a level that read: execute a file, read it, list a directory.
    ///
    /// ```
    /// use skeinrabbit::{AccessFs, Level};
    /// let read = AccessFs::from_read(Level::LATEST);
    /// assert_eq!(read.to_string(), "execute+read_file+read_dir");
    /// ```
    pub const fn from_read(level: Level) -> AccessFs {
        AccessFs(AccessFs::from_all(level).0 & AccessFs::READ.0)
    }

    /// The rights of a level that write: all that do not read. REFER is among them from level 2 on, TRUNCATE from 3, IOCTL_DEV
    /// from 5.
    ///
    /// ```
    /// use skeinrabbit::{AccessFs, Level};
    /// let write = AccessFs::from_write(Level::new(2));
    /// assert!(write.contains(AccessFs::WRITE_FILE | AccessFs::MAKE_REG | AccessFs::REFER));
    /// assert!(!write.contains(AccessFs::TRUNCATE));
    /// assert_eq!(write & AccessFs::from_read(Level::new(2)), AccessFs::NONE);
    /// ```
    pub const fn from_write(level: Level) -> AccessFs {
        AccessFs(AccessFs::from_all(level).0 & !AccessFs::READ.0)
    }

    /// The rights of a level that something other than a directory can have: a rule on a file can grant no others.
    ///
    /// ```
    /// use skeinrabbit::{AccessFs, Level};
    /// let level = Level::LATEST;
    /// assert_eq!(AccessFs::from_file(level), AccessFs::FILE_SET);
    /// let read = AccessFs::from_read(level) & AccessFs::from_file(level);
    /// assert_eq!(read, AccessFs::EXECUTE | AccessFs::READ_FILE);
    /// ```
    pub const fn from_file(level: Level) -> AccessFs {
        AccessFs(AccessFs::from_all(level).0 & AccessFs::FILE_SET.0)
    }
}

/// [`AccessFs`], under its earlier name.
pub type Rights = AccessFs;

set! {
    /// Rights at TCP ports: a set of them, which may be one right alone.
    ///
    /// ```
    /// use skeinrabbit::AccessNet;
    /// assert_eq!(AccessNet::ALL.to_string(), "bind_tcp+connect_tcp");
    /// ```
    AccessNet, "a number, or rights at ports joined by + (bind_tcp+connect_tcp), or none",
    /// Bind a socket to a port.
    BIND_TCP = 0, "bind_tcp";
    /// Connect a socket to a port.
    CONNECT_TCP = 1, "connect_tcp";
}

impl AccessNet {
    /// All rights that a ruleset can handle at a level: both from level 4 on.
    ///
    /// ```
    /// use skeinrabbit::{AccessNet, Level};
    /// assert_eq!(AccessNet::from_all(Level::new(4)), AccessNet::BIND_TCP | AccessNet::CONNECT_TCP);
    /// assert_eq!(AccessNet::from_all(Level::new(3)), AccessNet::NONE);
    /// ```
    pub const fn from_all(level: Level) -> AccessNet {
        match level.number() {
            4..=6 => AccessNet::ALL,
            _ => AccessNet::NONE,
        }
    }
}

/// [`AccessNet`], under its earlier name.
pub type PortRights = AccessNet;

set! {
    /// What a ruleset keeps within its domain: a set of scopes, asked for by [`Tables::abstract_socket`](crate::Tables::abstract_socket)
    /// and [`Tables::signal`](crate::Tables::signal).
    ///
    /// ```
    /// use skeinrabbit::Scope;
    /// assert_eq!("signal".parse(), Ok(Scope::SIGNAL));
    /// ```
    Scope, "a number, or scopes joined by + (abstract_unix_socket+signal), or none",
    /// Abstract UNIX sockets.
    ABSTRACT_UNIX_SOCKET = 0, "abstract_unix_socket";
    /// Signals.
    SIGNAL = 1, "signal";
}

impl Scope {
    /// All scopes that a ruleset can ask for at a level: both at level 6.
    ///
    /// ```
    /// use skeinrabbit::{Level, Scope};
    /// assert_eq!(Scope::from_all(Level::new(6)), Scope::ABSTRACT_UNIX_SOCKET | Scope::SIGNAL);
    /// assert_eq!(Scope::from_all(Level::new(5)), Scope::NONE);
    /// ```
    pub const fn from_all(level: Level) -> Scope {
        match level.number() {
            6 => Scope::ALL,
            _ => Scope::NONE,
        }
    }
}

/// [`Scope`], under its earlier name.
pub type Scopes = Scope;

#[cfg(test)]
mod tests {
    use super::*;

    #[test]
    fn every_right_has_its_bit_and_name() {
        for (bit, right) in AccessFs::ALL.iter().enumerate() {
            assert_eq!(right.bits(), 1 << bit);
            assert_eq!(right.to_string().parse(), Ok(right));
            assert_eq!(right.to_string().to_uppercase().parse(), Ok(right));
        }
        assert_eq!(AccessFs::ALL.bits(), 0xffff);
        assert_eq!(AccessFs::ALL.iter().count(), 16);
    }

    #[test]
    fn what_is_written_reads_back() {
        for bits in (0..=16)
            .map(|n| (1 << n) - 1)
            .chain([8486, 1 << 63, u64::MAX])
        {
            let rights = AccessFs::from_bits(bits);
            assert_eq!(rights.to_string().parse(), Ok(rights));
        }
        assert_eq!(AccessFs::NONE.to_string(), "none");
        assert_eq!(AccessFs::from_bits(0x1_0004).to_string(), "0x10004");
    }

    #[test]
    fn other_text_is_no_set() {
        for text in [
            "",
            "+",
            "read_file+",
            "+4",
            "read file",
            "read_file+4",
            "bind_tcp",
            "-1",
        ] {
            assert!(text.parse::<AccessFs>().is_err(), "{text}");
        }
        assert!("read_file".parse::<AccessNet>().is_err());
    }

    #[test]
    fn levels_know_their_rights() {
        let of = |level| AccessFs::from_all(Level::new(level));
        assert_eq!(of(0), AccessFs::NONE);
        assert_eq!(
            of(1),
            AccessFs::ALL - (AccessFs::REFER | AccessFs::TRUNCATE | AccessFs::IOCTL_DEV)
        );
        assert_eq!(of(2), of(1) | AccessFs::REFER);
        assert_eq!(of(3), of(2) | AccessFs::TRUNCATE);
        assert_eq!(of(4), of(3));
        assert_eq!(of(5), AccessFs::ALL);
        assert_eq!(of(6), AccessFs::ALL);
        assert_eq!(of(7), AccessFs::NONE);
        let both = |level| {
            let level = Level::new(level);
            (AccessNet::from_all(level), Scope::from_all(level))
        };
        assert_eq!(both(0), (AccessNet::NONE, Scope::NONE));
        assert_eq!(both(3), (AccessNet::NONE, Scope::NONE));
        assert_eq!(both(4), (AccessNet::ALL, Scope::NONE));
        assert_eq!(both(5), (AccessNet::ALL, Scope::NONE));
        assert_eq!(both(6), (AccessNet::ALL, Scope::ALL));
        assert_eq!(both(7), (AccessNet::NONE, Scope::NONE));
    }

    /// The bits that the crate `landlock` puts in each group, by level.
    #[test]
    fn groups_are_those_of_the_crate_landlock() {
        const WRITE: u64 = 0b1_1111_1111_0010;
        const REFER: u64 = 1 << 13;
        const TRUNCATE: u64 = 1 << 14;
        const IOCTL_DEV: u64 = 1 << 15;
        for (level, at_directories, at_files) in [
            (1, 0, 0),
            (2, REFER, 0),
            (3, REFER, TRUNCATE),
            (4, REFER, TRUNCATE),
            (5, REFER, TRUNCATE | IOCTL_DEV),
            (6, REFER, TRUNCATE | IOCTL_DEV),
        ] {
            let level = Level::new(level);
            let write = WRITE | at_directories | at_files;
            assert_eq!(AccessFs::from_read(level).bits(), 0b1101, "{level}");
            assert_eq!(AccessFs::from_write(level).bits(), write, "{level}");
            assert_eq!(
                AccessFs::from_file(level).bits(),
                0b111 | at_files,
                "{level}"
            );
        }
        for group in [
            AccessFs::from_read,
            AccessFs::from_write,
            AccessFs::from_file,
        ] {
            assert_eq!(group(Level::DISABLED), AccessFs::NONE);
        }
    }
}
