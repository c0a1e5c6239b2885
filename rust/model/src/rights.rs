//! Access rights and the masks of a ruleset or layer.

/// A set of access rights of one sort: file system, network or scope.
#[derive(Clone, Copy, PartialEq, Eq, Debug, Default)]
pub struct Rights(pub u64);

impl Rights {
    pub const NONE: Rights = Rights(0);
    pub const EXECUTE: Rights = Rights(1 << 0);
    pub const WRITE_FILE: Rights = Rights(1 << 1);
    pub const READ_FILE: Rights = Rights(1 << 2);
    pub const READ_DIR: Rights = Rights(1 << 3);
    pub const REMOVE_DIR: Rights = Rights(1 << 4);
    pub const REMOVE_FILE: Rights = Rights(1 << 5);
    pub const MAKE_CHAR: Rights = Rights(1 << 6);
    pub const MAKE_DIR: Rights = Rights(1 << 7);
    pub const MAKE_REG: Rights = Rights(1 << 8);
    pub const MAKE_SOCK: Rights = Rights(1 << 9);
    pub const MAKE_FIFO: Rights = Rights(1 << 10);
    pub const MAKE_BLOCK: Rights = Rights(1 << 11);
    pub const MAKE_SYM: Rights = Rights(1 << 12);
    pub const REFER: Rights = Rights(1 << 13);
    pub const TRUNCATE: Rights = Rights(1 << 14);
    pub const IOCTL_DEV: Rights = Rights(1 << 15);
    pub const BIND_TCP: Rights = Rights(1 << 0);
    pub const CONNECT_TCP: Rights = Rights(1 << 1);
    pub const ABSTRACT_UNIX_SOCKET: Rights = Rights(1 << 0);
    pub const SIGNAL: Rights = Rights(1 << 1);

    /// Every file system right.
    pub const ALL: Rights = Rights(0xffff);
    /// The file set: the rights that mean something for other things than directories.
    pub const FILE: Rights = Rights(0b1100_0000_0000_0111);
    /// The rights to change the tree or what is in a file.
    pub const CHANGING: Rights = Rights(0b0111_1111_1111_0010);
    /// Every network right.
    pub const NETWORK: Rights = Rights(0b11);
    /// Every scope.
    pub const SCOPES: Rights = Rights(0b11);

    pub fn is_empty(self) -> bool {
        self.0 == 0
    }

    pub fn join(self, other: Rights) -> Rights {
        Rights(self.0 | other.0)
    }

    pub fn common(self, other: Rights) -> Rights {
        Rights(self.0 & other.0)
    }

    pub fn without(self, other: Rights) -> Rights {
        Rights(self.0 & !other.0)
    }

    pub fn within(self, other: Rights) -> bool {
        self.without(other).is_empty()
    }

    pub fn meets(self, other: Rights) -> bool {
        !self.common(other).is_empty()
    }
}

/// The rights that a ruleset or layer was asked to handle.
#[derive(Clone, Copy, PartialEq, Eq, Debug, Default)]
pub struct Masks {
    pub fs: Rights,
    pub net: Rights,
    pub scope: Rights,
}

impl Masks {
    /// Every bit that a level knows.
    pub fn known(level: u64) -> Masks {
        let mut known = Masks::default();
        if level >= 1 {
            known.fs = Rights(0x1fff);
        }
        if level >= 2 {
            known.fs = known.fs.join(Rights::REFER);
        }
        if level >= 3 {
            known.fs = known.fs.join(Rights::TRUNCATE);
        }
        if level >= 4 {
            known.net = Rights::NETWORK;
        }
        if level >= 5 {
            known.fs = known.fs.join(Rights::IOCTL_DEV);
        }
        if level >= 6 {
            known.scope = Rights::SCOPES;
        }
        known
    }

    pub fn is_empty(&self) -> bool {
        self.fs.is_empty() && self.net.is_empty() && self.scope.is_empty()
    }

    pub fn within(&self, known: &Masks) -> bool {
        self.fs.within(known.fs) && self.net.within(known.net) && self.scope.within(known.scope)
    }
}
