//! Landlock's rights, the kinds of entries, and error numbers, as the tables and Linux share them.

pub const EXECUTE: u64 = 1 << 0;
pub const WRITE_FILE: u64 = 1 << 1;
pub const READ_FILE: u64 = 1 << 2;
pub const READ_DIR: u64 = 1 << 3;
pub const TRUNCATE: u64 = 1 << 14;
pub const IOCTL_DEV: u64 = 1 << 15;

/// The rights to change something: all but EXECUTE, READ_FILE, READ_DIR and IOCTL_DEV.
pub const CHANGING: u64 = 0xffff & !(EXECUTE | READ_FILE | READ_DIR | IOCTL_DEV);

/// The rights that make sense for an entry that is no directory.
pub const FILE_SET: u64 = EXECUTE | WRITE_FILE | READ_FILE | TRUNCATE | IOCTL_DEV;

pub const BIND_TCP: u64 = 1 << 0;
pub const CONNECT_TCP: u64 = 1 << 1;

pub const REGULAR: u64 = 1;
pub const DIRECTORY: u64 = 2;
pub const CHARACTER: u64 = 3;
pub const BLOCK: u64 = 4;
pub const FIFO: u64 = 5;
pub const SOCKET: u64 = 6;
pub const SYMLINK: u64 = 7;

/// The highest level of the tables.
pub const TOP_LEVEL: u64 = 6;

/// The file system rights, network rights and scopes that a level knows.
pub fn known(level: u64) -> [u64; 3] {
    let fs = match level {
        0 => 0,
        1 => 0x1fff,
        2 => 0x3fff,
        3 | 4 => 0x7fff,
        _ => 0xffff,
    };
    let net = if level >= 4 {
        BIND_TCP | CONNECT_TCP
    } else {
        0
    };
    let scope = if level >= 6 { 3 } else { 0 };
    [fs, net, scope]
}

macro_rules! errors {
    ($($name:ident $number:literal),* $(,)?) => {
        $(pub const $name: i64 = $number;)*

        /// An answer in words: the number, or the error's name.
        pub fn answer_name(answer: i64) -> String {
            match -answer {
                $($name => stringify!($name).to_string(),)*
                _ if answer < 0 => format!("error {}", -answer),
                _ => answer.to_string(),
            }
        }
    };
}

errors! {
    EPERM 1, ENOENT 2, ESRCH 3, EIO 5, ENXIO 6, E2BIG 7, EBADF 9, EAGAIN 11, ENOMEM 12, EACCES 13, EBUSY 16, EEXIST 17, EXDEV 18,
    ENOTDIR 20, EISDIR 21, EINVAL 22, EMFILE 24, ENOTTY 25, ETXTBSY 26, ENOSPC 28, ENAMETOOLONG 36, ENOSYS 38, ENOTEMPTY 39, ELOOP 40, ENOMSG 42,
    EBADFD 77, EOPNOTSUPP 95, EAFNOSUPPORT 97, EADDRINUSE 98, ECONNREFUSED 111, EINPROGRESS 115,
}

/// A successful answer as 0, so that the numbers of new things compare equal; a refusal as it is.
pub fn outcome(answer: i64) -> i64 {
    answer.min(0)
}
