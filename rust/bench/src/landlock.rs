//! Rights, kinds of entries, levels and error numbers.

pub const READ_FILE: u64 = 1 << 2;
pub const REMOVE_DIR: u64 = 1 << 4;
pub const REMOVE_FILE: u64 = 1 << 5;
pub const MAKE_REG: u64 = 1 << 8;
pub const REFER: u64 = 1 << 13;

/// Every right on the file system, and on the network.
pub const ALL_FS: u64 = 0xffff;
pub const ALL_NET: u64 = 3;
/// The rights that an entry other than a directory can hold: bits 0, 1, 2, 14, 15.
pub const FILE_SET: u64 = 0xc007;

pub const REGULAR: u64 = 1;
pub const DIRECTORY: u64 = 2;
pub const LAST_KIND: u64 = 7;

pub const PATH_RULE: u64 = 1;
pub const PORT_RULE: u64 = 2;
pub const LAST_PORT: u64 = 65_535;

pub const LAST_LEVEL: u64 = 6;
/// The object counter once no number is left.
pub const OBJECTS_END: u64 = 1 << 32;

pub const EPERM: u64 = 1;
pub const ENOENT: u64 = 2;
pub const ESRCH: u64 = 3;
pub const EIO: u64 = 5;
pub const EAGAIN: u64 = 11;
pub const EACCES: u64 = 13;
pub const EBUSY: u64 = 16;
pub const EEXIST: u64 = 17;
pub const EXDEV: u64 = 18;
pub const ENOTDIR: u64 = 20;
pub const EISDIR: u64 = 21;
pub const EINVAL: u64 = 22;
pub const ENOSPC: u64 = 28;
pub const ENAMETOOLONG: u64 = 36;
pub const ENOTEMPTY: u64 = 39;

/// The rights that a layer handles, by the file system mask asked for.
pub fn handled(fs: u64) -> u64 {
    if fs == 0 {
        0
    } else {
        fs | REFER
    }
}

/// The right to make an entry of a known kind.
pub fn make_right(kind: u64) -> u64 {
    // Regular, directory, character, block, fifo, socket, symlink.
    const BITS: [u64; 7] = [8, 7, 6, 11, 10, 9, 12];
    1 << BITS[kind as usize - 1]
}

/// The right to remove an entry of a kind.
pub fn remove_right(kind: u64) -> u64 {
    if kind == DIRECTORY {
        REMOVE_DIR
    } else {
        REMOVE_FILE
    }
}

/// The rights that an entry of a kind can hold.
pub fn held_rights(kind: u64) -> u64 {
    if kind == DIRECTORY {
        ALL_FS
    } else {
        FILE_SET
    }
}

/// The rights that a level knows: file system, network, scope.
pub fn known_rights(level: u64) -> [u64; 3] {
    let fs = match level {
        0 => 0,
        1 => 0x1fff,
        2 => 0x3fff,
        3 | 4 => 0x7fff,
        _ => ALL_FS,
    };
    let net = if level >= 4 { ALL_NET } else { 0 };
    let scope = if level >= 6 { 3 } else { 0 };
    [fs, net, scope]
}
