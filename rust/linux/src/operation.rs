//! Linux operations that ask the kernel what a call asks the tables.

use crate::rights::*;
use crate::sys::{self, landlock};
use std::ffi::{c_int, c_uint, CStr, CString};

const S_IFREG: u32 = 0o100000;
const S_IFCHR: u32 = 0o020000;
const S_IFBLK: u32 = 0o060000;
const S_IFIFO: u32 = 0o010000;
const S_IFSOCK: u32 = 0o140000;
/// A file type that does not exist.
const S_UNKNOWN: u32 = 0o150000;
/// The device number of /dev/null.
const NULL_DEVICE: u64 = 1 << 8 | 3;

#[derive(Clone, Debug)]
pub enum Operation {
    Open {
        path: String,
        flags: c_int,
    },
    Truncate {
        path: String,
    },
    CheckExecve {
        path: String,
    },
    Ioctl {
        path: String,
        flags: c_int,
    },
    Mkdir {
        path: String,
    },
    Mknod {
        path: String,
        file_type: u32,
        device: u64,
    },
    Symlink {
        target: String,
        path: String,
    },
    Unlink {
        path: String,
    },
    Rmdir {
        path: String,
    },
    Link {
        from: String,
        to: String,
    },
    Rename {
        from: String,
        to: String,
        flags: c_uint,
    },
    /// From a directory as the root.
    Lookup {
        root: String,
        path: CString,
    },
    Tcp {
        port: u16,
        rights: u64,
    },
    /// Within this process.
    SignalThread {
        thread: i64,
    },
    SignalProcess {
        descriptor: c_int,
    },
    ConnectAbstract {
        kind: c_int,
        name: String,
    },
    /// In a process that the thread forks.
    Forked(Box<Operation>),
    SetNoNewPrivs,
    SetAdmin {
        on: bool,
    },
    StartThread,
    ExitThread,
    CreateRuleset {
        attr: Vec<u8>,
        flags: u32,
        descriptors_left: bool,
    },
    Close {
        fd: c_int,
    },
    AddPathRule {
        ruleset: c_int,
        path: Option<String>,
        rights: u64,
        flags: u32,
    },
    AddPortRule {
        ruleset: c_int,
        port: u64,
        rights: u64,
        flags: u32,
    },
    RestrictSelf {
        ruleset: c_int,
        flags: u32,
    },
}

impl Operation {
    /// The operation that asks for these rights on a file; for rights that no single operation asks for, none.
    pub fn accessing(rights: u64, path: String) -> Option<Operation> {
        const READ_WRITE: u64 = READ_FILE | WRITE_FILE;
        const READ_WRITE_TRUNCATE: u64 = READ_WRITE | TRUNCATE;
        const WRITE_TRUNCATE: u64 = WRITE_FILE | TRUNCATE;
        const READ_TRUNCATE: u64 = READ_FILE | TRUNCATE;
        const READ_EXECUTE: u64 = READ_FILE | EXECUTE;
        const READ_IOCTL: u64 = READ_FILE | IOCTL_DEV;
        let flags = match rights {
            TRUNCATE => return Some(Operation::Truncate { path }),
            READ_EXECUTE => return Some(Operation::CheckExecve { path }),
            IOCTL_DEV => {
                return Some(Operation::Ioctl {
                    path,
                    flags: sys::O_NEITHER,
                })
            }
            READ_IOCTL => {
                return Some(Operation::Ioctl {
                    path,
                    flags: sys::O_RDONLY,
                })
            }
            READ_DIR => sys::O_RDONLY | sys::O_DIRECTORY,
            READ_FILE => sys::O_RDONLY,
            WRITE_FILE => sys::O_WRONLY,
            READ_WRITE => sys::O_RDWR,
            READ_TRUNCATE => sys::O_RDONLY | sys::O_TRUNC,
            WRITE_TRUNCATE => sys::O_WRONLY | sys::O_TRUNC,
            READ_WRITE_TRUNCATE => sys::O_RDWR | sys::O_TRUNC,
            _ => return None,
        };
        Some(Operation::Open { path, flags })
    }

    /// The operation that creates an entry of a kind; a symlink leads to `target`.
    pub fn creating(kind: u64, path: String, target: &str) -> Operation {
        let node = |path, file_type, device| Operation::Mknod {
            path,
            file_type,
            device,
        };
        match kind {
            DIRECTORY => Operation::Mkdir { path },
            SYMLINK => Operation::Symlink {
                target: target.to_string(),
                path,
            },
            REGULAR => node(path, S_IFREG, 0),
            CHARACTER => node(path, S_IFCHR, NULL_DEVICE),
            BLOCK => node(path, S_IFBLK, NULL_DEVICE),
            FIFO => node(path, S_IFIFO, 0),
            SOCKET => node(path, S_IFSOCK, 0),
            _ => node(path, S_UNKNOWN, 0),
        }
    }

    /// Does it on the calling thread: what Landlock and the file system answer, 0 where only something behind them refuses.
    pub fn run(&self) -> i64 {
        match self {
            Operation::Tcp { port, rights } => use_port(*port, *rights),
            Operation::SignalThread { thread } => sys::signal_thread(*thread),
            Operation::SignalProcess { descriptor } => sys::signal_process(*descriptor),
            Operation::ConnectAbstract { kind, name } => sys::connect_abstract(*kind, name),
            Operation::Forked(operation) => sys::in_process(|| operation.run()),
            Operation::SetNoNewPrivs => sys::set_no_new_privs(),
            Operation::SetAdmin { on } => sys::set_admin(*on),
            // These are the part of whoever holds the threads.
            Operation::StartThread | Operation::ExitThread => 0,
            Operation::CreateRuleset {
                attr,
                flags,
                descriptors_left,
            } => create_ruleset(attr, *flags, *descriptors_left),
            Operation::Close { fd } => sys::close(*fd),
            Operation::AddPathRule {
                ruleset,
                path,
                rights,
                flags,
            } => add_path_rule(*ruleset, path, *rights, *flags),
            Operation::AddPortRule {
                ruleset,
                port,
                rights,
                flags,
            } => landlock::add_port_rule(*ruleset, *port, *rights, *flags),
            Operation::RestrictSelf { ruleset, flags } => landlock::restrict_self(*ruleset, *flags),
            _ => self.run_on_files(),
        }
    }

    fn run_on_files(&self) -> i64 {
        match self {
            Operation::Open { path, flags } => open_and_close(path, *flags),
            Operation::Truncate { path } => sys::truncate(path),
            Operation::CheckExecve { path } => sys::check_execve(path),
            Operation::Ioctl { path, flags } => open_and_ioctl(path, *flags),
            Operation::Mkdir { path } => sys::mkdir(path),
            Operation::Mknod {
                path,
                file_type,
                device,
            } => sys::mknod(path, *file_type, *device),
            Operation::Symlink { target, path } => sys::symlink(target, path),
            Operation::Unlink { path } => sys::unlink(path),
            Operation::Rmdir { path } => sys::rmdir(path),
            Operation::Link { from, to } => sys::link(from, to),
            Operation::Rename { from, to, flags } => sys::rename(from, to, *flags),
            Operation::Lookup { root, path } => look_up(root, path),
            _ => unreachable!("{self:?} is no operation on files"),
        }
    }
}

/// The inode number of what a path leads to.
fn look_up(root: &str, path: &CStr) -> i64 {
    match sys::open_below(root, path) {
        fd if fd >= 0 => sys::inode_and_close(fd as c_int),
        error => error,
    }
}

/// A fifo without a reader and a socket answer ENXIO once Landlock has granted the open.
fn open_and_close(path: &str, flags: c_int) -> i64 {
    match sys::open_path(path, flags) {
        fd if fd >= 0 => sys::close(fd as c_int),
        error if error == -ENXIO => 0,
        error => error,
    }
}

/// The device answers ENOTTY once Landlock has granted the ioctl.
fn open_and_ioctl(path: &str, flags: c_int) -> i64 {
    let fd = sys::open_path(path, flags);
    if fd < 0 {
        return if fd == -ENXIO { 0 } else { fd };
    }
    let answer = sys::device_ioctl(fd as c_int);
    sys::close(fd as c_int);
    if answer == -ENOTTY {
        0
    } else {
        answer
    }
}

/// Binds, connects or both, each with a socket of its own.
fn use_port(port: u16, rights: u64) -> i64 {
    if rights & BIND_TCP != 0 {
        let answer = sys::bind_tcp(port);
        if answer < 0 && answer != -EADDRINUSE {
            return answer;
        }
    }
    if rights & CONNECT_TCP != 0 {
        let answer = sys::connect_tcp(port);
        if answer < 0 && ![-EINPROGRESS, -ECONNREFUSED].contains(&answer) {
            return answer;
        }
    }
    0
}

fn create_ruleset(attr: &[u8], flags: u32, descriptors_left: bool) -> i64 {
    if descriptors_left {
        landlock::create_ruleset(attr, flags)
    } else {
        sys::without_free_descriptor(|| landlock::create_ruleset(attr, flags))
    }
}

/// No path stands for a descriptor that is not open.
fn add_path_rule(ruleset: c_int, path: &Option<String>, rights: u64, flags: u32) -> i64 {
    let Some(path) = path else {
        return landlock::add_path_rule(ruleset, -1, rights, flags);
    };
    let parent = sys::open_path(path, sys::O_PATH);
    if parent < 0 {
        return parent;
    }
    let answer = landlock::add_path_rule(ruleset, parent as c_int, rights, flags);
    sys::close(parent as c_int);
    answer
}
