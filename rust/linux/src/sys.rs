//! The system calls that are used, each answering a number of zero or more, or a negative error number.
//!
//! What is unsafe here: every pointer that is passed points to a value that lives until the call returns and is of the length that
//! the call reads or writes.

use crate::rights::EAGAIN;
use std::ffi::{c_char, c_int, c_long, c_uint, c_ulong, c_void, CStr, CString};
use std::fs::File;
use std::io;
use std::os::fd::FromRawFd;
use std::os::unix::fs::MetadataExt;

pub const O_RDONLY: c_int = 0;
pub const O_WRONLY: c_int = 1;
pub const O_RDWR: c_int = 2;
/// Neither reads nor writes, but may be used with ioctl(2).
pub const O_NEITHER: c_int = 3;
pub const O_TRUNC: c_int = 0o1000;
pub const O_NONBLOCK: c_int = 0o4000;
const ARM: bool = cfg!(any(target_arch = "arm", target_arch = "aarch64"));
pub const O_DIRECTORY: c_int = if ARM { 0o40000 } else { 0o200000 };
pub const O_NOFOLLOW: c_int = if ARM { 0o100000 } else { 0o400000 };
pub const O_CLOEXEC: c_int = 0o2000000;
pub const O_PATH: c_int = 0o10000000;
const AT_FDCWD: c_int = -100;
const AT_SYMLINK_NOFOLLOW: c_int = 0x100;
const AT_EXECVE_CHECK: c_int = 0x10000;
pub const RENAME_EXCHANGE: c_uint = 2;
const TCGETS: c_ulong = 0x5401;
const PR_SET_PDEATHSIG: c_int = 1;
const PR_SET_NO_NEW_PRIVS: c_int = 38;
const PR_GET_NO_NEW_PRIVS: c_int = 39;
const SIGINT: c_int = 2;
const SIGKILL: c_int = 9;
/// One that a process ignores unless it says otherwise.
const SIGURG: c_int = 23;
const RLIMIT_NOFILE: c_int = 7;
const AF_UNIX: u16 = 1;
const AF_INET: u16 = 2;
pub const SOCK_STREAM: c_int = 1;
pub const SOCK_DGRAM: c_int = 2;
pub const SOCK_SEQPACKET: c_int = 5;
const CLONE_NEWNS: c_int = 0x20000;
const MS_PRIVATE_AND_BELOW: c_ulong = 0x40000 | 0x4000;

#[repr(C)]
struct Rlimit {
    soft: c_ulong,
    hard: c_ulong,
}

#[repr(C)]
struct CapabilityHeader {
    version: u32,
    pid: c_int,
}

/// A set of processors, a bit for each.
type Processors = [u64; 16];

/// The effective, permitted and inheritable capabilities, in two halves.
type Capabilities = [[u32; 3]; 2];

extern "C" {
    fn syscall(number: c_long, ...) -> c_long;
    fn open(path: *const c_char, flags: c_int, ...) -> c_int;
    #[link_name = "close"]
    fn close_descriptor(fd: c_int) -> c_int;
    #[link_name = "truncate"]
    fn truncate_path(path: *const c_char, length: c_long) -> c_int;
    fn ioctl(fd: c_int, request: c_ulong, ...) -> c_int;
    fn execveat(
        dir: c_int,
        path: *const c_char,
        argv: *const *const c_char,
        envp: *const *const c_char,
        flags: c_int,
    ) -> c_int;
    #[link_name = "mkdir"]
    fn make_directory(path: *const c_char, mode: c_uint) -> c_int;
    #[link_name = "mknod"]
    fn make_node(path: *const c_char, mode: c_uint, device: u64) -> c_int;
    #[link_name = "symlink"]
    fn make_symlink(target: *const c_char, path: *const c_char) -> c_int;
    #[link_name = "unlink"]
    fn unlink_path(path: *const c_char) -> c_int;
    #[link_name = "rmdir"]
    fn remove_directory(path: *const c_char) -> c_int;
    fn linkat(
        from_dir: c_int,
        from: *const c_char,
        to_dir: c_int,
        to: *const c_char,
        flags: c_int,
    ) -> c_int;
    fn renameat2(
        from_dir: c_int,
        from: *const c_char,
        to_dir: c_int,
        to: *const c_char,
        flags: c_uint,
    ) -> c_int;
    fn socket(family: c_int, kind: c_int, protocol: c_int) -> c_int;
    fn bind(fd: c_int, address: *const u8, length: c_uint) -> c_int;
    fn connect(fd: c_int, address: *const u8, length: c_uint) -> c_int;
    fn listen(fd: c_int, backlog: c_int) -> c_int;
    fn prctl(option: c_int, ...) -> c_int;
    fn capget(header: *mut CapabilityHeader, data: *mut Capabilities) -> c_int;
    fn capset(header: *mut CapabilityHeader, data: *const Capabilities) -> c_int;
    fn getrlimit(resource: c_int, limit: *mut Rlimit) -> c_int;
    fn setrlimit(resource: c_int, limit: *const Rlimit) -> c_int;
    #[link_name = "fork"]
    fn fork_process() -> c_int;
    fn _exit(status: c_int) -> !;
    fn pause() -> c_int;
    fn gettid() -> c_int;
    fn tgkill(process: c_int, thread: c_int, signal: c_int) -> c_int;
    #[link_name = "kill"]
    fn kill_process(pid: c_int, signal: c_int) -> c_int;
    fn unshare(flags: c_int) -> c_int;
    fn mount(
        source: *const c_char,
        target: *const c_char,
        file_system: *const c_char,
        flags: c_ulong,
        data: *const c_void,
    ) -> c_int;
    fn sched_getcpu() -> c_int;
    fn sched_setaffinity(pid: c_int, size: usize, processors: *const Processors) -> c_int;
    fn waitpid(pid: c_int, status: *mut c_int, options: c_int) -> c_int;
    #[link_name = "alarm"]
    fn set_alarm(seconds: c_uint) -> c_uint;
    fn signal(number: c_int, handler: usize) -> usize;
    #[link_name = "umask"]
    fn set_umask(mask: c_uint) -> c_uint;
}

fn answer(result: c_int) -> i64 {
    long_answer(result.into())
}

fn long_answer(result: c_long) -> i64 {
    if result < 0 {
        -i64::from(io::Error::last_os_error().raw_os_error().unwrap_or(5))
    } else {
        result
    }
}

fn c_path(path: &str) -> CString {
    CString::new(path).expect("paths have no zero byte")
}

/// Opens a path, never following a last symlink, never waiting.
pub fn open_path(path: &str, flags: c_int) -> i64 {
    answer(unsafe {
        open(
            c_path(path).as_ptr(),
            flags | O_NOFOLLOW | O_NONBLOCK | O_CLOEXEC,
        )
    })
}

/// What openat2(2) is told.
#[repr(C)]
struct OpenHow {
    flags: u64,
    mode: u64,
    resolve: u64,
}

/// Opens what a path leads to, with a directory as the root that ".." and a leading slash lead to. A last symlink is opened itself;
/// one that would have to be followed is ELOOP.
pub fn open_below(root: &str, path: &CStr) -> i64 {
    const OPENAT2: c_long = 437;
    const NO_SYMLINKS: u64 = 0x04;
    const IN_ROOT: u64 = 0x10;
    let how = OpenHow {
        flags: (O_PATH | O_NOFOLLOW | O_CLOEXEC) as u64,
        mode: 0,
        resolve: NO_SYMLINKS | IN_ROOT,
    };
    let root = open_path(root, O_PATH);
    if root < 0 {
        return root;
    }
    let open = || {
        long_answer(unsafe {
            syscall(
                OPENAT2,
                root as c_int,
                path.as_ptr(),
                &how,
                size_of_val(&how),
            )
        })
    };
    // EAGAIN says that something was renamed meanwhile, anywhere in the system.
    let mut answer = open();
    while answer == -EAGAIN {
        answer = open();
    }
    close(root as c_int);
    answer
}

/// The inode number of what a descriptor from here stands for; closes it.
pub fn inode_and_close(fd: c_int) -> i64 {
    let file = unsafe { File::from_raw_fd(fd) };
    let metadata = file.metadata().expect("an open descriptor has metadata");
    metadata.ino() as i64
}

pub fn close(fd: c_int) -> i64 {
    answer(unsafe { close_descriptor(fd) })
}

pub fn truncate(path: &str) -> i64 {
    answer(unsafe { truncate_path(c_path(path).as_ptr(), 0) })
}

/// An ioctl(2) that is a device's own affair.
pub fn device_ioctl(fd: c_int) -> i64 {
    let mut settings = [0u8; 256];
    answer(unsafe { ioctl(fd, TCGETS, settings.as_mut_ptr()) })
}

/// Whether the file could be executed now; nothing is executed.
pub fn check_execve(path: &str) -> i64 {
    let nothing: [*const c_char; 1] = [std::ptr::null()];
    let argv = [c"checked".as_ptr(), std::ptr::null()];
    let flags = AT_EXECVE_CHECK | AT_SYMLINK_NOFOLLOW;
    answer(unsafe {
        execveat(
            AT_FDCWD,
            c_path(path).as_ptr(),
            argv.as_ptr(),
            nothing.as_ptr(),
            flags,
        )
    })
}

pub fn mkdir(path: &str) -> i64 {
    answer(unsafe { make_directory(c_path(path).as_ptr(), 0o777) })
}

pub fn mknod(path: &str, file_type: u32, device: u64) -> i64 {
    answer(unsafe { make_node(c_path(path).as_ptr(), file_type | 0o777, device) })
}

pub fn symlink(target: &str, path: &str) -> i64 {
    answer(unsafe { make_symlink(c_path(target).as_ptr(), c_path(path).as_ptr()) })
}

pub fn unlink(path: &str) -> i64 {
    answer(unsafe { unlink_path(c_path(path).as_ptr()) })
}

pub fn rmdir(path: &str) -> i64 {
    answer(unsafe { remove_directory(c_path(path).as_ptr()) })
}

pub fn link(from: &str, to: &str) -> i64 {
    answer(unsafe {
        linkat(
            AT_FDCWD,
            c_path(from).as_ptr(),
            AT_FDCWD,
            c_path(to).as_ptr(),
            0,
        )
    })
}

pub fn rename(from: &str, to: &str, flags: c_uint) -> i64 {
    answer(unsafe {
        renameat2(
            AT_FDCWD,
            c_path(from).as_ptr(),
            AT_FDCWD,
            c_path(to).as_ptr(),
            flags,
        )
    })
}

/// The bytes of the address of a port of this machine.
fn tcp_address(port: u16) -> Vec<u8> {
    let (family, port) = (AF_INET.to_ne_bytes(), port.to_be_bytes());
    [&family[..], &port, &[127, 0, 0, 1], &[0; 8]].concat()
}

/// The bytes of the address of a name that stands in no file system: it begins with a zero byte.
fn abstract_address(name: &str) -> Vec<u8> {
    [&AF_UNIX.to_ne_bytes()[..], &[0], name.as_bytes()].concat()
}

fn new_socket(family: u16, kind: c_int) -> i64 {
    answer(unsafe { socket(family.into(), kind | O_NONBLOCK | O_CLOEXEC, 0) })
}

type WithAddress = unsafe extern "C" fn(c_int, *const u8, c_uint) -> c_int;

fn with_address(fd: c_int, call: WithAddress, address: &[u8]) -> i64 {
    answer(unsafe { call(fd, address.as_ptr(), address.len() as c_uint) })
}

/// Makes a call with an address on a socket of its own.
fn with_socket(family: u16, kind: c_int, call: WithAddress, address: &[u8]) -> i64 {
    let fd = new_socket(family, kind);
    if fd < 0 {
        return fd;
    }
    let result = with_address(fd as c_int, call, address);
    close(fd as c_int);
    result
}

pub fn bind_tcp(port: u16) -> i64 {
    with_socket(AF_INET, SOCK_STREAM, bind, &tcp_address(port))
}

pub fn connect_tcp(port: u16) -> i64 {
    with_socket(AF_INET, SOCK_STREAM, connect, &tcp_address(port))
}

/// Makes an abstract UNIX socket that can be connected to; its descriptor.
pub fn listen_abstract(kind: c_int, name: &str) -> i64 {
    let fd = new_socket(AF_UNIX, kind);
    if fd < 0 {
        return fd;
    }
    let mut answered = with_address(fd as c_int, bind, &abstract_address(name));
    if answered == 0 && kind != SOCK_DGRAM {
        answered = answer(unsafe { listen(fd as c_int, 1) });
    }
    if answered < 0 {
        close(fd as c_int);
        return answered;
    }
    fd
}

pub fn connect_abstract(kind: c_int, name: &str) -> i64 {
    with_socket(AF_UNIX, kind, connect, &abstract_address(name))
}

fn process_control(option: c_int, argument: c_ulong) -> i64 {
    const UNUSED: c_ulong = 0;
    answer(unsafe { prctl(option, argument, UNUSED, UNUSED, UNUSED) })
}

pub fn set_no_new_privs() -> i64 {
    process_control(PR_SET_NO_NEW_PRIVS, 1)
}

/// Whether this thread has no_new_privs set.
pub fn has_no_new_privs() -> bool {
    process_control(PR_GET_NO_NEW_PRIVS, 0) == 1
}

const CAPABILITY_VERSION: u32 = 0x2008_0522;
const CAP_SYS_ADMIN: u32 = 1 << 21;

fn capabilities() -> Capabilities {
    let mut header = CapabilityHeader {
        version: CAPABILITY_VERSION,
        pid: 0,
    };
    let mut sets = [[0; 3]; 2];
    unsafe { capget(&mut header, &mut sets) };
    sets
}

/// Whether this thread has CAP_SYS_ADMIN.
pub fn is_admin() -> bool {
    capabilities()[0][0] & CAP_SYS_ADMIN != 0
}

/// Raises or drops CAP_SYS_ADMIN of this thread among the effective capabilities.
pub fn set_admin(on: bool) -> i64 {
    let mut sets = capabilities();
    if on {
        sets[0][0] |= CAP_SYS_ADMIN;
    } else {
        sets[0][0] &= !CAP_SYS_ADMIN;
    }
    let mut header = CapabilityHeader {
        version: CAPABILITY_VERSION,
        pid: 0,
    };
    answer(unsafe { capset(&mut header, &sets) })
}

/// Makes a call with no file descriptor left to take.
pub fn without_free_descriptor(call: impl FnOnce() -> i64) -> i64 {
    let mut limit = Rlimit { soft: 0, hard: 0 };
    unsafe { getrlimit(RLIMIT_NOFILE, &mut limit) };
    unsafe {
        setrlimit(
            RLIMIT_NOFILE,
            &Rlimit {
                soft: 0,
                hard: limit.hard,
            },
        )
    };
    let result = call();
    unsafe { setrlimit(RLIMIT_NOFILE, &limit) };
    result
}

/// Forks; answers 0 in the child, which ends if its parent does.
pub fn fork() -> i64 {
    let pid = answer(unsafe { fork_process() });
    if pid == 0 {
        process_control(PR_SET_PDEATHSIG, SIGKILL as c_ulong);
    }
    pid
}

/// Forks a process that waits until it is killed; its number.
pub fn fork_waiting() -> i64 {
    let pid = fork();
    if pid == 0 {
        loop {
            unsafe { pause() };
        }
    }
    pid
}

/// Does something in a forked process and waits for it; 0 or a negative error number.
pub fn in_process(action: impl FnOnce() -> i64) -> i64 {
    let pid = fork();
    if pid == 0 {
        let error = -action();
        unsafe { _exit(error as c_int) };
    }
    if pid < 0 {
        return pid;
    }
    let status = wait(pid).expect("no signal ends the process");
    -i64::from(status)
}

/// The number of the calling thread.
pub fn thread_id() -> i64 {
    i64::from(unsafe { gettid() })
}

/// Sends a signal that does nothing to a thread of this process.
pub fn signal_thread(thread: i64) -> i64 {
    answer(unsafe { tgkill(std::process::id() as c_int, thread as c_int, SIGURG) })
}

/// A descriptor of a process, which names it also when it has ended.
pub fn open_process(pid: i64) -> i64 {
    const PIDFD_OPEN: c_long = 434;
    long_answer(unsafe { syscall(PIDFD_OPEN, pid as c_int, 0) })
}

/// Sends a signal that does nothing to a process.
pub fn signal_process(descriptor: c_int) -> i64 {
    const PIDFD_SEND_SIGNAL: c_long = 424;
    let no_more = std::ptr::null::<c_void>();
    long_answer(unsafe { syscall(PIDFD_SEND_SIGNAL, descriptor, SIGURG, no_more, 0) })
}

/// Ends a child.
pub fn kill(pid: i64) -> i64 {
    answer(unsafe { kill_process(pid as c_int, SIGKILL) })
}

/// Puts a file system in memory at a directory, which this process and its children alone see; 0 or why there is none.
pub fn mount_memory(directory: &str) -> i64 {
    let unshared = answer(unsafe { unshare(CLONE_NEWNS) });
    if unshared != 0 {
        return unshared;
    }
    // Without this the others would see it too.
    let private = mount_at("/", "none", MS_PRIVATE_AND_BELOW);
    if private != 0 {
        return private;
    }
    mount_at(directory, "tmpfs", 0)
}

fn mount_at(target: &str, file_system: &str, flags: c_ulong) -> i64 {
    let (target, name) = (c_path(target), c_path(file_system));
    let nothing = std::ptr::null();
    answer(unsafe {
        mount(
            name.as_ptr(),
            target.as_ptr(),
            name.as_ptr(),
            flags,
            nothing,
        )
    })
}

/// Keeps this process and its threads on the processor where it is.
pub fn stay_on_processor() -> i64 {
    let mut processors: Processors = [0; 16];
    let number = usize::try_from(unsafe { sched_getcpu() }).unwrap_or(0);
    if let Some(part) = processors.get_mut(number / 64) {
        *part |= 1 << (number % 64);
    }
    answer(unsafe { sched_setaffinity(0, size_of::<Processors>(), &processors) })
}

/// Waits for a child; its exit status, or none if a signal ended it.
pub fn wait(pid: i64) -> Option<i32> {
    let mut status = 0;
    let waited = unsafe { waitpid(pid as c_int, &mut status, 0) };
    (i64::from(waited) == pid && status & 0x7f == 0).then_some((status >> 8) & 0xff)
}

/// Ends this process in so many seconds, unless called again.
pub fn alarm(seconds: c_uint) {
    unsafe { set_alarm(seconds) };
}

/// Whether this process ignores an interrupt from the terminal.
pub fn ignore_interrupt(ignored: bool) {
    unsafe { signal(SIGINT, usize::from(ignored)) };
}

pub fn umask(mask: c_uint) {
    unsafe { set_umask(mask) };
}

/// Landlock's system calls, numbered alike on every architecture.
pub mod landlock {
    use super::*;

    const CREATE_RULESET: c_long = 444;
    const ADD_RULE: c_long = 445;
    const RESTRICT_SELF: c_long = 446;
    const CREATE_RULESET_VERSION: u32 = 1;
    const RULE_PATH_BENEATH: c_int = 1;
    const RULE_NET_PORT: c_int = 2;

    #[repr(C, packed)]
    struct PathBeneathAttr {
        allowed_access: u64,
        parent_fd: i32,
    }

    #[repr(C)]
    struct NetPortAttr {
        allowed_access: u64,
        port: u64,
    }

    /// The kernel's ABI version.
    pub fn abi() -> i64 {
        create_ruleset(&[], CREATE_RULESET_VERSION)
    }

    /// No bytes with a flag stand for a null pointer: the form that asks for the ABI version or the errata.
    pub fn create_ruleset(attr: &[u8], flags: u32) -> i64 {
        let pointer = if attr.is_empty() && flags != 0 {
            std::ptr::null()
        } else {
            attr.as_ptr().cast::<c_void>()
        };
        long_answer(unsafe { syscall(CREATE_RULESET, pointer, attr.len(), flags) })
    }

    pub fn add_path_rule(ruleset: c_int, parent: c_int, rights: u64, flags: u32) -> i64 {
        let attr = PathBeneathAttr {
            allowed_access: rights,
            parent_fd: parent,
        };
        long_answer(unsafe { syscall(ADD_RULE, ruleset, RULE_PATH_BENEATH, &attr, flags) })
    }

    pub fn add_port_rule(ruleset: c_int, port: u64, rights: u64, flags: u32) -> i64 {
        let attr = NetPortAttr {
            allowed_access: rights,
            port,
        };
        long_answer(unsafe { syscall(ADD_RULE, ruleset, RULE_NET_PORT, &attr, flags) })
    }

    pub fn restrict_self(ruleset: c_int, flags: u32) -> i64 {
        long_answer(unsafe { syscall(RESTRICT_SELF, ruleset, flags) })
    }
}
