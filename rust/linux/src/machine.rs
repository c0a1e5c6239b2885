//! What this machine can compare.

use crate::operation::Operation;
use crate::rights::*;
use crate::sys::{self, landlock};
use crate::target;

pub struct Machine {
    pub abi: i64,
    /// This program has CAP_SYS_ADMIN.
    pub admin: bool,
    /// This program was started with no_new_privs.
    pub no_new_privs: bool,
    pub character_devices: bool,
    pub block_devices: bool,
    pub execve_check: bool,
    pub exchange: bool,
    pub tcp: bool,
    /// Scopes, and what they keep a thread from.
    pub scopes: bool,
    /// openat2(2) finds paths below a directory.
    pub lookups: bool,
    /// A regular file, where symlinks lead.
    pub plain_file: String,
}

impl Machine {
    /// Tries each thing in a directory that is the working directory and has nothing else in it.
    pub fn probe(directory: &str) -> Machine {
        let plain_file = format!("{directory}/plain");
        assert_eq!(create(REGULAR, "plain"), 0, "create {plain_file}");
        assert_eq!(sys::link("plain", "link"), 0, "hard links in {directory}");
        let character_devices =
            create(CHARACTER, "character") == 0 && granted(READ_FILE | WRITE_FILE, "character");
        let abi = landlock::abi();
        Machine {
            abi,
            admin: sys::is_admin(),
            no_new_privs: sys::has_no_new_privs(),
            character_devices,
            block_devices: create(BLOCK, "block") == 0,
            execve_check: granted(READ_FILE | EXECUTE, "plain"),
            exchange: sys::rename("plain", "link", sys::RENAME_EXCHANGE) == 0,
            tcp: abi >= 4
                && Operation::Tcp {
                    port: 0,
                    rights: BIND_TCP,
                }
                .run()
                    == 0,
            scopes: abi >= 6 && target::can_be_reached(),
            lookups: Operation::Lookup {
                root: directory.to_string(),
                path: c"/../plain".to_owned(),
            }
            .run()
                >= 0,
            plain_file,
        }
    }

    /// The highest level of the tables that has no right unknown to the kernel.
    pub fn top_level(&self) -> u64 {
        self.abi.clamp(1, TOP_LEVEL as i64) as u64
    }

    /// The first byte of an attribute that no kernel of this ABI gives a meaning.
    pub fn meaningless_byte(&self) -> u64 {
        if self.abi <= 7 {
            24
        } else {
            256
        }
    }

    /// What this machine cannot compare, with what it lacks. Where there is nothing, the comparison is whole.
    pub fn lacks(&self) -> Vec<&'static str> {
        let tests = [
            (
                self.abi >= TOP_LEVEL as i64,
                "levels above the kernel's Landlock ABI",
            ),
            (
                self.character_devices,
                "character devices and IOCTL_DEV: mknod(2) or open(2) of a device is not permitted",
            ),
            (
                self.block_devices,
                "block devices: mknod(2) is not permitted",
            ),
            (
                self.execve_check,
                "EXECUTE: execveat(2) has no AT_EXECVE_CHECK, or the file system is mounted noexec",
            ),
            (
                self.exchange,
                "exchange: the file system has no RENAME_EXCHANGE",
            ),
            (
                self.tcp,
                "ports: the kernel has no network rights, or TCP sockets are not permitted",
            ),
            (
                self.scopes,
                "signals and abstract sockets: the kernel has no scopes, or pidfds or abstract sockets are not permitted",
            ),
            (
                self.lookups,
                "lookup: openat2(2) is not permitted",
            ),
            (
                self.admin,
                "the admin mark: this program has no CAP_SYS_ADMIN",
            ),
            (
                !self.no_new_privs,
                "restrict without a mark: this program was started with no_new_privs",
            ),
        ];
        tests
            .iter()
            .filter(|test| !test.0)
            .map(|test| test.1)
            .collect()
    }
}

/// What no machine compares, with the reason.
pub const LEFT_OUT: [&str; 13] = [
    "EOPNOTSUPP (level 0): Landlock cannot be switched off in a running kernel",
    "EINVAL and E2BIG for what only a higher level knows: a kernel has one level",
    "EIO: the kernel's own state cannot be damaged from outside",
    "ESRCH, but for the target of a signal: a thread that is not live makes no system call, and has no socket",
    "EBUSY for the only live thread: in Linux it exits, and the process with it",
    "ENOSPC: a file system has no such table of entries, nor object numbers",
    "E2BIG for a 65th layer of a domain and ENOMEM for a 257th layer: the kernel stops at 16 layers to a domain, 128 for all threads",
    "component: the kernel shows no part of a path",
    "names that are empty, or that have a slash or a zero byte, and paths with a zero byte: no system call can be given them",
    "layer_rules: the kernel does not show a domain's rules",
    "sockets that were made before a layer: a socket keeps the domain of its making, and the tables know threads alone",
    "opening block devices: an open may load a driver",
    "arguments without a counterpart: entries not in the directory named, ports above 65,535 in a question about a port, rights that no \
     single operation asks for",
];

fn create(kind: u64, path: &str) -> i64 {
    Operation::creating(kind, path.to_string(), "").run()
}

fn granted(rights: u64, path: &str) -> bool {
    Operation::accessing(rights, path.to_string()).is_some_and(|operation| operation.run() == 0)
}

#[cfg(test)]
mod tests {
    use super::*;

    fn whole() -> Machine {
        Machine {
            abi: 6,
            admin: true,
            no_new_privs: false,
            character_devices: true,
            block_devices: true,
            execve_check: true,
            exchange: true,
            tcp: true,
            scopes: true,
            lookups: true,
            plain_file: String::new(),
        }
    }

    #[test]
    fn each_thing_that_is_lacking_is_said() {
        assert!(whole().lacks().is_empty());
        let lack: [fn(&mut Machine); 10] = [
            |machine| machine.abi = 5,
            |machine| machine.admin = false,
            |machine| machine.no_new_privs = true,
            |machine| machine.character_devices = false,
            |machine| machine.block_devices = false,
            |machine| machine.execve_check = false,
            |machine| machine.exchange = false,
            |machine| machine.tcp = false,
            |machine| machine.scopes = false,
            |machine| machine.lookups = false,
        ];
        for take_away in lack {
            let mut machine = whole();
            take_away(&mut machine);
            assert_eq!(machine.lacks().len(), 1);
        }
    }
}
