//! Linux's side of a scenario: a tree of files, open rulesets, and threads.

use crate::broker::Broker;
use crate::operation::Operation;
use crate::rights::*;
use crate::sys;
use crate::target::Target;
use crate::task::Task;
use model::call::Call;
use model::state::MAX_RULESETS;
use std::collections::BTreeMap;
use std::ffi::{c_int, CString};

/// What stands for an entry or a ruleset that is not there.
const ABSENT: &str = "absent";
const NO_DESCRIPTOR: c_int = -1;

/// The layers that Linux lets a domain have.
pub const MAX_KERNEL_DOMAIN: usize = 16;

pub struct Kernel {
    /// The directory that stands for the root.
    root: String,
    /// Where symlinks lead: a regular file outside the tree.
    symlink_target: String,
    /// The descriptor of each open ruleset.
    rulesets: [Option<c_int>; MAX_RULESETS as usize],
    /// The Linux thread of each live thread.
    tasks: BTreeMap<u64, Task>,
    started: Option<Task>,
    /// The requests between threads so far.
    requests: u64,
}

impl Kernel {
    /// An empty tree in a new directory, and one thread.
    pub fn new(root: &str, symlink_target: &str) -> Kernel {
        assert_eq!(sys::mkdir(root), 0, "mkdir {root}");
        Kernel {
            root: root.to_string(),
            symlink_target: symlink_target.to_string(),
            rulesets: [None; MAX_RULESETS as usize],
            tasks: BTreeMap::from([(0, Task::start())]),
            started: None,
            requests: 0,
        }
    }

    /// Does what the call asks, on the thread that it names. The tables are those before the call.
    pub fn perform(&mut self, tables: &Broker, call: &Call) -> (Operation, i64) {
        if let Call::Signal { thread, target } | Call::AbstractSocket { thread, target } = *call {
            let target = self.target(call, target);
            return self.reach(thread, &target);
        }
        let operation = self.operation(tables, call);
        let answer = match (&operation, thread_of(call)) {
            (Operation::StartThread, Some(thread)) => {
                self.started = Some(self.tasks[&thread].start_another());
                0
            }
            (Operation::ExitThread, Some(thread)) => self.exit(thread),
            (_, Some(thread)) => {
                let operation = operation.clone();
                self.tasks[&thread].run(move || operation.run())
            }
            (_, None) => operation.run(),
        };
        (operation, answer)
    }

    /// What a request between threads is for, by turns in the two ways: from thread to thread, and from process to process. A thread
    /// that is not live is a process that has ended.
    fn target(&mut self, call: &Call, target: u64) -> Target {
        self.requests += 1;
        let forked = self.requests.is_multiple_of(2);
        let target = match (call, self.tasks.get(&target)) {
            (Call::Signal { .. }, None) => Target::ended(),
            (Call::Signal { .. }, Some(task)) if forked => Target::process(task),
            (Call::Signal { .. }, Some(task)) => Some(Target::thread(task)),
            (_, Some(task)) => Target::socket(task, self.requests, forked),
            (_, None) => panic!("{call:?}: no thread has the socket"),
        };
        target.expect("the machine permits processes and abstract sockets")
    }

    fn reach(&self, thread: u64, target: &Target) -> (Operation, i64) {
        let operation = target.operation.clone();
        let trying = operation.clone();
        (operation, self.tasks[&thread].run(move || trying.run()))
    }

    /// Lets a thread exit, and waits until it has.
    fn exit(&mut self, thread: u64) -> i64 {
        drop(self.tasks.remove(&thread));
        0
    }

    fn operation(&self, tables: &Broker, call: &Call) -> Operation {
        match *call {
            Call::Restrict { ruleset, flags, .. } => Operation::RestrictSelf {
                ruleset: self.descriptor(ruleset),
                flags: flags as u32,
            },
            Call::Clone { .. } => Operation::StartThread,
            Call::End { .. } => Operation::ExitThread,
            Call::SetNoNewPrivs { .. } => Operation::SetNoNewPrivs,
            Call::SetAdmin { on, .. } => Operation::SetAdmin { on: on != 0 },
            Call::Port { port, rights, .. } => Operation::Tcp {
                port: port as u16,
                rights,
            },
            Call::Lookup { ref path } => Operation::Lookup {
                root: self.root.clone(),
                path: CString::new(path.as_slice()).expect("paths have no zero byte"),
            },
            _ if thread_of(call).is_none() => self.ruleset_operation(tables, call),
            _ => self.file_operation(tables, call),
        }
    }

    fn ruleset_operation(&self, tables: &Broker, call: &Call) -> Operation {
        match *call {
            Call::CreateRuleset { ref bytes, flags } => Operation::CreateRuleset {
                attr: bytes.clone(),
                flags: flags as u32,
                descriptors_left: tables.open_rulesets().len() < self.rulesets.len(),
            },
            Call::CloseRuleset { ruleset } => Operation::Close {
                fd: self.descriptor(ruleset),
            },
            Call::AddPathRule {
                ruleset,
                entry,
                rights,
                flags,
            } => Operation::AddPathRule {
                ruleset: self.descriptor(ruleset),
                path: tables.is_live(entry).then(|| self.path(tables, entry)),
                rights,
                flags: flags as u32,
            },
            Call::AddPortRule {
                ruleset,
                port,
                rights,
                flags,
            } => Operation::AddPortRule {
                ruleset: self.descriptor(ruleset),
                port,
                rights,
                flags: flags as u32,
            },
            _ => unreachable!("{call:?} is no call on rulesets"),
        }
    }

    fn file_operation(&self, tables: &Broker, call: &Call) -> Operation {
        match *call {
            Call::Access { entry, rights, .. } => {
                Operation::accessing(rights, self.path(tables, entry))
                    .unwrap_or_else(|| panic!("no operation asks for the rights {rights:#x} alone"))
            }
            Call::Create {
                ref name,
                directory,
                kind,
                ..
            } => {
                let path = self.path_of_name(tables, directory, name);
                Operation::creating(kind, path, &self.symlink_target)
            }
            Call::Remove { entry: 0, .. } => Operation::Rmdir {
                path: "/".to_string(),
            },
            Call::Remove { entry, .. } if tables.is_directory(entry) => Operation::Rmdir {
                path: self.path(tables, entry),
            },
            Call::Remove { entry, .. } => Operation::Unlink {
                path: self.path(tables, entry),
            },
            Call::Link {
                ref name,
                source,
                directory,
                ..
            } => Operation::Link {
                from: self.path(tables, source),
                to: self.path_of_name(tables, directory, name),
            },
            _ => self.rename_operation(tables, call),
        }
    }

    fn rename_operation(&self, tables: &Broker, call: &Call) -> Operation {
        let (source, to, flags) = match *call {
            Call::Rename {
                ref name,
                source,
                directory,
                ..
            } => (source, self.path_of_name(tables, directory, name), 0),
            Call::Exchange {
                source,
                directory,
                entry,
                ..
            } => {
                let to = self.path_within(tables, directory, entry);
                (source, to, sys::RENAME_EXCHANGE)
            }
            _ => unreachable!("{call:?} is no move"),
        };
        let from = self.movable_path(tables, source);
        Operation::Rename { from, to, flags }
    }

    fn descriptor(&self, ruleset: u64) -> c_int {
        self.rulesets
            .get(ruleset as usize)
            .copied()
            .flatten()
            .unwrap_or(NO_DESCRIPTOR)
    }

    pub fn path(&self, tables: &Broker, entry: u64) -> String {
        if entry == 0 {
            self.root.clone()
        } else if tables.is_live(entry) {
            let directory = self.path(tables, tables.parent(entry));
            format!("{directory}/{}", tables.name(entry))
        } else {
            format!("{}/{ABSENT}", self.root)
        }
    }

    /// The path of an entry that is to be moved: the root is named by ".", which the kernel does not move either.
    fn movable_path(&self, tables: &Broker, entry: u64) -> String {
        if entry == 0 {
            format!("{}/.", self.root)
        } else {
            self.path(tables, entry)
        }
    }

    /// The path of an entry that the call names as one of a directory.
    fn path_within(&self, tables: &Broker, directory: u64, entry: u64) -> String {
        if entry == 0 {
            return self.movable_path(tables, entry);
        }
        let name = if tables.is_live(entry) {
            tables.name(entry)
        } else {
            ABSENT.to_string()
        };
        self.path_of_name(tables, directory, name.as_bytes())
    }

    /// The path of a name in a directory.
    fn path_of_name(&self, tables: &Broker, directory: u64, name: &[u8]) -> String {
        let name = str::from_utf8(name).expect("names are ASCII");
        format!("{}/{name}", self.path(tables, directory))
    }

    /// Takes note of a call that both sides have granted.
    pub fn settle(&mut self, call: &Call, number: i64, linux: i64) {
        match *call {
            Call::CreateRuleset { .. } => self.rulesets[number as usize] = Some(linux as c_int),
            Call::CloseRuleset { ruleset } => self.rulesets[ruleset as usize] = None,
            Call::Clone { .. } => {
                let started = self.started.take();
                self.tasks.extend(started.map(|task| (number as u64, task)));
            }
            _ => {}
        }
    }
}

impl Drop for Kernel {
    fn drop(&mut self) {
        for fd in self.rulesets.iter().flatten() {
            sys::close(*fd);
        }
    }
}

/// The thread that makes the call; none for those on rulesets and for lookups, which concern no domain.
fn thread_of(call: &Call) -> Option<u64> {
    match *call {
        Call::Restrict { thread, .. }
        | Call::Clone { thread }
        | Call::End { thread }
        | Call::SetNoNewPrivs { thread }
        | Call::SetAdmin { thread, .. }
        | Call::Access { thread, .. }
        | Call::Port { thread, .. }
        | Call::Create { thread, .. }
        | Call::Remove { thread, .. }
        | Call::Link { thread, .. }
        | Call::Rename { thread, .. }
        | Call::Exchange { thread, .. } => Some(thread),
        _ => None,
    }
}

/// The file types of the kinds, as lstat(2) gives them.
pub fn kind_of(file_type: u32) -> u64 {
    match file_type & 0o170000 {
        0o100000 => REGULAR,
        0o040000 => DIRECTORY,
        0o020000 => CHARACTER,
        0o060000 => BLOCK,
        0o010000 => FIFO,
        0o140000 => SOCKET,
        0o120000 => SYMLINK,
        _ => 0,
    }
}
