//! What a thread tries to reach of another one: the thread itself, a process that it forks, or an abstract socket.
//!
//! Linux lets threads of one process signal each other, whatever their domains are (differences.rs). A process that a thread forks has
//! a copy of its domain, so that two of these ask what the calls ask. An abstract socket has the domain of the thread that made it.

use crate::operation::Operation;
use crate::sys;
use crate::task::Task;
use std::ffi::c_int;

/// The kinds of abstract sockets, by turns.
const KINDS: [c_int; 3] = [sys::SOCK_STREAM, sys::SOCK_DGRAM, sys::SOCK_SEQPACKET];

/// Something that can be reached until it is dropped.
pub struct Target {
    /// How it is reached.
    pub operation: Operation,
    /// The process that waits.
    pid: Option<i64>,
    descriptor: Option<c_int>,
}

impl Target {
    /// The thread itself, for another one of this process.
    pub fn thread(task: &Task) -> Target {
        let thread = task.run(sys::thread_id);
        Target {
            operation: Operation::SignalThread { thread },
            pid: None,
            descriptor: None,
        }
    }

    /// A process that the thread forks, for one that another thread forks; none if the machine does not permit it.
    pub fn process(task: &Task) -> Option<Target> {
        Target::of_process(task.run(sys::fork_waiting))
    }

    /// A process that has ended.
    pub fn ended() -> Option<Target> {
        let mut target = Target::of_process(sys::fork_waiting())?;
        target.end();
        Some(target)
    }

    fn of_process(pid: i64) -> Option<Target> {
        if pid < 0 {
            return None;
        }
        let descriptor = sys::open_process(pid) as c_int;
        let signal = Operation::SignalProcess { descriptor };
        let target = Target {
            operation: Operation::Forked(Box::new(signal)),
            pid: Some(pid),
            descriptor: Some(descriptor),
        };
        (descriptor >= 0).then_some(target)
    }

    /// A new abstract socket of the thread, for another thread or for a process that one forks; none if there can be none.
    pub fn socket(task: &Task, number: u64, forked: bool) -> Option<Target> {
        let kind = KINDS[number as usize % KINDS.len()];
        let name = format!("skeinrabbit-{}-{number}", std::process::id());
        let connect = Operation::ConnectAbstract {
            kind,
            name: name.clone(),
        };
        let descriptor = task.run(move || sys::listen_abstract(kind, &name)) as c_int;
        let target = Target {
            operation: if forked {
                Operation::Forked(Box::new(connect))
            } else {
                connect
            },
            pid: None,
            descriptor: Some(descriptor),
        };
        (descriptor >= 0).then_some(target)
    }

    /// Ends the process, if there is one.
    fn end(&mut self) {
        if let Some(pid) = self.pid.take() {
            sys::kill(pid);
            sys::wait(pid);
        }
    }
}

impl Drop for Target {
    fn drop(&mut self) {
        self.end();
        if let Some(descriptor) = self.descriptor {
            sys::close(descriptor);
        }
    }
}

/// Whether this machine permits all of it.
pub fn can_be_reached() -> bool {
    let task = Task::start();
    let targets = [Target::process(&task), Target::socket(&task, 0, true)];
    let reached = |target: &Option<Target>| {
        let target = target.as_ref();
        target.is_some_and(|target| target.operation.run() == 0)
    };
    targets.iter().all(reached)
}
