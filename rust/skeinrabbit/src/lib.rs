//! A file broker that answers as Linux's Landlock would, and is proved to.
//!
//! Landlock lets a program give up rights at files and ports for good. Where a kernel has no Landlock, a controller can
//! ask Skeinrabbit instead: it keeps a file tree, rulesets, layers and threads in [`Tables`], and answers each call with
//! success or with exactly the error number that the specification, document 01, names. The core behind these methods is
//! proved to do so for all arguments and all tables, damaged ones included; this crate gives it types.
//!
//! # A sandbox
//!
//! A ruleset says which rights it *handles* and where it grants them. What it handles and grants nowhere is denied.
//! [`OpenRuleset::restrict`] makes it a layer of a thread's domain, which stays until the thread ends ([`Tables::end`]), and a request
//! must be granted by every layer that handles it. So handle every right ([`AccessFs::from_all`]) and grant the few that are needed.
//!
//! ```
//! use skeinrabbit::{AccessFs, AccessNet, Entry, Errno, Kind, Level, Refusal, Tables, Thread};
//!
//! let level = Level::LATEST;
//! let mut tables = Tables::new(level)?;
//! let docs = tables.create(Thread::MAIN, Entry::ROOT, Kind::DIRECTORY, "docs")?;
//! let page = tables.create(Thread::MAIN, docs, Kind::REGULAR, "page")?;
//!
//! let worker = tables.clone_thread(Thread::MAIN)?;
//! tables.set_no_new_privs(worker)?;
//! let layer = tables
//!     .ruleset()
//!     .handle_fs(AccessFs::from_all(level))
//!     .handle_net(AccessNet::from_all(level))
//!     .create()?
//!     .add_path(docs, AccessFs::from_read(level))?
//!     .add_port(443, AccessNet::CONNECT_TCP)?
//!     .restrict(worker)?;
//!
//! assert_eq!(tables.access(worker, page, AccessFs::READ_FILE), Ok(()));
//! let rights = AccessFs::WRITE_FILE;
//! assert_eq!(tables.access(worker, page, rights), Err(Refusal::Denied { layer, rights }));
//! let rights = AccessNet::CONNECT_TCP;
//! assert_eq!(tables.port(worker, 80, rights), Err(Refusal::Denied { layer, rights }));
//! # Ok::<(), Errno>(())
//! ```
//!
//! Where a layer refuses, the [`Refusal`] says which one and which rights; every other refusal is an [`Errno`] alone.
//!
//! # The incident
//!
//! A program may read the calibration tree, and may do everything in an import folder. It wants to change the calibration
//! table, which it may only read: it tries to move the table to where it may write. A broker that looks only at the target
//! folder lets it. Here the move is refused: with EACCES where taking the table out of its folder is denied, and with EXDEV
//! where that is granted but the table would gain a right by the move.
//!
//! ```
//! use skeinrabbit::{AccessFs, Entry, Errno, Kind, Level, Refusal, Tables, Thread};
//!
//! let mut tables = Tables::new(Level::LATEST)?;
//! let cal = tables.create(Thread::MAIN, Entry::ROOT, Kind::DIRECTORY, "cal")?;
//! let import = tables.create(Thread::MAIN, Entry::ROOT, Kind::DIRECTORY, "import")?;
//! let table = tables.create(Thread::MAIN, cal, Kind::REGULAR, "table")?;
//!
//! let client = tables.clone_thread(Thread::MAIN)?;
//! tables.set_no_new_privs(client)?;
//! let all = AccessFs::READ_FILE | AccessFs::WRITE_FILE | AccessFs::REMOVE_FILE | AccessFs::MAKE_REG | AccessFs::REFER;
//! let layer = tables
//!     .ruleset()
//!     .handle_fs(all)
//!     .create()?
//!     .add_path(cal, AccessFs::READ_FILE)?
//!     .add_path(import, all)?
//!     .restrict(client)?;
//!
//! let denied = |rights| Err(Refusal::Denied { layer, rights });
//! assert_eq!(tables.access(client, table, AccessFs::WRITE_FILE), denied(AccessFs::WRITE_FILE));
//! assert_eq!(tables.rename(client, table, import, "table"), denied(AccessFs::REMOVE_FILE));
//!
//! // Another client may even take files out of the tree. The table still does not go where it could be written.
//! let mover = tables.clone_thread(Thread::MAIN)?;
//! tables.set_no_new_privs(mover)?;
//! let layer = tables
//!     .ruleset()
//!     .handle_fs(all)
//!     .create()?
//!     .add_path(cal, all - AccessFs::WRITE_FILE)?
//!     .add_path(import, all)?
//!     .restrict(mover)?;
//! let gained = Refusal::Crossing { layer, rights: AccessFs::WRITE_FILE };
//! assert_eq!(tables.rename(mover, table, import, "table"), Err(gained));
//! assert_eq!(gained.errno(), Errno::EXDEV);
//! # Ok::<(), Errno>(())
//! ```
//!
//! # Paths
//!
//! Every entry but the root has a name of 1 to 48 bytes, unique in its directory. [`Tables::lookup`] finds an entry by its path
//! and [`Tables::path`] gives the path of an entry; all other calls take numbers.
//!
//! ```
//! use skeinrabbit::{AccessFs, Entry, Errno, Kind, Level, Tables, Thread};
//!
//! let mut tables = Tables::new(Level::LATEST)?;
//! let cal = tables.create(Thread::MAIN, Entry::ROOT, Kind::DIRECTORY, "cal")?;
//! tables.create(Thread::MAIN, cal, Kind::REGULAR, "table")?;
//! let asked = tables.lookup("/cal/./table")?;
//! assert_eq!(tables.access(Thread::MAIN, asked, AccessFs::READ_FILE), Ok(()));
//! assert_eq!(tables.lookup("/cal/feed"), Err(Errno::ENOENT));
//! # Ok::<(), Errno>(())
//! ```
//!
//! # Requests in turn
//!
//! A [`Queue`] keeps one access request for each of eight clients and answers them in turn: a client that asks all the time holds up no
//! other for more than eight turns.
//!
//! ```
//! use skeinrabbit::{AccessFs, Entry, Errno, Level, Queue, Slot, Tables, Thread, Turn};
//!
//! let tables = Tables::new(Level::LATEST)?;
//! let mut queue = Queue::new();
//! let busy = Slot::new(0);
//! queue.post(busy, Thread::MAIN, Entry::ROOT, AccessFs::READ_DIR)?;
//! queue.post(Slot::new(5), Thread::MAIN, Entry::ROOT, AccessFs::MAKE_DIR)?;
//! assert_eq!(queue.turn(&tables)?, Turn::Served(busy));
//! queue.post(busy, Thread::MAIN, Entry::ROOT, AccessFs::READ_DIR)?;
//! assert_eq!(queue.turn(&tables)?, Turn::Served(Slot::new(5)));
//! assert_eq!(queue.turn(&tables)?, Turn::Served(busy));
//! assert_eq!(queue.turn(&tables)?, Turn::Idle);
//! # Ok::<(), Errno>(())
//! ```
//!
//! # Many requests at once
//!
//! A [`Batch`] asks about many calls on the same tables, accesses, ports and moves, and [`Tables::batch`] answers each with the
//! refusal of its call up to and with the verdict. Nothing changes, and the tables are tested once: so it takes far less time for
//! each request than a call does.
//!
//! ```
//! use skeinrabbit::{AccessFs, Batch, Entry, Errno, Kind, Level, Tables, Thread};
//!
//! let mut tables = Tables::new(Level::LATEST)?;
//! let file = tables.create(Thread::MAIN, Entry::ROOT, Kind::REGULAR, "file")?;
//! let mut batch = Batch::new();
//! batch
//!     .access(Thread::MAIN, file, AccessFs::READ_FILE)
//!     .link(Thread::MAIN, file, Entry::ROOT, "file")
//!     .rename(Thread::MAIN, file, Entry::ROOT, "other");
//! let verdicts = tables.batch(&mut batch);
//! let refused: Vec<Option<Errno>> = verdicts.iter().map(|verdict| verdict.errno()).collect();
//! assert_eq!(refused, [None, Some(Errno::EEXIST), None]);
//! # Ok::<(), Errno>(())
//! ```
//!
//! # Policy files
//!
//! Rulesets may stand in files, each under a name: a stock file, and a site file whose rulesets go first. [`find_policy`] gives the part
//! that a name means, and [`Tables::apply_policy`] opens a ruleset as it says. A file that is damaged anywhere is refused with the
//! place. [`Tables::write_policy`] writes an open ruleset as such a file. `skein policy` makes files of text and of rulesets.
//!
//! ```
//! use skeinrabbit::{find_policy, Attribute, Errno, Level, PolicyFile, Scope, Tables, Thread};
//!
//! let mut site = [&[1, 6, 0], &b"worker"[..], &[2, 24, 0]].concat();
//! site.extend(Attribute { scope: Scope::SIGNAL, ..Attribute::default() }.to_bytes());
//! assert_eq!(find_policy(&[], &site, "worker").map(|part| part.file), Ok(PolicyFile::Site));
//!
//! let mut tables = Tables::new(Level::LATEST)?;
//! let ruleset = tables.apply_policy(&[], &site, "worker")?;
//! let worker = tables.clone_thread(Thread::MAIN)?;
//! tables.set_no_new_privs(worker)?;
//! tables.restrict(worker, ruleset, 0)?;
//! assert_eq!(tables.signal(worker, Thread::MAIN), Err(Errno::EPERM));
//! assert_eq!(tables.policy_file(ruleset, "worker"), Ok(site));
//! # Ok::<(), Errno>(())
//! ```
//!
//! # A log of changes
//!
//! The changes of the tree can go into a [`Log`], which a broker keeps in a file: after a crash [`Tables::replay`] makes them again, up to
//! the last one whose field is whole. docs/LOG.md says how, and examples/log.c is a program.
//!
//! ```
//! use skeinrabbit::{Entry, Errno, Kind, Level, Log, Tables, Thread};
//!
//! let mut tables = Tables::new(Level::LATEST)?;
//! let start = tables.clone();
//! let mut log = Log::with_capacity(4096);
//! tables.logged(&mut log).create(Thread::MAIN, Entry::ROOT, Kind::DIRECTORY, "cal")?;
//!
//! let mut again = start;
//! assert_eq!(again.replay(log.written()), Ok(0));
//! assert_eq!(again, tables);
//! # Ok::<(), Errno>(())
//! ```
//!
//! # Numbers
//!
//! Entries, rulesets, threads, layers, slots, kinds, levels and sets of rights are numbers with a type of their own. Any number may
//! stand in any of them: the core tests what it gets, and a number that means nothing is refused as the specification says. No
//! method of this crate panics.
//!
//! # Without `std`
//!
//! The feature `std`, on by default, makes an [`Errno`] or a [`Refusal`] a `std::io::Error`. Without it the crate needs `alloc` alone.
#![cfg_attr(not(test), no_std)]
#![forbid(unsafe_code)]
#![deny(missing_docs)]
#![cfg_attr(
    not(test),
    deny(
        clippy::expect_used,
        clippy::indexing_slicing,
        clippy::panic,
        clippy::unwrap_used
    )
)]

extern crate alloc;

mod batch;
mod builder;
mod cells;
mod errno;
#[cfg(feature = "std")]
mod io;
mod kind;
mod level;
mod log;
mod names;
mod numbers;
mod policy;
mod policy_file;
mod queue;
mod refusal;
mod rights;
mod rows;
mod rules;
mod tables;
mod text;
mod tree;

pub use batch::{Batch, Request, Verdict, Verdicts};
pub use builder::{OpenRuleset, RulesetBuilder};
pub use cells::{Cells, Table};
pub use errno::Errno;
pub use kind::Kind;
pub use level::Level;
pub use log::{Log, Logged};
pub use names::{component, component_range, components};
pub use numbers::{Entry, Layer, Ruleset, Slot, Thread};
pub use policy_file::{find_policy, PolicyFile, PolicyPart, PolicyRefusal};
pub use queue::{Queue, QueueCells, QueuePart, SlotRow, SlotState, Turn};
pub use refusal::{Judged, Refusal};
pub use rights::{AccessFs, AccessNet, PortRights, Rights, Scope, Scopes};
pub use rows::{Attribute, EntryRow, LayerRow, RulesetRow, ThreadRow};
pub use rules::{Rule, Rules, RulesIter};
pub use tables::Tables;
pub use text::{parse_number, ParseError};
