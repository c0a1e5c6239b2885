//! The calls that leave the tree alone: rulesets, threads and requests.
use crate::errno::Errno;
use crate::numbers::{Entry, Layer, Ruleset, Thread};
use crate::refusal::{Judged, Refusal};
use crate::rights::{AccessFs, AccessNet};
use crate::rules::Rules;
use crate::tables::Tables;
use skeinrabbit_sys as sys;

/// # Rulesets
///
/// [`Tables::ruleset`] starts a builder over these.
impl Tables {
    /// Opens a ruleset from the bytes of its attribute ([`Attribute::to_bytes`](crate::Attribute::to_bytes)) and answers its
    /// number, the lowest that is closed.
    ///
    /// Refusals, in order: tables not sound, EIO; level 0, EOPNOTSUPP; flags not 0, EINVAL; fewer than 8 bytes, EINVAL; over
    /// 4,096, E2BIG; a byte that is not 0 past the level's known size, E2BIG; a bit unknown to the level, EINVAL; all masks
    /// empty, ENOMSG; 16 rulesets open, EMFILE.
    ///
    /// ```
    /// # use skeinrabbit::*;
    /// let mut tables = Tables::new(Level::LATEST)?;
    /// assert_eq!(tables.create_ruleset(&[4, 0, 0, 0, 0, 0, 0, 0], 0), Ok(Ruleset::new(0)));
    /// assert_eq!(tables.create_ruleset(&[4], 0), Err(Errno::EINVAL));
    /// assert_eq!(tables.create_ruleset(&[0; 8], 0), Err(Errno::ENOMSG));
    /// # Ok::<(), Errno>(())
    /// ```
    pub fn create_ruleset(&mut self, attribute: &[u8], flags: u64) -> Result<Ruleset, Errno> {
        let raw = sys::create_ruleset(&mut self.raw(), attribute, flags);
        Errno::answer(raw).map(Ruleset::new)
    }

    /// Closes a ruleset. Layers made of it stay as they are.
    ///
    /// Refusals, in order: tables not sound, EIO; ruleset not open, EBADF.
    ///
    /// ```
    /// # use skeinrabbit::*;
    /// let mut tables = Tables::new(Level::LATEST)?;
    /// assert_eq!(tables.close_ruleset(Ruleset::new(0)), Err(Errno::EBADF));
    /// # Ok::<(), Errno>(())
    /// ```
    pub fn close_ruleset(&mut self, ruleset: Ruleset) -> Result<(), Errno> {
        let raw = sys::close_ruleset(&mut self.raw(), ruleset.number());
        Errno::answer(raw).map(drop)
    }

    /// Grants rights at an entry's object and below it; joins them to a rule that is there.
    ///
    /// Refusals, in order: tables not sound, EIO; level 0, EOPNOTSUPP; flags not 0, EINVAL; ruleset not open, EBADF; rights
    /// empty, ENOMSG; rights outside those handled, EINVAL (REFER must be asked for); entry not live, EBADF; the root and one of
    /// the rights [`AccessFs::NOT_AT_ROOT`], EPERM, whatever is granted there already; entry no directory and rights outside the
    /// file set, EINVAL; a new object with 64 rules there, E2BIG.
    ///
    /// ```
    /// # use skeinrabbit::*;
    /// let mut tables = Tables::new(Level::LATEST)?;
    /// let handled = AccessFs::READ_FILE | AccessFs::WRITE_FILE;
    /// let ruleset = tables.ruleset().handle_fs(handled).create()?.keep();
    /// assert_eq!(tables.add_path_rule(ruleset, Entry::ROOT, AccessFs::READ_FILE, 0), Ok(()));
    /// assert_eq!(tables.add_path_rule(ruleset, Entry::ROOT, AccessFs::WRITE_FILE, 0), Err(Errno::EPERM));
    /// assert_eq!(tables.add_path_rule(ruleset, Entry::ROOT, AccessFs::REFER, 0), Err(Errno::EINVAL));
    /// # Ok::<(), Errno>(())
    /// ```
    pub fn add_path_rule(
        &mut self,
        ruleset: Ruleset,
        entry: Entry,
        rights: AccessFs,
        flags: u64,
    ) -> Result<(), Errno> {
        let (ruleset, entry) = (ruleset.number(), entry.number());
        let raw = sys::add_path_rule(&mut self.raw(), ruleset, entry, rights.bits(), flags);
        Errno::answer(raw).map(drop)
    }

    /// Grants rights at a port; joins them to a rule that is there.
    ///
    /// Refusals, in order: tables not sound, EIO; level 0, EOPNOTSUPP; flags not 0, EINVAL; ruleset not open, EBADF; rights
    /// empty, ENOMSG; rights outside those handled, EINVAL; port above 65,535, EINVAL; a new port with 64 rules there, E2BIG.
    ///
    /// ```
    /// # use skeinrabbit::*;
    /// let mut tables = Tables::new(Level::LATEST)?;
    /// let ruleset = tables.ruleset().handle_net(AccessNet::ALL).create()?.keep();
    /// assert_eq!(tables.add_port_rule(ruleset, 80, AccessNet::BIND_TCP, 0), Ok(()));
    /// assert_eq!(tables.add_port_rule(ruleset, 65_536, AccessNet::BIND_TCP, 0), Err(Errno::EINVAL));
    /// # Ok::<(), Errno>(())
    /// ```
    pub fn add_port_rule(
        &mut self,
        ruleset: Ruleset,
        port: u64,
        rights: AccessNet,
        flags: u64,
    ) -> Result<(), Errno> {
        let raw = sys::add_port_rule(
            &mut self.raw(),
            ruleset.number(),
            port,
            rights.bits(),
            flags,
        );
        Errno::answer(raw).map(drop)
    }

    /// Gives a thread a layer made of a ruleset as it is now, and answers the layer's number, the lowest that is free. Later rules
    /// or a close do not reach the layer.
    ///
    /// Refusals, in order: tables not sound, EIO; thread not live, ESRCH; level 0, EOPNOTSUPP; neither mark set, EPERM; flags
    /// not 0, EINVAL; ruleset not open, EBADF; 64 layers already, E2BIG; 256 layers in use, or too few free pool rules, ENOMEM.
    ///
    /// ```
    /// # use skeinrabbit::*;
    /// let mut tables = Tables::new(Level::LATEST)?;
    /// let ruleset = tables.ruleset().handle_fs(AccessFs::READ_FILE).create()?.keep();
    /// assert_eq!(tables.restrict(Thread::MAIN, ruleset, 0), Err(Errno::EPERM));
    /// tables.set_no_new_privs(Thread::MAIN)?;
    /// let layer = tables.restrict(Thread::MAIN, ruleset, 0)?;
    /// assert_eq!(tables.thread(Thread::MAIN).and_then(|row| row.youngest), Some(layer));
    /// # Ok::<(), Errno>(())
    /// ```
    pub fn restrict(
        &mut self,
        thread: Thread,
        ruleset: Ruleset,
        flags: u64,
    ) -> Result<Layer, Errno> {
        let raw = sys::restrict(&mut self.raw(), thread.number(), ruleset.number(), flags);
        // The core answers 0; the new layer is the thread's youngest.
        Errno::answer(raw)?;
        let youngest = self.thread(thread).and_then(|row| row.youngest);
        youngest.ok_or(Errno::EIO)
    }

    /// The rules of a layer: a part of the pool, not a copy.
    ///
    /// Refusals, in order: tables not sound, EIO; layer not in use, EBADF. A layer in use without rules has an empty part.
    ///
    /// ```
    /// # use skeinrabbit::*;
    /// let mut tables = Tables::new(Level::LATEST)?;
    /// tables.set_no_new_privs(Thread::MAIN)?;
    /// let layer = tables
    ///     .ruleset()
    ///     .handle_fs(AccessFs::READ_FILE)
    ///     .create()?
    ///     .add_path(Entry::ROOT, AccessFs::READ_FILE)?
    ///     .restrict(Thread::MAIN)?;
    /// let rules = tables.layer_rules(layer)?;
    /// let all: Vec<Rule> = rules.iter().collect();
    /// assert_eq!(all, [Rule::Path { object: 0, rights: AccessFs::READ_FILE }]);
    /// assert_eq!(tables.layer_rules(Layer::new(1)), Err(Errno::EBADF));
    /// # Ok::<(), Errno>(())
    /// ```
    pub fn layer_rules(&self, layer: Layer) -> Result<Rules<'_>, Errno> {
        let mut part = [0; 2];
        let raw = sys::layer_rules(self.shared(), layer.number(), &mut part);
        Errno::answer(raw)?;
        Ok(Rules::new(self.pool_part(part).unwrap_or_default()))
    }

    fn pool_part(&self, part: [u64; 2]) -> Option<&[u64]> {
        let [first, count] = part.map(usize::try_from);
        let (first, count) = (first.ok()?, count.ok()?);
        self.cells().pool.get(first..first.checked_add(count)?)
    }
}

/// # Threads
impl Tables {
    /// Clones a thread, with its domain and marks, and answers the new thread, the lowest number that is free.
    ///
    /// Refusals, in order: tables not sound, EIO; thread not live, ESRCH; 8 threads live, EAGAIN.
    ///
    /// ```
    /// # use skeinrabbit::*;
    /// let mut tables = Tables::new(Level::LATEST)?;
    /// assert_eq!(tables.clone_thread(Thread::MAIN), Ok(Thread::new(1)));
    /// # Ok::<(), Errno>(())
    /// ```
    pub fn clone_thread(&mut self, thread: Thread) -> Result<Thread, Errno> {
        let raw = sys::clone(&mut self.raw(), thread.number());
        Errno::answer(raw).map(Thread::new)
    }

    /// Ends a thread. Its number, and the layers and pool rules that no other live thread reaches, are used again.
    ///
    /// Refusals, in order: tables not sound, EIO; thread not live, ESRCH; the only live thread, EBUSY.
    ///
    /// ```
    /// # use skeinrabbit::*;
    /// let mut tables = Tables::new(Level::LATEST)?;
    /// let worker = tables.clone_thread(Thread::MAIN)?;
    /// tables.set_no_new_privs(worker)?;
    /// tables.ruleset().handle_fs(AccessFs::ALL).create()?.restrict(worker)?;
    /// assert_eq!(tables.layers().count(), 1);
    /// assert_eq!(tables.end(worker), Ok(()));
    /// assert_eq!(tables.layers().count(), 0);
    /// assert_eq!(tables.end(worker), Err(Errno::ESRCH));
    /// assert_eq!(tables.end(Thread::MAIN), Err(Errno::EBUSY));
    /// # Ok::<(), Errno>(())
    /// ```
    pub fn end(&mut self, thread: Thread) -> Result<(), Errno> {
        let raw = sys::end(&mut self.raw(), thread.number());
        Errno::answer(raw).map(drop)
    }

    /// Sets a thread's no_new_privs mark, once for all.
    ///
    /// Refusals, in order: tables not sound, EIO; thread not live, ESRCH.
    ///
    /// ```
    /// # use skeinrabbit::*;
    /// let mut tables = Tables::new(Level::LATEST)?;
    /// assert_eq!(tables.set_no_new_privs(Thread::MAIN), Ok(()));
    /// assert_eq!(tables.set_no_new_privs(Thread::new(1)), Err(Errno::ESRCH));
    /// # Ok::<(), Errno>(())
    /// ```
    pub fn set_no_new_privs(&mut self, thread: Thread) -> Result<(), Errno> {
        let raw = sys::set_no_new_privs(&mut self.raw(), thread.number());
        Errno::answer(raw).map(drop)
    }

    /// Sets or clears a thread's admin mark.
    ///
    /// Refusals, in order: tables not sound, EIO; thread not live, ESRCH.
    ///
    /// ```
    /// # use skeinrabbit::*;
    /// let mut tables = Tables::new(Level::LATEST)?;
    /// tables.set_admin(Thread::MAIN, true)?;
    /// assert_eq!(tables.thread(Thread::MAIN).map(|row| row.admin), Some(true));
    /// # Ok::<(), Errno>(())
    /// ```
    pub fn set_admin(&mut self, thread: Thread, on: bool) -> Result<(), Errno> {
        let raw = sys::set_admin(&mut self.raw(), thread.number(), u64::from(on));
        Errno::answer(raw).map(drop)
    }
}

/// # Requests
///
/// What a thread may do at an entry or a port. Where a layer refuses, the refusal says which one and which of the rights it denies.
impl Tables {
    /// Whether a thread may use an entry with all of these rights.
    ///
    /// Refusals, in order: tables not sound, EIO; thread not live, ESRCH; entry not live, ENOENT; rights empty, with an unknown
    /// bit, or outside the file set for an entry that is no directory, EINVAL; some right not granted, EACCES.
    ///
    /// ```
    /// # use skeinrabbit::*;
    /// let mut tables = Tables::new(Level::LATEST)?;
    /// tables.set_no_new_privs(Thread::MAIN)?;
    /// let layer = tables
    ///     .ruleset()
    ///     .handle_fs(AccessFs::READ_DIR | AccessFs::MAKE_DIR)
    ///     .create()?
    ///     .add_path(Entry::ROOT, AccessFs::READ_DIR)?
    ///     .restrict(Thread::MAIN)?;
    /// assert_eq!(tables.access(Thread::MAIN, Entry::ROOT, AccessFs::READ_DIR), Ok(()));
    /// let refused = tables.access(Thread::MAIN, Entry::ROOT, AccessFs::READ_DIR | AccessFs::MAKE_DIR);
    /// assert_eq!(refused, Err(Refusal::Denied { layer, rights: AccessFs::MAKE_DIR }));
    /// # Ok::<(), Errno>(())
    /// ```
    pub fn access(
        &self,
        thread: Thread,
        entry: Entry,
        rights: AccessFs,
    ) -> Result<(), Refusal<AccessFs>> {
        self.judge(thread, entry, rights).answer
    }

    /// As [`Tables::access`], and how many entries' rules were read for it.
    ///
    /// ```
    /// # use skeinrabbit::*;
    /// let mut tables = Tables::new(Level::LATEST)?;
    /// let folder = tables.create(Thread::MAIN, Entry::ROOT, Kind::DIRECTORY, "folder")?;
    /// let file = tables.create(Thread::MAIN, folder, Kind::REGULAR, "file")?;
    /// tables.set_no_new_privs(Thread::MAIN)?;
    /// tables
    ///     .ruleset()
    ///     .handle_fs(AccessFs::READ_FILE | AccessFs::WRITE_FILE)
    ///     .create()?
    ///     .add_path(folder, AccessFs::READ_FILE)?
    ///     .restrict(Thread::MAIN)?;
    /// let read = |rights| tables.judge(Thread::MAIN, file, rights).entries_read;
    /// assert_eq!(read(AccessFs::EXECUTE), 0); // no layer handles it
    /// assert_eq!(read(AccessFs::READ_FILE), 2); // the file, and the folder, whose rule grants it
    /// assert_eq!(read(AccessFs::WRITE_FILE), 3); // denied: all, to the root
    /// # Ok::<(), Errno>(())
    /// ```
    pub fn judge(&self, thread: Thread, entry: Entry, rights: AccessFs) -> Judged {
        let (thread, entry) = (thread.number(), entry.number());
        let (answer, entries_read) = Refusal::reported(AccessFs::from_bits, |report| {
            sys::access(self.shared(), thread, entry, rights.bits(), report)
        });
        Judged {
            answer: answer.map(drop),
            entries_read,
        }
    }

    /// Whether a thread may use a port with all of these rights.
    ///
    /// Refusals, in order: tables not sound, EIO; thread not live, ESRCH; port above 65,535, EINVAL; rights empty or with an
    /// unknown bit, EINVAL; some right not granted, EACCES.
    ///
    /// ```
    /// # use skeinrabbit::*;
    /// let mut tables = Tables::new(Level::LATEST)?;
    /// tables.set_no_new_privs(Thread::MAIN)?;
    /// let layer = tables
    ///     .ruleset()
    ///     .handle_net(AccessNet::BIND_TCP)
    ///     .create()?
    ///     .add_port(80, AccessNet::BIND_TCP)?
    ///     .restrict(Thread::MAIN)?;
    /// assert_eq!(tables.port(Thread::MAIN, 80, AccessNet::BIND_TCP), Ok(()));
    /// let rights = AccessNet::BIND_TCP;
    /// assert_eq!(tables.port(Thread::MAIN, 81, rights), Err(Refusal::Denied { layer, rights }));
    /// assert_eq!(tables.port(Thread::MAIN, 81, AccessNet::CONNECT_TCP), Ok(()));
    /// # Ok::<(), Errno>(())
    /// ```
    pub fn port(
        &self,
        thread: Thread,
        port: u64,
        rights: AccessNet,
    ) -> Result<(), Refusal<AccessNet>> {
        let answer = Refusal::answer(AccessNet::from_bits, |report| {
            sys::port(self.shared(), thread.number(), port, rights.bits(), report)
        });
        answer.map(drop)
    }
}

/// # Requests between threads
///
/// A layer that handles a scope keeps its threads within it: they reach a thread exactly if that one has the layer too. So every
/// thread reaches itself and its clones, and, where no layer handles the scope, as everywhere below level 6, every thread.
impl Tables {
    /// Whether a thread may signal a thread: every layer of its domain that handles [`Scope::SIGNAL`](crate::Scope::SIGNAL) must
    /// also be one of the target's domain.
    ///
    /// Refusals, in order: tables not sound, EIO; thread or target not live, ESRCH; some such layer is not the target's, EPERM.
    ///
    /// ```
    /// # use skeinrabbit::*;
    /// let mut tables = Tables::new(Level::LATEST)?;
    /// let worker = tables.clone_thread(Thread::MAIN)?;
    /// tables.set_no_new_privs(worker)?;
    /// tables.ruleset().scope(Scope::SIGNAL).create()?.restrict(worker)?;
    /// let helper = tables.clone_thread(worker)?;
    /// assert_eq!(tables.signal(worker, Thread::MAIN), Err(Errno::EPERM));
    /// assert_eq!(tables.signal(worker, helper), Ok(()));
    /// assert_eq!(tables.signal(worker, worker), Ok(()));
    /// assert_eq!(tables.signal(Thread::MAIN, worker), Ok(()));
    /// # Ok::<(), Errno>(())
    /// ```
    pub fn signal(&self, thread: Thread, target: Thread) -> Result<(), Errno> {
        let raw = sys::signal(self.shared(), thread.number(), target.number());
        Errno::answer(raw).map(drop)
    }

    /// Whether a thread may reach a thread's abstract UNIX socket: the same as [`Tables::signal`] with
    /// [`Scope::ABSTRACT_UNIX_SOCKET`](crate::Scope::ABSTRACT_UNIX_SOCKET).
    ///
    /// Refusals, in order: tables not sound, EIO; thread or target not live, ESRCH; some such layer is not the target's, EPERM.
    ///
    /// ```
    /// # use skeinrabbit::*;
    /// let mut tables = Tables::new(Level::LATEST)?;
    /// let worker = tables.clone_thread(Thread::MAIN)?;
    /// tables.set_no_new_privs(worker)?;
    /// tables.ruleset().scope(Scope::ABSTRACT_UNIX_SOCKET).create()?.restrict(worker)?;
    /// assert_eq!(tables.abstract_socket(worker, Thread::MAIN), Err(Errno::EPERM));
    /// assert_eq!(tables.signal(worker, Thread::MAIN), Ok(()));
    /// tables.end(worker)?;
    /// assert_eq!(tables.abstract_socket(Thread::MAIN, worker), Err(Errno::ESRCH));
    /// # Ok::<(), Errno>(())
    /// ```
    pub fn abstract_socket(&self, thread: Thread, target: Thread) -> Result<(), Errno> {
        let raw = sys::abstract_socket(self.shared(), thread.number(), target.number());
        Errno::answer(raw).map(drop)
    }
}
