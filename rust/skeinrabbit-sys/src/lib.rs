//! The exported calls of the proved core, over slices of cells.
//!
//! Each call takes the seven tables as they are, of any length and contents, tests them itself, and answers the success number
//! or 2^64 minus an error number. The crate `skeinrabbit` has a typed interface over these.
//!
//! Calls that say more than their number write a report, of any length: the cells that fit are written, with every answer, and
//! cells past them stay. The report of a request about an entry or a port, or of a change of the tree, is the layer that refuses
//! (its number + 1, or 0 for none) and its rights; behind these an access reports how many entries' rules it read. The report about
//! policy files is the file (0 stock, 1 site), a place in it and a length. Only [`component`], [`post`] and [`find_policy`] take no
//! tables.
//!
//! The changes of the tree take a [`Log`], to which each one that changes an entry or a name is appended as a field: a tag, two bytes of
//! length, the value. A change whose field has no room is refused with ENOSPC after all its other refusals. A caller that keeps no log
//! gives that of a [`NoLog`].
#![no_std]

pub mod layout;

pub use layout::{LOG_FIELD_SIZE, NAMES_SIZE, SIZES};

/// The seven tables, for the calls that may change them.
pub struct Cells<'a> {
    pub system: &'a mut [u64],
    pub entries: &'a mut [u64],
    pub rulesets: &'a mut [u64],
    pub layers: &'a mut [u64],
    pub pool: &'a mut [u64],
    pub threads: &'a mut [u64],
    pub names: &'a mut [u8],
}

/// The seven tables, for the calls that change none.
#[derive(Clone, Copy)]
pub struct SharedCells<'a> {
    pub system: &'a [u64],
    pub entries: &'a [u64],
    pub rulesets: &'a [u64],
    pub layers: &'a [u64],
    pub pool: &'a [u64],
    pub threads: &'a [u64],
    pub names: &'a [u8],
}

impl Cells<'_> {
    /// These tables, to be read only.
    pub fn shared(&self) -> SharedCells<'_> {
        SharedCells {
            system: self.system,
            entries: self.entries,
            rulesets: self.rulesets,
            layers: self.layers,
            pool: self.pool,
            threads: self.threads,
            names: self.names,
        }
    }
}

/// A queue of access requests, for the calls that may change it.
pub struct QueueCells<'a> {
    /// 8 rows: thread, entry, rights.
    pub requests: &'a mut [u64],
    /// 0 empty, 1 waiting, 2 answered.
    pub states: &'a mut [u64],
    /// 8 rows: error number or 0, and what an access reports.
    pub answers: &'a mut [u64],
    /// The slot that was served last.
    pub cursor: &'a mut u64,
}

/// A log, for the changes of the tree.
pub struct Log<'a> {
    /// Its room.
    pub bytes: &'a mut [u8],
    /// How many of these are written. Any number is fine; behind the end there is no room.
    pub used: &'a mut u64,
}

/// A log of one change, which is dropped.
pub struct NoLog {
    field: [u8; LOG_FIELD_SIZE],
    used: u64,
}

impl NoLog {
    pub fn new() -> Self {
        Self {
            field: [0; LOG_FIELD_SIZE],
            used: 0,
        }
    }

    /// The log, empty.
    pub fn log(&mut self) -> Log<'_> {
        self.used = 0;
        Log {
            bytes: &mut self.field,
            used: &mut self.used,
        }
    }
}

impl Default for NoLog {
    fn default() -> Self {
        Self::new()
    }
}

/// The pointer to a table's cells; one to be written through comes from an exclusive slice alone.
macro_rules! pointer {
    (const $cells:expr) => {
        $cells.as_ptr()
    };
    (mut $cells:expr) => {
        $cells.as_mut_ptr()
    };
}

/// A call: its function, and its export with `mut` for each table that it may change, in the order of the fields of [`Cells`],
/// and with what it is given after the tables.
macro_rules! call {
    (
        $(#[$doc:meta])*
        $name:ident($tables:ident: $bundle:ty $(, $arg:ident: $type:ty)*),
        $export:ident[$system:tt $entries:tt $rulesets:tt $layers:tt $pool:tt $threads:tt $names:tt]
        ($($value:expr => $raw:ty),*)
    ) => {
        extern "C" {
            fn $export(
                system: *$system u64,
                system_len: usize,
                entries: *$entries u64,
                entries_len: usize,
                rulesets: *$rulesets u64,
                rulesets_len: usize,
                layers: *$layers u64,
                layers_len: usize,
                pool: *$pool u64,
                pool_len: usize,
                threads: *$threads u64,
                threads_len: usize,
                names: *$names u8,
                names_len: usize,
                $(_: $raw),*
            ) -> u64;
        }

        $(#[$doc])*
        pub fn $name($tables: $bundle $(, $arg: $type)*) -> u64 {
            // Each pointer comes with the length of its slice, which is borrowed until the call is over. The core stays within the
            // lengths, keeps no pointer, and writes through the `mut` ones alone, whose slices nothing else holds meanwhile.
            unsafe {
                $export(
                    pointer!($system $tables.system),
                    $tables.system.len(),
                    pointer!($entries $tables.entries),
                    $tables.entries.len(),
                    pointer!($rulesets $tables.rulesets),
                    $tables.rulesets.len(),
                    pointer!($layers $tables.layers),
                    $tables.layers.len(),
                    pointer!($pool $tables.pool),
                    $tables.pool.len(),
                    pointer!($threads $tables.threads),
                    $tables.threads.len(),
                    pointer!($names $tables.names),
                    $tables.names.len(),
                    $($value),*
                )
            }
        }
    };
}

/// The calls whose arguments are all numbers.
macro_rules! calls {
    ($(
        $(#[$doc:meta])*
        $name:ident($tables:ident: $bundle:ty $(, $arg:ident)*), $export:ident $access:tt;
    )*) => {
        $(call! {
            $(#[$doc])*
            $name($tables: $bundle $(, $arg: u64)*), $export $access ($($arg => u64),*)
        })*
    };
}

/// The calls whose arguments are numbers and a report.
macro_rules! reporting_calls {
    ($(
        $(#[$doc:meta])*
        $name:ident($tables:ident: $bundle:ty $(, $arg:ident)*), $export:ident $access:tt;
    )*) => {
        $(call! {
            $(#[$doc])*
            $name($tables: $bundle $(, $arg: u64)*, report: &mut [u64]), $export $access
            ($($arg => u64,)* report.as_mut_ptr() => *mut u64, report.len() => usize)
        })*
    };
}

calls! {
    /// Fresh tables at a level.
    fresh(tables: &mut Cells, level),
        skein_fresh[mut mut mut mut mut mut mut];
    /// Closes a ruleset.
    close_ruleset(tables: &mut Cells, ruleset),
        skein_close_ruleset[const const mut const const const const];
    /// Adds a rule for an entry's object.
    add_path_rule(tables: &mut Cells, ruleset, entry, rights, flags),
        skein_add_path_rule[const const mut const const const const];
    /// Adds a rule for a port.
    add_port_rule(tables: &mut Cells, ruleset, port, rights, flags),
        skein_add_port_rule[const const mut const const const const];
    /// Gives a thread a layer made of a ruleset.
    restrict(tables: &mut Cells, thread, ruleset, flags),
        skein_restrict[mut const const mut mut mut const];
    /// Clones a thread; answers the new thread.
    clone(tables: &mut Cells, thread),
        skein_clone[const const const mut const mut const];
    /// Ends a thread; layers that no live thread reaches any more are given back.
    end(tables: &mut Cells, thread),
        skein_end[mut const const mut mut mut const];
    /// Sets a thread's no_new_privs mark.
    set_no_new_privs(tables: &mut Cells, thread),
        skein_set_no_new_privs[const const const const const mut const];
    /// Sets a thread's admin mark, or clears it where `on` is 0.
    set_admin(tables: &mut Cells, thread, on),
        skein_set_admin[const const const const const mut const];
    /// Whether a thread may signal a thread.
    signal(tables: SharedCells, thread, target),
        skein_signal[const const const const const const const];
    /// Whether a thread may reach a thread's abstract UNIX socket.
    abstract_socket(tables: SharedCells, thread, target),
        skein_abstract_socket[const const const const const const const];
}

reporting_calls! {
    /// Where a layer's rules stand in the pool. Reports the first cell and the number of cells; zeros with a refusal.
    layer_rules(tables: SharedCells, layer),
        skein_layer_rules[const const const const const const const];
    /// Whether a thread may use an entry with the rights.
    access(tables: SharedCells, thread, entry, rights),
        skein_access[const const const const const const const];
    /// Whether a thread may use a port with the rights.
    port(tables: SharedCells, thread, port, rights),
        skein_port[const const const const const const const];
}

/// The changes of the tree, whose arguments are numbers and perhaps a name; then come the log and the report.
macro_rules! changes {
    ($(
        $(#[$doc:meta])*
        $name:ident($($arg:ident),* $(; $text:ident)?), $export:ident $access:tt;
    )*) => {
        $(call! {
            $(#[$doc])*
            $name(tables: &mut Cells $(, $arg: u64)* $(, $text: &[u8])?, log: &mut Log, report: &mut [u64]), $export $access
            (
                $($arg => u64,)*
                $($text.as_ptr() => *const u8, $text.len() => usize,)?
                log.bytes.as_mut_ptr() => *mut u8,
                log.bytes.len() => usize,
                &mut *log.used => *mut u64,
                report.as_mut_ptr() => *mut u64,
                report.len() => usize
            )
        })*
    };
}

changes! {
    /// Creates an entry of a kind in a directory, with a name; answers its number.
    create(thread, directory, kind; name), skein_create[mut mut const const const const mut];
    /// Removes an entry.
    remove(thread, entry), skein_remove[const mut const const const const mut];
    /// Links an entry into a directory, with a name; answers the new entry.
    link(thread, source, directory; name), skein_link[const mut const const const const mut];
    /// Moves an entry to a directory and gives it a name, in place of the entry that bears it there.
    rename(thread, source, directory; name), skein_rename[const mut const const const const mut];
    /// Exchanges an entry with an entry of a directory.
    exchange(thread, source, directory, entry), skein_exchange[const mut const const const const mut];
}

call! {
    /// Makes the changes of the written bytes of a log again, without threads and verdicts; answers how many bytes at their tail are no
    /// whole field.
    replay(tables: &mut Cells, log: &[u8]),
    skein_replay[mut mut const const const const mut]
    (log.as_ptr() => *const u8, log.len() => usize)
}

call! {
    /// Opens a ruleset from the bytes of its attribute; answers its number.
    create_ruleset(tables: &mut Cells, bytes: &[u8], flags: u64),
    skein_create_ruleset[const const mut const const const const]
    (bytes.as_ptr() => *const u8, bytes.len() => usize, flags => u64)
}

call! {
    /// Looks an absolute path up; answers the entry's number.
    lookup(tables: SharedCells, path: &[u8]),
    skein_lookup[const const const const const const const]
    (path.as_ptr() => *const u8, path.len() => usize)
}

call! {
    /// Answers the next waiting slot of a queue, which stands behind the tables; answers its number, or 8 where none waits.
    turn(tables: SharedCells, queue: &mut QueueCells),
    skein_turn[const const const const const const const]
    (
        queue.requests.as_ptr() => *const u64,
        queue.requests.len() => usize,
        queue.states.as_mut_ptr() => *mut u64,
        queue.states.len() => usize,
        queue.answers.as_mut_ptr() => *mut u64,
        queue.answers.len() => usize,
        &mut *queue.cursor => *mut u64
    )
}

call! {
    /// Answers requests of 7 cells, each with 3 cells: what its call would answer on these tables up to and with the verdict. Answers
    /// EINVAL and writes nothing where a request is of another sort, the list ends within a request, or the answers have too little
    /// room; else 0.
    ///
    /// A request: sort (1 access, 2 port, 3 link, 4 rename, 5 exchange), thread, three numbers, and where its name starts in `names`
    /// and how long it is. The numbers are entry and rights for an access, port and rights for a port, source and directory for link and
    /// rename, source, directory and entry for an exchange. Cells that a sort does not use are not read. An answer: error number or 0,
    /// the layer that refuses (its number + 1, or 0 for none), its rights.
    batch(tables: SharedCells, requests: &[u64], names: &[u8], answers: &mut [u64]),
    skein_batch[const const const const const const const]
    (
        requests.as_ptr() => *const u64,
        requests.len() => usize,
        names.as_ptr() => *const u8,
        names.len() => usize,
        answers.as_mut_ptr() => *mut u64,
        answers.len() => usize
    )
}

call! {
    /// Opens a ruleset as policy files have it under a name; answers its number. Reports as [`find_policy`] does; zeros where a call
    /// that it makes is refused or the tables are not sound.
    apply_policy(tables: &mut Cells, stock: &[u8], site: &[u8], name: &[u8], report: &mut [u64]),
    skein_apply_policy[const const mut const const const const]
    (
        stock.as_ptr() => *const u8,
        stock.len() => usize,
        site.as_ptr() => *const u8,
        site.len() => usize,
        name.as_ptr() => *const u8,
        name.len() => usize,
        report.as_mut_ptr() => *mut u64,
        report.len() => usize
    )
}

call! {
    /// Writes the policy file of an open ruleset under a name; answers its length. Bytes past it stay, and all of them where the
    /// call is refused.
    write_policy(tables: SharedCells, ruleset: u64, name: &[u8], out: &mut [u8]),
    skein_write_policy[const const const const const const const]
    (
        ruleset => u64,
        name.as_ptr() => *const u8,
        name.len() => usize,
        out.as_mut_ptr() => *mut u8,
        out.len() => usize
    )
}

/// Puts an access request into a slot of a queue, where it waits for a turn.
pub fn post(queue: &mut QueueCells, slot: u64, thread: u64, entry: u64, rights: u64) -> u64 {
    extern "C" {
        fn skein_post(
            requests: *mut u64,
            requests_len: usize,
            states: *mut u64,
            states_len: usize,
            answers: *const u64,
            answers_len: usize,
            cursor: *mut u64,
            slot: u64,
            thread: u64,
            entry: u64,
            rights: u64,
        ) -> u64;
    }
    // As for the other calls; the four parts of the queue cannot overlap.
    unsafe {
        skein_post(
            queue.requests.as_mut_ptr(),
            queue.requests.len(),
            queue.states.as_mut_ptr(),
            queue.states.len(),
            queue.answers.as_ptr(),
            queue.answers.len(),
            queue.cursor,
            slot,
            thread,
            entry,
            rights,
        )
    }
}

/// Where the first component of a path starts that starts at or after a place. Reports its start and its length; zeros where
/// there is none.
pub fn component(path: &[u8], place: u64, report: &mut [u64]) -> u64 {
    extern "C" {
        fn skein_component(
            path: *const u8,
            path_len: usize,
            place: u64,
            report: *mut u64,
            report_len: usize,
        ) -> u64;
    }
    // As for the other calls; the path and the report cannot overlap.
    unsafe {
        skein_component(
            path.as_ptr(),
            path.len(),
            place,
            report.as_mut_ptr(),
            report.len(),
        )
    }
}

/// Where the ruleset of a name stands in two policy files, of which the site's goes first. Answers 0 and reports the file (0 stock,
/// 1 site), where its part begins and how long it is; with EBADMSG the damaged file, the place of the fault and 0; with E2BIG the file
/// that is too long, 0 and 0; with ENOENT zeros.
pub fn find_policy(stock: &[u8], site: &[u8], name: &[u8], report: &mut [u64]) -> u64 {
    extern "C" {
        fn skein_find_policy(
            stock: *const u8,
            stock_len: usize,
            site: *const u8,
            site_len: usize,
            name: *const u8,
            name_len: usize,
            report: *mut u64,
            report_len: usize,
        ) -> u64;
    }
    // As for the other calls; the files and the name are only read, so they may overlap.
    unsafe {
        skein_find_policy(
            stock.as_ptr(),
            stock.len(),
            site.as_ptr(),
            site.len(),
            name.as_ptr(),
            name.len(),
            report.as_mut_ptr(),
            report.len(),
        )
    }
}
