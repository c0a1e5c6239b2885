//! The calls that change the tree: create, remove, link, rename, exchange.

use crate::judge::Move;
use crate::names::well_named;
use crate::refusal::{Answer, Refusal};
use crate::rights::Rights;
use crate::state::{lowest_free, Entry, Kind, Model, MAX_ENTRIES, OBJECTS_END, ROOT};

/// The rights a call needs at the source's parent and at the target directory, REFER aside.
pub struct Needs {
    pub at_parent: Rights,
    pub at_target: Rights,
}

impl Needs {
    pub fn of_link(linked: Kind) -> Needs {
        Needs {
            at_parent: Rights::NONE,
            at_target: linked.make(),
        }
    }

    pub fn of_rename(moved: Kind, replaced: Option<Kind>) -> Needs {
        let remove_replaced = replaced.map_or(Rights::NONE, Kind::remove);
        Needs {
            at_parent: moved.remove(),
            at_target: moved.make().join(remove_replaced),
        }
    }

    pub fn of_exchange(k1: Kind, k2: Kind) -> Needs {
        Needs {
            at_parent: k1.remove().join(k2.make()),
            at_target: k1.make().join(k2.remove()),
        }
    }
}

/// What a rename replaces.
pub enum Replaced {
    Nothing,
    /// The source or a hard link of it: nothing changes.
    Itself,
    Other(u64),
}

/// The entries that a call of two directories names.
struct Named {
    /// The youngest layer of the calling thread's domain.
    youngest: Option<usize>,
    source: Entry,
    /// The entry that is exchanged.
    other: Option<Entry>,
}

impl Model {
    pub fn create(&mut self, thread: u64, directory: u64, kind: u64, name: &[u8]) -> Answer {
        let youngest = self.thread(thread)?.youngest;
        let target = self.entry(directory)?;
        needs_directory(target)?;
        self.new_name(directory, name)?;
        let kind = Kind::of_number(kind).ok_or(Refusal::UnknownKind)?;
        self.needs_right(youngest, directory, kind.make())?;
        let number = self.free_row()?;
        if self.next_object == OBJECTS_END {
            return Err(Refusal::NoObjectNumber);
        }
        let entry = Entry {
            kind,
            parent: directory,
            object: self.next_object,
        };
        self.next_object += 1;
        self.add_entry(number, entry, name);
        Ok(number)
    }

    pub fn remove(&mut self, thread: u64, entry: u64) -> Answer {
        let youngest = self.thread(thread)?.youngest;
        let removed = self.entry(entry)?;
        not_root(entry)?;
        self.needs_right(youngest, removed.parent, removed.kind.remove())?;
        if self.has_children(entry) {
            return Err(Refusal::DirectoryNotEmpty);
        }
        self.free_entry(entry);
        Ok(0)
    }

    pub fn link(&mut self, thread: u64, source: u64, directory: u64, name: &[u8]) -> Answer {
        let linked = self.link_verdict(thread, source, directory, name)?;
        let number = self.free_row()?;
        let parent = directory;
        self.add_entry(number, Entry { parent, ..linked }, name);
        Ok(number)
    }

    /// The checks of a link up to and with its verdict; answers the source.
    pub fn link_verdict(
        &self,
        thread: u64,
        source: u64,
        directory: u64,
        name: &[u8],
    ) -> Result<Entry, Refusal> {
        let named = self.named(thread, source, directory, None)?;
        self.new_name(directory, name)?;
        let linked = named.source;
        if linked.kind.is_directory() {
            return Err(Refusal::LinkOfDirectory);
        }
        self.verdict(&named, directory, Needs::of_link(linked.kind))?;
        self.moved_safely(&named, source, directory)?;
        Ok(linked)
    }

    /// Moves an entry to a directory, where it takes a name; the entry that bears it is replaced.
    pub fn rename(&mut self, thread: u64, source: u64, directory: u64, name: &[u8]) -> Answer {
        self.rename_verdict(thread, source, directory, name)?;
        match self.replaced(source, directory, name)? {
            Replaced::Itself => return Ok(0),
            Replaced::Other(number) => self.free_entry(number),
            Replaced::Nothing => {}
        }
        self.put_entry(source, directory, name);
        Ok(0)
    }

    /// The checks of a rename up to and with its verdict.
    pub fn rename_verdict(
        &self,
        thread: u64,
        source: u64,
        directory: u64,
        name: &[u8],
    ) -> Result<(), Refusal> {
        let named = self.named(thread, source, directory, None)?;
        well_named(name)?;
        self.not_above(source, directory, Refusal::SourceAboveTarget)?;
        let moved = named.source;
        let needs = Needs::of_rename(moved.kind, self.replaced_kind(directory, name));
        self.verdict(&named, directory, needs)?;
        self.moved_safely(&named, source, directory)
    }

    /// What a rename of live entries replaces, if that may be replaced.
    pub fn replaced(&self, source: u64, directory: u64, name: &[u8]) -> Result<Replaced, Refusal> {
        let Some(number) = self.names.bearer(directory, name) else {
            return Ok(Replaced::Nothing);
        };
        let (moved, replaced) = (self.entries[&source], self.entries[&number]);
        if replaced.object == moved.object {
            return Ok(Replaced::Itself);
        }
        self.replaceable(moved, number, replaced)?;
        Ok(Replaced::Other(number))
    }

    /// The kind of the entry that a rename to a name replaces, if there is one.
    pub fn replaced_kind(&self, directory: u64, name: &[u8]) -> Option<Kind> {
        let bearer = self.names.bearer(directory, name);
        bearer.map(|number| self.entries[&number].kind)
    }

    pub fn exchange(&mut self, thread: u64, source: u64, directory: u64, entry: u64) -> Answer {
        self.exchange_verdict(thread, source, directory, entry)?;
        if self.entries[&entry].object != self.entries[&source].object {
            self.swap_entries(source, entry);
        }
        Ok(0)
    }

    /// The checks of an exchange, of which the verdict is the last.
    pub fn exchange_verdict(
        &self,
        thread: u64,
        source: u64,
        directory: u64,
        entry: u64,
    ) -> Result<(), Refusal> {
        let named = self.named(thread, source, directory, Some(entry))?;
        let parent = named.source.parent;
        self.child_of_target(&named, directory)?;
        self.not_above(source, directory, Refusal::SourceAboveTarget)?;
        self.not_above(entry, parent, Refusal::OtherAboveSource)?;
        let other = self.entry(entry)?;
        let needs = Needs::of_exchange(named.source.kind, other.kind);
        self.verdict(&named, directory, needs)?;
        self.moved_safely(&named, source, directory)?;
        let back = Move {
            entry,
            from: directory,
            to: parent,
        };
        if !self.contained(named.youngest, back) {
            return Err(Refusal::OtherNotContained);
        }
        Ok(())
    }

    /// The checks that link, rename and exchange share.
    fn named(
        &self,
        thread: u64,
        source: u64,
        directory: u64,
        other: Option<u64>,
    ) -> Result<Named, Refusal> {
        let named = Named {
            youngest: self.thread(thread)?.youngest,
            source: self.entry(source)?,
            other: other.map(|other| self.entry(other)).transpose()?,
        };
        let target = self.entry(directory)?;
        not_root(source)?;
        other.map_or(Ok(()), not_root)?;
        needs_directory(target)?;
        Ok(named)
    }

    fn child_of_target(&self, named: &Named, directory: u64) -> Result<(), Refusal> {
        match named.other {
            Some(other) if other.parent != directory => Err(Refusal::NotChildOfTarget),
            _ => Ok(()),
        }
    }

    /// Refuses where `upper` is `lower` or above it.
    fn not_above(&self, upper: u64, lower: u64, refusal: Refusal) -> Result<(), Refusal> {
        if self.way_up(lower).contains(&upper) {
            Err(refusal)
        } else {
            Ok(())
        }
    }

    /// Refuses where the domain denies a right at a directory.
    fn needs_right(
        &self,
        youngest: Option<usize>,
        directory: u64,
        right: Rights,
    ) -> Result<(), Refusal> {
        if self.denied_by_domain(youngest, directory).meets(right) {
            Err(Refusal::AccessDenied)
        } else {
            Ok(())
        }
    }

    /// Refuses a denied need at either directory, then a denied REFER between two directories.
    fn verdict(&self, named: &Named, directory: u64, needs: Needs) -> Result<(), Refusal> {
        let parent = named.source.parent;
        let at_parent = self.denied_by_domain(named.youngest, parent);
        let at_target = self.denied_by_domain(named.youngest, directory);
        if at_parent.meets(needs.at_parent) || at_target.meets(needs.at_target) {
            return Err(Refusal::AccessDenied);
        }
        if parent != directory && at_parent.join(at_target).meets(Rights::REFER) {
            return Err(Refusal::ReferDenied);
        }
        Ok(())
    }

    /// Refuses a move through which the moved entry or something below it would gain a right.
    fn moved_safely(&self, named: &Named, source: u64, directory: u64) -> Result<(), Refusal> {
        let there = Move {
            entry: source,
            from: named.source.parent,
            to: directory,
        };
        if self.contained(named.youngest, there) {
            Ok(())
        } else {
            Err(Refusal::NotContained)
        }
    }

    /// Refuses a replacement between a directory and something else, or of a directory in use.
    fn replaceable(&self, moved: Entry, number: u64, other: Entry) -> Result<(), Refusal> {
        match (moved.kind.is_directory(), other.kind.is_directory()) {
            (true, false) => Err(Refusal::DirectoryOverFile),
            (false, true) => Err(Refusal::FileOverDirectory),
            _ if self.has_children(number) => Err(Refusal::DirectoryNotEmpty),
            _ => Ok(()),
        }
    }

    /// Refuses a name that is none or that is taken in a directory.
    fn new_name(&self, directory: u64, name: &[u8]) -> Result<(), Refusal> {
        well_named(name)?;
        match self.names.bearer(directory, name) {
            Some(_) => Err(Refusal::NameTaken),
            None => Ok(()),
        }
    }

    /// The number of the next new entry.
    pub fn free_row(&self) -> Answer {
        lowest_free(&self.entries, MAX_ENTRIES).ok_or(Refusal::NoFreeEntry)
    }
}

fn not_root(entry: u64) -> Result<(), Refusal> {
    if entry == ROOT {
        Err(Refusal::RootNamed)
    } else {
        Ok(())
    }
}

fn needs_directory(target: Entry) -> Result<(), Refusal> {
    if target.kind.is_directory() {
        Ok(())
    } else {
        Err(Refusal::TargetNotDirectory)
    }
}
