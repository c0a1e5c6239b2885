//! Why a request or a change of the tree is refused.
use crate::errno::Errno;
use crate::numbers::Layer;
use crate::rights::AccessFs;
use core::fmt;

/// The refusal of a request or of a change of the tree.
///
/// Where a layer refuses, this says which layer and which rights: of the layers of the thread's domain, the youngest with such
/// rights. They are [`AccessFs`](crate::AccessFs), for a port [`AccessNet`](crate::AccessNet). Whoever needs the number alone
/// makes it an [`Errno`], as `?` does.
///
/// ```
/// # use skeinrabbit::*;
/// let mut tables = Tables::new(Level::LATEST)?;
/// let folder = tables.create(Thread::MAIN, Entry::ROOT, Kind::DIRECTORY, "folder")?;
/// let file = tables.create(Thread::MAIN, folder, Kind::REGULAR, "file")?;
/// tables.set_no_new_privs(Thread::MAIN)?;
/// let open = tables.ruleset().handle_fs(AccessFs::ALL).create()?;
/// let layer = open.add_path(folder, AccessFs::ALL - AccessFs::MAKE_DIR)?.restrict(Thread::MAIN)?;
///
/// let rights = AccessFs::READ_DIR | AccessFs::REFER;
/// let refused = tables.access(Thread::MAIN, Entry::ROOT, rights);
/// assert_eq!(refused, Err(Refusal::Denied { layer, rights }));
/// assert_eq!(refused.map_err(Errno::from), Err(Errno::EACCES));
/// // The file may leave its folder, but none may be made at the root.
/// let rights = AccessFs::MAKE_REG;
/// let refused = tables.rename(Thread::MAIN, file, Entry::ROOT, "file");
/// assert_eq!(refused, Err(Refusal::Denied { layer, rights }));
/// assert_eq!(tables.remove(Thread::MAIN, Entry::ROOT), Err(Refusal::Other(Errno::EBUSY)));
/// # Ok::<(), Errno>(())
/// ```
#[derive(Clone, Copy, Debug, PartialEq, Eq, PartialOrd, Ord, Hash)]
pub enum Refusal<R> {
    /// EACCES: the layer denies rights that are asked for or, other than REFER, needed for the change.
    Denied {
        /// The layer.
        layer: Layer,
        /// What it denies: of a request all that was asked for, of a change what is needed at either directory.
        rights: R,
    },
    /// EXDEV, between two directories: the layer denies REFER at one of them, or what is moved would gain rights.
    Crossing {
        /// The layer.
        layer: Layer,
        /// REFER where the layer denies it, otherwise what would be gained; by an exchange, by either entry.
        rights: R,
    },
    /// Any other refusal, which is no layer's.
    Other(Errno),
}

impl<R> Refusal<R> {
    /// The number.
    pub fn errno(&self) -> Errno {
        match self {
            Refusal::Denied { .. } => Errno::EACCES,
            Refusal::Crossing { .. } => Errno::EXDEV,
            Refusal::Other(errno) => *errno,
        }
    }

    /// Makes a call that reports the layer and its rights; tells a success from a refusal.
    pub(crate) fn answer(
        of_bits: fn(u64) -> R,
        call: impl FnOnce(&mut [u64]) -> u64,
    ) -> Result<u64, Self> {
        Self::reported(of_bits, call).0
    }

    /// Makes a call that reports the layer (its number + 1, or 0 for none), its rights and, if it is an access, how many entries'
    /// rules were read; answers the latter too.
    pub(crate) fn reported(
        of_bits: fn(u64) -> R,
        call: impl FnOnce(&mut [u64]) -> u64,
    ) -> (Result<u64, Self>, u64) {
        let mut report = [0; 3];
        let raw = call(&mut report);
        let [layer, bits, entries_read] = report;
        let answer = Errno::answer(raw);
        let answer = answer.map_err(|errno| Self::named(errno, layer, of_bits(bits)));
        (answer, entries_read)
    }

    /// The refusal of a number, with the layer that a report names (its number + 1, or 0 for none) and its rights.
    pub(crate) fn named(errno: Errno, layer: u64, rights: R) -> Self {
        match (errno, Layer::from_cell(layer)) {
            (Errno::EACCES, Some(layer)) => Refusal::Denied { layer, rights },
            (Errno::EXDEV, Some(layer)) => Refusal::Crossing { layer, rights },
            _ => Refusal::Other(errno),
        }
    }
}

/// What an access answers, and what it took.
#[derive(Clone, Copy, Debug, PartialEq, Eq)]
#[must_use]
pub struct Judged {
    /// Whether all of the rights are granted.
    pub answer: Result<(), Refusal<AccessFs>>,
    /// How many entries' rules were read. A layer reads from the entry up until none of the rights asked for that it handles is
    /// missing, no entry where it handles none of them, and all up to the root where it denies some. The number is that of the
    /// layer that reads most; 0 where the access was refused for another reason.
    pub entries_read: u64,
}

impl<R> From<Errno> for Refusal<R> {
    fn from(errno: Errno) -> Self {
        Refusal::Other(errno)
    }
}

impl<R> From<Refusal<R>> for Errno {
    fn from(refusal: Refusal<R>) -> Self {
        refusal.errno()
    }
}

/// The error's name and, where a layer refuses, which one and which rights.
impl<R: fmt::Display> fmt::Display for Refusal<R> {
    fn fmt(&self, f: &mut fmt::Formatter<'_>) -> fmt::Result {
        match self {
            Refusal::Denied { layer, rights } => write!(f, "EACCES: layer {layer} denies {rights}"),
            Refusal::Crossing { layer, rights } => {
                write!(f, "EXDEV: layer {layer} refuses the move for {rights}")
            }
            Refusal::Other(errno) => errno.fmt(f),
        }
    }
}

impl<R: fmt::Debug + fmt::Display> core::error::Error for Refusal<R> {}
