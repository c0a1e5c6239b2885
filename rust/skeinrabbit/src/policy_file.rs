//! Policy files: a ruleset by its name in two of them, found and applied, and written into one.
use crate::errno::Errno;
use crate::numbers::Ruleset;
use crate::tables::Tables;
use alloc::vec;
use alloc::vec::Vec;
use core::fmt;
use skeinrabbit_sys as sys;
use sys::layout::{MAX_POLICY, POLICY_REPORT_WIDTH};

/// Which of the two policy files.
#[derive(Clone, Copy, Debug, PartialEq, Eq, PartialOrd, Ord, Hash)]
pub enum PolicyFile {
    /// The file that comes with a system.
    Stock,
    /// The file of the place where it runs: its rulesets go before those of the stock file.
    Site,
}

impl PolicyFile {
    fn of_cell(cell: u64) -> Self {
        match cell {
            0 => PolicyFile::Stock,
            _ => PolicyFile::Site,
        }
    }
}

impl fmt::Display for PolicyFile {
    fn fmt(&self, f: &mut fmt::Formatter<'_>) -> fmt::Result {
        f.pad(match self {
            PolicyFile::Stock => "stock",
            PolicyFile::Site => "site",
        })
    }
}

/// A ruleset's part of a policy file: from its tag 1 up to the next ruleset or the file's end.
#[derive(Clone, Copy, Debug, PartialEq, Eq)]
pub struct PolicyPart<'a> {
    /// The file that it stands in.
    pub file: PolicyFile,
    /// The place of its first byte there.
    pub place: usize,
    /// The part itself, not a copy.
    pub bytes: &'a [u8],
}

/// Why there is no ruleset of a name in two policy files, or why it was not applied. Whoever needs the number alone makes it an
/// [`Errno`], as `?` does.
#[derive(Clone, Copy, Debug, PartialEq, Eq, PartialOrd, Ord, Hash)]
pub enum PolicyRefusal {
    /// E2BIG: the file is longer than 32,768 bytes.
    TooBig {
        /// The file.
        file: PolicyFile,
    },
    /// EBADMSG: the file is damaged.
    Damaged {
        /// The file.
        file: PolicyFile,
        /// Where its first faulty field has its tag; the file's length where only the masks of the last ruleset are missing.
        place: usize,
    },
    /// ENOENT: neither file has a ruleset of the name.
    Missing,
    /// The refusal of a call that an application makes.
    Call(Errno),
}

impl PolicyRefusal {
    /// The number.
    pub fn errno(&self) -> Errno {
        match self {
            PolicyRefusal::TooBig { .. } => Errno::E2BIG,
            PolicyRefusal::Damaged { .. } => Errno::EBADMSG,
            PolicyRefusal::Missing => Errno::ENOENT,
            PolicyRefusal::Call(errno) => *errno,
        }
    }
}

impl From<PolicyRefusal> for Errno {
    fn from(refusal: PolicyRefusal) -> Self {
        refusal.errno()
    }
}

/// The error's name and, where a file is the reason, which one and where.
impl fmt::Display for PolicyRefusal {
    fn fmt(&self, f: &mut fmt::Formatter<'_>) -> fmt::Result {
        match self {
            PolicyRefusal::TooBig { file } => write!(f, "E2BIG: the {file} file is too long"),
            PolicyRefusal::Damaged { file, place } => {
                write!(f, "EBADMSG: the {file} file is damaged at byte {place}")
            }
            PolicyRefusal::Missing => f.write_str("ENOENT: neither file has the ruleset"),
            PolicyRefusal::Call(errno) => errno.fmt(f),
        }
    }
}

impl core::error::Error for PolicyRefusal {}

/// The ruleset of a name in two policy files: the site's if it has one, otherwise the stock's. The answer is a part of one of the
/// two.
///
/// Both files are read whole first. Refusals, in order: stock longer than 32,768 bytes, E2BIG; stock damaged, EBADMSG; the same of
/// site; neither has the name, ENOENT. An empty file is fine and has no ruleset.
///
/// ```
/// # use skeinrabbit::*;
/// let mut stock = vec![1, 1, 0, b'p', 2, 24, 0];
/// stock.extend(Attribute { fs: AccessFs::READ_FILE, ..Attribute::default() }.to_bytes());
/// let part = find_policy(&stock, &[], "p")?;
/// assert_eq!((part.file, part.place, part.bytes), (PolicyFile::Stock, 0, &stock[..]));
///
/// assert_eq!(find_policy(&stock, &[], "q"), Err(PolicyRefusal::Missing));
/// // A ruleset without its masks, and one that takes a name twice.
/// let file = PolicyFile::Site;
/// assert_eq!(find_policy(&stock, &stock[..4], "p"), Err(PolicyRefusal::Damaged { file, place: 4 }));
/// let twice = [&stock[..], &stock].concat();
/// assert_eq!(find_policy(&stock, &twice, "p"), Err(PolicyRefusal::Damaged { file, place: 31 }));
/// assert_eq!(find_policy(&stock, &[0; 32_769], "p"), Err(PolicyRefusal::TooBig { file }));
/// # Ok::<(), PolicyRefusal>(())
/// ```
pub fn find_policy<'a>(
    stock: &'a [u8],
    site: &'a [u8],
    name: impl AsRef<[u8]>,
) -> Result<PolicyPart<'a>, PolicyRefusal> {
    let mut report = [0; POLICY_REPORT_WIDTH];
    let raw = sys::find_policy(stock, site, name.as_ref(), &mut report);
    let [file, place, length] = report;
    let file = PolicyFile::of_cell(file);
    // Places and lengths are those of files in memory.
    let [place, length] = [place, length].map(|cell| usize::try_from(cell).unwrap_or(usize::MAX));
    Errno::answer(raw).map_err(|errno| match errno {
        Errno::E2BIG => PolicyRefusal::TooBig { file },
        Errno::EBADMSG => PolicyRefusal::Damaged { file, place },
        Errno::ENOENT => PolicyRefusal::Missing,
        other => PolicyRefusal::Call(other),
    })?;
    let bytes = match file {
        PolicyFile::Stock => stock,
        PolicyFile::Site => site,
    };
    // The core gives a part that lies in the file.
    let part = bytes.get(place..place.saturating_add(length));
    let bytes = part.unwrap_or_default();
    Ok(PolicyPart { file, place, bytes })
}

/// # Policy files
impl Tables {
    /// Opens a ruleset as policy files have it under a name, and answers its number: [`find_policy`], then
    /// [`Tables::create_ruleset`] with its masks and, in the order of the file, [`Tables::lookup`] and [`Tables::add_path_rule`]
    /// for a path rule, [`Tables::add_port_rule`] for a port rule. Rules in a group are added only where the level reaches the
    /// group's number and those of the groups around it; where the ruleset has a group, counted or not, mask bits that only higher
    /// levels know are left out. The first call that is refused ends it, and the ruleset is closed
    /// again: nothing has changed then.
    ///
    /// Refusals, in order: tables not sound, EIO; those of [`find_policy`]; those of the calls.
    ///
    /// ```
    /// # use skeinrabbit::*;
    /// let mut tables = Tables::new(Level::LATEST)?;
    /// let cal = tables.create(Thread::MAIN, Entry::ROOT, Kind::DIRECTORY, "cal")?;
    /// let mut stock = vec![1, 1, 0, b'p', 2, 24, 0];
    /// stock.extend(Attribute { fs: AccessFs::READ_FILE, ..Attribute::default() }.to_bytes());
    /// stock.extend([3, 12, 0, 4, 0, 0, 0, 0, 0, 0, 0]);
    /// stock.extend(b"/cal");
    /// let ruleset = tables.apply_policy(&stock, &[], "p")?;
    /// let rules = tables.open_ruleset(ruleset).map(|row| row.rules.len());
    /// assert_eq!(rules, Some(1));
    ///
    /// tables.remove(Thread::MAIN, cal)?;
    /// let before = tables.clone();
    /// let refused = tables.apply_policy(&stock, &[], "p");
    /// assert_eq!(refused, Err(PolicyRefusal::Call(Errno::ENOENT))); // there is no /cal any more
    /// assert_eq!(tables, before);
    /// assert_eq!(tables.apply_policy(&stock, &[], "q"), Err(PolicyRefusal::Missing));
    /// # Ok::<(), Errno>(())
    /// ```
    pub fn apply_policy(
        &mut self,
        stock: &[u8],
        site: &[u8],
        name: impl AsRef<[u8]>,
    ) -> Result<Ruleset, PolicyRefusal> {
        let name = name.as_ref();
        let raw = sys::apply_policy(&mut self.raw(), stock, site, name, &mut []);
        Errno::answer(raw).map(Ruleset::new).map_err(|errno| {
            // The number alone does not tell a ruleset that is not there from a path, nor a file that is too long from too many
            // rules. Where the files are fine and have the ruleset, or the tables are not sound, a call was refused.
            let of_files = find_policy(stock, site, name).err();
            let of_files = of_files.filter(|refusal| refusal.errno() == errno);
            of_files.unwrap_or(PolicyRefusal::Call(errno))
        })
    }

    /// Writes an open ruleset as a policy file of this one ruleset under a name, and answers how many bytes it has. Behind them `out`
    /// stays as it is, and with a refusal all of it.
    ///
    /// After the name and the masks come the path rules by their paths in byte order, then the port rules by rising ports; no groups,
    /// and each rule with all its rights. A rule is about an object; where that has several paths, the first in byte order is written.
    /// As long as the tree stays as it is, [`Tables::apply_policy`] opens a ruleset with the same masks and the same rights for each
    /// object and port, and two rulesets that differ in these have different files under the same name.
    ///
    /// Refusals, in order: tables not sound, EIO; level 0, EOPNOTSUPP; ruleset not open, EBADF; name not of 1 to 32 bytes, EINVAL; a
    /// rule on the root that [`Tables::add_path_rule`] refuses so, EPERM (only cells that something else wrote have one); a rule whose
    /// object has no entry left, ENOENT; a rule's path longer than 4,095 bytes, ENAMETOOLONG, also if its object has a shorter one; a
    /// file longer than 32,768 bytes, E2BIG; a file longer than `out`, ENOSPC. Each is tested for all rules before the next.
    ///
    /// ```
    /// # use skeinrabbit::*;
    /// let mut tables = Tables::new(Level::LATEST)?;
    /// let cal = tables.create(Thread::MAIN, Entry::ROOT, Kind::DIRECTORY, "cal")?;
    /// let masks = Attribute { fs: AccessFs::READ_FILE, ..Attribute::default() };
    /// let ruleset = tables.create_ruleset(&masks.to_bytes(), 0)?;
    /// tables.add_path_rule(ruleset, cal, AccessFs::READ_FILE, 0)?;
    ///
    /// let mut out = [0xff; 64];
    /// let length = tables.write_policy(ruleset, "p", &mut out)?;
    /// let mut file = vec![1, 1, 0, b'p', 2, 24, 0];
    /// file.extend(masks.to_bytes());
    /// file.extend([3, 12, 0, 4, 0, 0, 0, 0, 0, 0, 0]);
    /// file.extend(b"/cal");
    /// assert_eq!(out[..length], file);
    /// assert_eq!(out[length..], [0xff; 18]);
    /// assert_eq!(tables.write_policy(ruleset, "p", &mut out[..45]), Err(Errno::ENOSPC));
    ///
    /// let again = tables.apply_policy(&out[..length], &[], "p")?;
    /// let rules = |ruleset| tables.open_ruleset(ruleset).map(|row| row.rules.iter().collect::<Vec<_>>());
    /// assert_eq!(rules(again), rules(ruleset));
    ///
    /// tables.remove(Thread::MAIN, cal)?;
    /// assert_eq!(tables.write_policy(ruleset, "p", &mut out), Err(Errno::ENOENT));
    /// # Ok::<(), Errno>(())
    /// ```
    pub fn write_policy(
        &self,
        ruleset: Ruleset,
        name: impl AsRef<[u8]>,
        out: &mut [u8],
    ) -> Result<usize, Errno> {
        let raw = sys::write_policy(self.shared(), ruleset.number(), name.as_ref(), out);
        // The length is that of a file in memory.
        Errno::answer(raw).map(|length| usize::try_from(length).unwrap_or(usize::MAX))
    }

    /// The file that [`Tables::write_policy`] writes, with room for any.
    ///
    /// ```
    /// # use skeinrabbit::*;
    /// let mut tables = Tables::new(Level::LATEST)?;
    /// let masks = Attribute { scope: Scope::SIGNAL, ..Attribute::default() };
    /// let ruleset = tables.create_ruleset(&masks.to_bytes(), 0)?;
    /// let file = tables.policy_file(ruleset, "worker")?;
    /// assert_eq!(find_policy(&file, &[], "worker").map(|part| part.bytes.len()), Ok(36));
    /// assert_eq!(tables.policy_file(ruleset, ""), Err(Errno::EINVAL));
    /// # Ok::<(), Errno>(())
    /// ```
    pub fn policy_file(&self, ruleset: Ruleset, name: impl AsRef<[u8]>) -> Result<Vec<u8>, Errno> {
        let mut file = vec![0; MAX_POLICY];
        let length = self.write_policy(ruleset, name, &mut file)?;
        file.truncate(length);
        Ok(file)
    }
}
