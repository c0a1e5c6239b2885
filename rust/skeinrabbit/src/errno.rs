//! The error numbers of refusals.
use crate::text::{parse_number, ParseError};
use alloc::format;
use core::fmt;
use core::str::FromStr;

/// The number of a refusal, with the name it has on Linux.
///
/// ```
/// use skeinrabbit::Errno;
/// assert_eq!(Errno::EXDEV.number(), 18);
/// assert_eq!(Errno::EXDEV.to_string(), "EXDEV");
/// assert_eq!(Errno::EXDEV.description(), "rights would widen, or REFER is denied");
/// assert_eq!("EXDEV".parse(), Ok(Errno::EXDEV));
/// assert_eq!("-18".parse(), Ok(Errno::EXDEV));
/// ```
#[derive(Clone, Copy, PartialEq, Eq, PartialOrd, Ord, Hash)]
pub struct Errno(u16);

/// The greatest error number that an answer can hold.
const LARGEST: u16 = 4095;

macro_rules! errnos {
    ($($name:ident = $number:literal, $description:literal;)*) => {
        impl Errno {
            $(
                #[doc = concat!(stringify!($number), ": ", $description, ".")]
                pub const $name: Errno = Errno($number);
            )*

            /// Every number that a call can answer, in order.
            pub const ALL: &'static [Errno] = &[$(Errno::$name),*];

            /// The name, where the number is one of [`Errno::ALL`].
            pub fn name(self) -> Option<&'static str> {
                match self {
                    $(Errno::$name => Some(stringify!($name)),)*
                    _ => None,
                }
            }

            /// What the number means, in a few words.
            pub fn description(self) -> &'static str {
                match self {
                    $(Errno::$name => $description,)*
                    _ => "no answer of any call",
                }
            }
        }
    };
}

errnos! {
    EPERM = 1, "not permitted";
    ENOENT = 2, "no such entry";
    ESRCH = 3, "no such thread";
    EIO = 5, "the tables or the queue are not sound";
    E2BIG = 7, "too many or too long";
    EBADF = 9, "not open, not live or not in use";
    EAGAIN = 11, "no free thread, or the slot waits";
    ENOMEM = 12, "no room for a layer";
    EACCES = 13, "a layer denies the access";
    EBUSY = 16, "the root, or the only live thread";
    EEXIST = 17, "the directory has an entry of that name";
    EXDEV = 18, "rights would widen, or REFER is denied";
    ENOTDIR = 20, "not a directory";
    EISDIR = 21, "a directory";
    EINVAL = 22, "invalid argument";
    EMFILE = 24, "no free ruleset";
    ENOSPC = 28, "no free entry or object number, or no room in the log";
    ENAMETOOLONG = 36, "a name or a path is too long";
    ENOTEMPTY = 39, "directory not empty";
    ENOMSG = 42, "empty set of rights";
    EBADMSG = 74, "a policy file or a log is damaged";
    EOPNOTSUPP = 95, "Landlock is disabled";
}

impl Errno {
    /// The error number `number`, if it is from 1 to 4,095.
    pub fn new(number: u16) -> Option<Errno> {
        (1..=LARGEST).contains(&number).then_some(Errno(number))
    }

    /// The number.
    pub fn number(self) -> u16 {
        self.0
    }

    /// Tells a success from a refusal, which is 2^64 minus the error number.
    pub(crate) fn answer(raw: u64) -> Result<u64, Errno> {
        match u16::try_from(raw.wrapping_neg()).ok().and_then(Errno::new) {
            Some(errno) => Err(errno),
            None => Ok(raw),
        }
    }
}

impl fmt::Display for Errno {
    fn fmt(&self, f: &mut fmt::Formatter<'_>) -> fmt::Result {
        match self.name() {
            Some(name) => f.pad(name),
            None => f.pad(&format!("-{}", self.0)),
        }
    }
}

impl fmt::Debug for Errno {
    fn fmt(&self, f: &mut fmt::Formatter<'_>) -> fmt::Result {
        write!(f, "{self} ({})", self.description())
    }
}

impl core::error::Error for Errno {}

/// Reads a name (`EACCES`) or a negated number (`-13`).
impl FromStr for Errno {
    type Err = ParseError;

    fn from_str(text: &str) -> Result<Self, ParseError> {
        let named = Self::ALL
            .iter()
            .copied()
            .find(|errno| errno.name() == Some(text));
        let negated = || {
            let number = parse_number(text.strip_prefix('-')?)?;
            Errno::new(u16::try_from(number).ok()?)
        };
        named.or_else(negated).ok_or_else(|| {
            ParseError::new(text, "an error's name (EACCES) or negated number (-13)")
        })
    }
}

#[cfg(test)]
mod tests {
    use super::*;

    #[test]
    fn answers_are_told_apart() {
        assert_eq!(Errno::answer(0), Ok(0));
        assert_eq!(Errno::answer(5), Ok(5));
        assert_eq!(Errno::answer(u64::MAX - 4), Err(Errno::EIO));
        assert_eq!(Errno::answer(u64::MAX - 98).unwrap_err().to_string(), "-99");
        assert_eq!(Errno::answer(u64::MAX - 4095), Ok(u64::MAX - 4095));
    }

    #[test]
    fn names_and_numbers_agree() {
        for errno in Errno::ALL {
            assert_eq!(errno.to_string().parse(), Ok(*errno));
            assert_eq!(format!("-{}", errno.number()).parse(), Ok(*errno));
        }
        assert_eq!(Errno::ALL.len(), 22);
    }

    #[test]
    fn other_text_is_no_errno() {
        for text in [
            "", "-", "-0", "--1", "-4096", "eacces", "EACCES ", "13", "-+13",
        ] {
            assert!(text.parse::<Errno>().is_err(), "{text}");
        }
    }
}
