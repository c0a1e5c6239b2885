//! Refusals as `std` has errors.
// Here and not at the root, so that no other module can come to need it.
extern crate std;

use crate::errno::Errno;
use crate::policy_file::PolicyRefusal;
use crate::refusal::Refusal;
use std::io;

/// The error of that number on Linux. On another system the number may mean something else, so there the `Errno` is the inner error.
///
/// ```
/// use skeinrabbit::{AccessFs, Entry, Errno, Level, Tables, Thread};
/// use std::io;
///
/// fn may_list_root(thread: Thread) -> io::Result<()> {
///     let tables = Tables::new(Level::LATEST)?;
///     Ok(tables.access(thread, Entry::ROOT, AccessFs::READ_DIR)?)
/// }
///
/// assert!(may_list_root(Thread::MAIN).is_ok());
/// assert!(may_list_root(Thread::new(1)).is_err());
/// # #[cfg(target_os = "linux")]
/// assert_eq!(io::Error::from(Errno::EACCES).kind(), io::ErrorKind::PermissionDenied);
/// ```
impl From<Errno> for io::Error {
    fn from(errno: Errno) -> Self {
        if cfg!(target_os = "linux") {
            io::Error::from_raw_os_error(errno.number().into())
        } else {
            io::Error::other(errno)
        }
    }
}

/// The error of its number, without the layer and the rights.
impl<R> From<Refusal<R>> for io::Error {
    fn from(refusal: Refusal<R>) -> Self {
        refusal.errno().into()
    }
}

/// The error of its number, without the file and the place.
impl From<PolicyRefusal> for io::Error {
    fn from(refusal: PolicyRefusal) -> Self {
        refusal.errno().into()
    }
}

#[cfg(test)]
mod tests {
    use super::*;

    #[test]
    #[cfg(target_os = "linux")]
    fn the_system_knows_the_error() {
        for errno in Errno::ALL {
            let error = io::Error::from(*errno);
            assert_eq!(error.raw_os_error(), Some(errno.number().into()));
        }
        for (errno, kind) in [
            (Errno::EPERM, io::ErrorKind::PermissionDenied),
            (Errno::EACCES, io::ErrorKind::PermissionDenied),
            (Errno::ENOENT, io::ErrorKind::NotFound),
            (Errno::EINVAL, io::ErrorKind::InvalidInput),
            (Errno::EXDEV, io::ErrorKind::CrossesDevices),
            (Errno::ENOTEMPTY, io::ErrorKind::DirectoryNotEmpty),
            (Errno::EOPNOTSUPP, io::ErrorKind::Unsupported),
        ] {
            assert_eq!(io::Error::from(errno).kind(), kind, "{errno}");
        }
    }
}
