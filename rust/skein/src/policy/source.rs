//! Where the bytes of a policy file come from.
use super::text::build;
use super::LONGEST_FILE;
use crate::scenario::BadLine;
use std::fs::File;
use std::io::{self, ErrorKind, Read};
use std::path::Path;

/// The end of the name of a file that is text.
const TEXT: &str = "txt";
/// The most bytes of a file of text.
const LONGEST_TEXT: usize = 1 << 22;

/// Why there are no bytes.
pub enum Unread {
    Io(io::Error),
    /// Lines of text that make no file.
    Lines(Vec<BadLine>),
}

impl From<io::Error> for Unread {
    fn from(error: io::Error) -> Self {
        Unread::Io(error)
    }
}

/// Reads a policy file: as it is, or, where its name ends in `.txt`, as text that it is built from.
pub fn read(path: &Path) -> Result<Vec<u8>, Unread> {
    if path.extension().is_some_and(|end| end == TEXT) {
        return build(&text(File::open(path)?)?).map_err(Unread::Lines);
    }
    Ok(bytes(File::open(path)?)?)
}

/// The bytes of a policy file, or so many that it is known to be too long.
pub fn bytes(file: impl Read) -> io::Result<Vec<u8>> {
    start_of(file, LONGEST_FILE + 1)
}

/// The whole of a text.
pub fn text(file: impl Read) -> io::Result<Vec<u8>> {
    let text = start_of(file, LONGEST_TEXT + 1)?;
    if text.len() > LONGEST_TEXT {
        return Err(io::Error::new(
            ErrorKind::InvalidData,
            "the text is too long",
        ));
    }
    Ok(text)
}

fn start_of(file: impl Read, most: usize) -> io::Result<Vec<u8>> {
    let mut bytes = Vec::new();
    let most = u64::try_from(most).unwrap_or(u64::MAX);
    file.take(most).read_to_end(&mut bytes)?;
    Ok(bytes)
}
