//! What a command leaves, and how its output is to look.
use crate::messages::bad_lines;
use crate::paint::Paint;
use crate::scenario::BadLine;
use crate::words::escaped;
use std::ffi::OsStr;
use std::fmt::Display;

/// An answer differs from what its line expects; something was found that was looked for.
pub const DIFFERS: u8 = 1;
pub const FOUND: u8 = DIFFERS;
pub const BAD_INPUT: u8 = 2;
pub const UNREADABLE: u8 = 3;
/// A search had no states left before it came to its depth.
pub const UNDECIDED: u8 = 4;
pub const WRONG_USAGE: u8 = 64;

/// What a command leaves: its output, its messages and its exit code.
#[derive(Default)]
pub struct Outcome {
    pub output: String,
    pub messages: String,
    pub code: u8,
}

impl Outcome {
    pub fn output(output: impl Display) -> Outcome {
        Outcome {
            output: output.to_string(),
            ..Outcome::default()
        }
    }

    pub fn with_output(self, output: String) -> Outcome {
        Outcome { output, ..self }
    }

    /// Output with an exit code other than 0.
    pub fn with_code(self, code: u8) -> Outcome {
        Outcome { code, ..self }
    }

    /// Messages alone.
    pub fn refused(messages: impl Into<String>, code: u8) -> Outcome {
        Outcome {
            messages: messages.into(),
            code,
            ..Outcome::default()
        }
    }

    /// The lines of a file that are not as the format asks.
    pub fn bad_lines(name: &str, lines: &[BadLine]) -> Outcome {
        Outcome::refused(bad_lines(name, lines), BAD_INPUT)
    }

    /// Something about a file that is not as the command asks.
    pub fn bad_file(name: &str, message: impl Display) -> Outcome {
        let name = escaped(name);
        Outcome::refused(format!("skein: {name}: {message}\n"), BAD_INPUT)
    }

    /// A file that cannot be read or written.
    pub fn unreadable(file: &OsStr, error: &std::io::Error) -> Outcome {
        let name = escaped(&file.to_string_lossy());
        Outcome::refused(format!("skein: {name}: {error}\n"), UNREADABLE)
    }
}

/// How output is to look.
#[derive(Clone, Copy)]
pub struct View {
    pub json: bool,
    pub all_rights: bool,
    pub verbose: bool,
    pub width: usize,
    pub paint: Paint,
}
