//! A directory of the machine as a scenario that builds the same tree.
use crate::scenario::written;
use crate::words::escaped;
use skeinrabbit::Kind;
use std::collections::BTreeMap;
use std::ffi::OsString;
use std::fs::{self, DirEntry, FileType, Metadata};
use std::io;
use std::os::unix::ffi::{OsStrExt, OsStringExt};
use std::os::unix::fs::{FileTypeExt, MetadataExt};
use std::path::{Path, PathBuf};

/// The most entries beside the root.
const MOST_ENTRIES: usize = 1023;
/// The longest name and path, in bytes.
const LONGEST_NAME: usize = 48;
const LONGEST_PATH: usize = 4095;

/// Why there is no scenario.
pub enum NoImport {
    /// Something cannot be read.
    Unreadable(PathBuf, io::Error),
    /// The tables have no room for the tree; what is in the way, one thing to a line.
    NoRoom(Vec<String>),
}

/// A scenario with the calls that make the tree of a directory, each directory before what is in it and in the order of names.
pub fn scenario(directory: &Path) -> Result<String, NoImport> {
    let mut tree = Tree::default();
    let mut waiting = vec![(directory.to_owned(), Vec::new())];
    while let Some((directory, path)) = waiting.pop() {
        // The last is put in first, so that the first comes out first.
        let inside = tree.children(&directory, &path)?;
        waiting.extend(inside.into_iter().rev());
    }
    tree.scenario(directory)
}

/// The calls so far, and what is in the way.
#[derive(Default)]
struct Tree {
    entries: usize,
    calls: String,
    /// The path of the first entry of each object that has several.
    linked: BTreeMap<(u64, u64), Vec<u8>>,
    no_room: Vec<String>,
}

impl Tree {
    /// Adds what is in a directory; answers the directories among it with their paths.
    fn children(
        &mut self,
        directory: &Path,
        path: &[u8],
    ) -> Result<Vec<(PathBuf, Vec<u8>)>, NoImport> {
        let mut directories = Vec::new();
        for child in sorted(directory)? {
            let on_machine = child.path();
            // Of a symlink itself, not of what it points to.
            let metadata = readable(&on_machine, fs::symlink_metadata(&on_machine))?;
            let path = [path, b"/", child.file_name().as_bytes()].concat();
            self.add(&path, child.file_name(), &metadata);
            // Beyond the limit nothing more is read.
            if metadata.is_dir() && self.entries <= MOST_ENTRIES {
                directories.push((on_machine, path));
            }
        }
        Ok(directories)
    }

    fn add(&mut self, path: &[u8], name: OsString, metadata: &Metadata) {
        self.entries += 1;
        let shown = written(path);
        let name = name.into_vec();
        if name.len() > LONGEST_NAME {
            let length = name.len();
            let message = format!("{shown}: a name of {length} bytes; at most {LONGEST_NAME} fit");
            self.no_room.push(message);
        } else if path.len() > LONGEST_PATH {
            let length = path.len();
            let message = format!("{shown}: a path of {length} bytes; at most {LONGEST_PATH} fit");
            self.no_room.push(message);
        }
        let object = (metadata.dev(), metadata.ino());
        let first = self.linked.get(&object).map(|first| written(first));
        let call = match (first, kind(metadata.file_type())) {
            (Some(first), _) => format!("link main {first} {shown}\n"),
            (None, kind) => format!("create main {shown} {kind}\n"),
        };
        self.calls.push_str(&call);
        if metadata.nlink() > 1 && !metadata.is_dir() {
            self.linked.entry(object).or_insert_with(|| path.to_vec());
        }
    }

    fn scenario(mut self, directory: &Path) -> Result<String, NoImport> {
        if self.entries > MOST_ENTRIES {
            let message = format!("more than {MOST_ENTRIES} entries; no more fit beside the root");
            self.no_room.push(message);
        }
        if !self.no_room.is_empty() {
            return Err(NoImport::NoRoom(self.no_room));
        }
        let from = escaped(&directory.to_string_lossy());
        Ok(format!("# The tree of {from}\nfresh 6\n{}", self.calls))
    }
}

/// What is in a directory, in the order of the names' bytes.
fn sorted(directory: &Path) -> Result<Vec<DirEntry>, NoImport> {
    let children = readable(directory, fs::read_dir(directory))?;
    let mut children = readable(directory, children.collect::<io::Result<Vec<DirEntry>>>())?;
    children.sort_by_key(|child| child.file_name().into_vec());
    Ok(children)
}

fn readable<T>(path: &Path, result: io::Result<T>) -> Result<T, NoImport> {
    result.map_err(|error| NoImport::Unreadable(path.to_owned(), error))
}

fn kind(file_type: FileType) -> Kind {
    let kinds = [
        (file_type.is_dir(), Kind::DIRECTORY),
        (file_type.is_symlink(), Kind::SYMLINK),
        (file_type.is_char_device(), Kind::CHARACTER),
        (file_type.is_block_device(), Kind::BLOCK),
        (file_type.is_fifo(), Kind::FIFO),
        (file_type.is_socket(), Kind::SOCKET),
    ];
    let kind = kinds.into_iter().find(|(is, _)| *is);
    kind.map_or(Kind::REGULAR, |(_, kind)| kind)
}
