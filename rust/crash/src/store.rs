//! What a broker keeps in a directory: the tables that a log started from, and the log.
//!
//! The file `tables` holds a generation and the cells; the log is in the file `log.GENERATION`, and is empty if there is none. New
//! tables replace the old ones by a rename, so that at each moment there is one whole generation.

use skeinrabbit::{Cells, Table};
use std::fs::{self, File, OpenOptions};
use std::io::{self, ErrorKind, Write};
use std::path::{Path, PathBuf};
use std::thread;
use std::time::Duration;

/// A log in a file.
pub struct Store {
    log: File,
}

/// What is found in a directory.
pub struct Kept {
    pub generation: u64,
    pub cells: Cells,
    pub log: Vec<u8>,
}

impl Store {
    /// Keeps tables, from which an empty log starts.
    pub fn begin(directory: &Path, generation: u64, cells: &Cells) -> io::Result<Store> {
        let new = directory.join("tables.new");
        let mut file = File::create(&new)?;
        file.write_all(&generation.to_le_bytes())?;
        file.write_all(&bytes_of(cells))?;
        file.sync_all()?;
        fs::rename(&new, directory.join("tables"))?;
        sync(directory)?;
        let log = log_file(directory, generation);
        let log = OpenOptions::new().append(true).create_new(true).open(log)?;
        sync(directory)?;
        if let Some(before) = generation.checked_sub(1) {
            forget(&log_file(directory, before))?;
        }
        Ok(Store { log })
    }

    /// Writes bytes behind the others; they are safe when this is done. Each is written on its own and takes its time, so that a
    /// kill often leaves a part of a field.
    pub fn append(&mut self, bytes: &[u8]) -> io::Result<()> {
        for byte in bytes {
            self.log.write_all(&[*byte])?;
            thread::sleep(Duration::from_micros(1));
        }
        self.log.sync_data()
    }
}

/// Reads the tables and the log.
pub fn read(directory: &Path) -> io::Result<Kept> {
    let bytes = fs::read(directory.join("tables"))?;
    let (generation, cells) = bytes
        .split_first_chunk()
        .ok_or(ErrorKind::UnexpectedEof)
        .map(|(generation, cells)| (u64::from_le_bytes(*generation), cells))?;
    let log = match fs::read(log_file(directory, generation)) {
        Err(error) if error.kind() == ErrorKind::NotFound => Vec::new(),
        log => log?,
    };
    Ok(Kept {
        generation,
        cells: cells_of(cells).ok_or(ErrorKind::InvalidData)?,
        log,
    })
}

pub fn log_file(directory: &Path, generation: u64) -> PathBuf {
    directory.join(format!("log.{generation}"))
}

/// Makes the names in a directory safe.
fn sync(directory: &Path) -> io::Result<()> {
    File::open(directory)?.sync_all()
}

/// Removes a file that may be there.
fn forget(file: &Path) -> io::Result<()> {
    match fs::remove_file(file) {
        Err(error) if error.kind() == ErrorKind::NotFound => Ok(()),
        done => done,
    }
}

/// Every cell of the tables of numbers.
fn numbers() -> impl Iterator<Item = (Table, usize)> {
    let tables = Table::ALL.into_iter();
    let tables = tables.filter(|table| *table != Table::Names);
    tables.flat_map(|table| (0..table.size()).map(move |cell| (table, cell)))
}

/// Cells as bytes: numbers, the lower byte first, and the names.
fn bytes_of(cells: &Cells) -> Vec<u8> {
    let numbers = numbers().flat_map(|(table, cell)| cells.get(table, cell));
    let mut bytes: Vec<u8> = numbers.flat_map(u64::to_le_bytes).collect();
    bytes.extend_from_slice(&cells.names[..]);
    bytes
}

/// Cells of such bytes, if there are as many as they need.
fn cells_of(bytes: &[u8]) -> Option<Cells> {
    let mut cells = Cells::zeroed();
    let mut rest = bytes;
    for (table, cell) in numbers() {
        let (number, behind) = rest.split_first_chunk()?;
        cells.set(table, cell, u64::from_le_bytes(*number));
        rest = behind;
    }
    cells.names = Box::new(rest.try_into().ok()?);
    Some(cells)
}
