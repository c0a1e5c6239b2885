//! A broker that keeps its log in a file: it reads requests from its input, and acknowledges each one when what it changed is safe.

use crate::store::{self, Store};
use skeinrabbit::{AccessFs, Entry, Errno, Kind, Log, Refusal, Tables, Thread};
use std::error::Error;
use std::io::{self, BufRead, Write};
use std::path::Path;

/// The bytes of a log, so few that some lives need several.
pub const ROOM: usize = 500;

/// The tables, their log, and where it is kept.
struct Broker<'a> {
    directory: &'a Path,
    tables: Tables,
    log: Log,
    generation: u64,
    store: Store,
}

/// Goes on from what is kept in a directory.
pub fn run(directory: &Path) -> Result<(), Box<dyn Error>> {
    let kept = store::read(directory)?;
    let mut tables = Tables::from_cells(kept.cells);
    tables.replay(&kept.log)?;
    let generation = kept.generation + 1;
    let store = Store::begin(directory, generation, tables.cells())?;
    let mut broker = Broker {
        directory,
        tables,
        log: Log::with_capacity(ROOM),
        generation,
        store,
    };
    broker.acknowledge()?;
    for request in io::stdin().lock().lines() {
        broker.request(&request?)?;
        broker.acknowledge()?;
    }
    Ok(())
}

impl Broker<'_> {
    /// Says how many bytes of which log are safe.
    fn acknowledge(&self) -> io::Result<()> {
        let mut out = io::stdout().lock();
        writeln!(out, "{} {}", self.generation, self.log.used())?;
        out.flush()
    }

    /// Makes a change, if it is not refused, and what it changed safe. Where the log is full, another one starts at the tables of
    /// this moment.
    fn request(&mut self, request: &str) -> Result<(), Box<dyn Error>> {
        let mut safe = self.log.written().len();
        let mut answer = change(&mut self.tables, &mut self.log, request);
        let full = matches!(answer, Some(Err(refusal)) if refusal.errno() == Errno::ENOSPC);
        if full && !self.log.is_empty() {
            self.generation += 1;
            self.store = Store::begin(self.directory, self.generation, self.tables.cells())?;
            self.log.clear();
            safe = 0;
            answer = change(&mut self.tables, &mut self.log, request);
        }
        answer.ok_or("a request that is none")?.ok();
        match &self.log.written()[safe..] {
            [] => Ok(()),
            field => Ok(self.store.append(field)?),
        }
    }
}

/// What the change of a request answers, if it is one.
fn change(
    tables: &mut Tables,
    log: &mut Log,
    request: &str,
) -> Option<Result<(), Refusal<AccessFs>>> {
    let mut words = request.split(' ');
    let call = words.next()?;
    let thread = Thread::new(words.next()?.parse().ok()?);
    let mut number = || words.next()?.parse::<u64>().ok();
    let first = Entry::new(number()?);
    let mut logged = tables.logged(log);
    Some(match call {
        "create" => {
            let kind = Kind::new(number()?);
            logged.create(thread, first, kind, name(words)?).map(drop)
        }
        "remove" => logged.remove(thread, first),
        "link" => {
            let directory = Entry::new(number()?);
            logged
                .link(thread, first, directory, name(words)?)
                .map(drop)
        }
        "rename" => {
            let directory = Entry::new(number()?);
            logged.rename(thread, first, directory, name(words)?)
        }
        "exchange" => {
            let directory = Entry::new(number()?);
            logged.exchange(thread, first, directory, Entry::new(number()?))
        }
        _ => return None,
    })
}

/// A name, written as the numbers of its bytes.
fn name<'a>(words: impl Iterator<Item = &'a str>) -> Option<Vec<u8>> {
    words.map(|word| word.parse().ok()).collect()
}
