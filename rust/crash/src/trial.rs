//! A broker that is killed again and again, and what it keeps.

use crate::broker::ROOM;
use crate::mirror::{Generation, Mirror};
use crate::store::{self, log_file, Kept, Store};
use model::call::Call;
use model::generate::tree_call;
use model::start::start;
use model::state::Model;
use model::tables::{encode, Table as ModelTable, Tables as ModelTables};
use random::Random;
use skeinrabbit::{Cells, Table, Tables};
use std::error::Error;
use std::fmt;
use std::fs::OpenOptions;
use std::io::{BufRead, BufReader, Write};
use std::path::Path;
use std::process::{Command, Stdio};
use std::time::Duration;

/// The lives of a broker on tables that it goes on with.
const LIVES: usize = 25;

pub type Outcome<T> = Result<T, Box<dyn Error>>;

/// What was done.
#[derive(Default)]
pub struct Counts {
    pub kills: u64,
    /// Kills before the broker said that it goes on.
    pub early: u64,
    /// Kills that left a part of a field.
    pub torn: u64,
    /// Changes that were acknowledged, refused ones included.
    pub acknowledged: u64,
    pub cuts: u64,
}

impl fmt::Display for Counts {
    fn fmt(&self, f: &mut fmt::Formatter) -> fmt::Result {
        let Counts {
            kills,
            early,
            torn,
            acknowledged,
            cuts,
        } = self;
        write!(
            f,
            "{kills} kills, {early} of them before the broker went on and {torn} within a field; "
        )?;
        write!(
            f,
            "{acknowledged} requests acknowledged and nothing lost; logs cut at {cuts} places"
        )
    }
}

/// A broker's directory, and the model beside it.
pub struct Trial<'a> {
    directory: &'a Path,
    random: Random,
    mirror: Mirror,
    /// The last acknowledgement: a generation, and how many bytes of its log are safe.
    acknowledged: (u64, u64),
    counts: &'a mut Counts,
}

impl Trial<'_> {
    /// Kills a broker as often as it lives; in its last life it answers every request, and its log is cut at every byte.
    pub fn run(directory: &Path, seed: u64, counts: &mut Counts) -> Outcome<()> {
        let mut random = Random::new(seed);
        let start = start(&mut random);
        Store::begin(directory, 0, &cells(&start))?;
        let mut trial = Trial {
            directory,
            random,
            mirror: Mirror::new(start, ROOM),
            acknowledged: (0, 0),
            counts,
        };
        for _ in 1..LIVES {
            trial.life(false)?;
            trial.lose()?;
            trial.look()?;
        }
        trial.life(true)?;
        trial.look()?;
        trial.cut()
    }

    /// Lets a broker go on from what is kept and kills it, perhaps after it answered every request.
    fn life(&mut self, whole: bool) -> Outcome<()> {
        self.mirror.begin();
        let mut told = vec![self.mirror.place()];
        let mut requests = String::new();
        let count = match whole {
            true => 60,
            false => self.random.pick(&[2, 10, 40]),
        };
        for _ in 0..count {
            let call = tree_call(&self.mirror.model, &mut self.random);
            self.mirror.request(&call);
            told.push(self.mirror.place());
            requests += &line(&call);
        }
        let wanted = match self.random.chance(25) {
            _ if whole => told.len(),
            true => 0,
            false => self.random.between(1, told.len() as u64) as usize,
        };
        let heard = self.killed(&requests, wanted)?;
        if !told.starts_with(&heard) {
            return Err(format!("told {heard:?}, and not as the model {told:?}").into());
        }
        self.counts.kills += 1;
        self.counts.early += u64::from(heard.is_empty());
        self.counts.acknowledged += heard.len().saturating_sub(1) as u64;
        self.acknowledged = heard.last().copied().unwrap_or(self.acknowledged);
        Ok(())
    }

    /// Runs a broker and kills it at some moment after so many acknowledgements; answers all of them.
    fn killed(&mut self, requests: &str, wanted: usize) -> Outcome<Vec<(u64, u64)>> {
        let mut broker = Command::new(std::env::current_exe()?)
            .arg("broker")
            .arg(self.directory)
            .stdin(Stdio::piped())
            .stdout(Stdio::piped())
            .spawn()?;
        let mut input = broker.stdin.take().ok_or("no input")?;
        let output = broker.stdout.take().ok_or("no output")?;
        // It fits into the pipe.
        input.write_all(requests.as_bytes())?;
        let mut lines = BufReader::new(output);
        let mut heard = Vec::new();
        while heard.len() < wanted {
            let next = acknowledgement(&mut lines)?;
            heard.push(next.ok_or("the broker ended by itself")?);
        }
        let most = self.random.pick(&[1, 200, 2000, 10_000]);
        std::thread::sleep(Duration::from_micros(self.random.below(most)));
        broker.kill()?;
        broker.wait()?;
        while let Some(next) = acknowledgement(&mut lines)? {
            heard.push(next);
        }
        Ok(heard)
    }

    /// Loses bytes of the log that were not acknowledged, as may happen when the power fails.
    fn lose(&mut self) -> Outcome<()> {
        let kept = store::read(self.directory)?;
        let (generation, used) = self.acknowledged;
        let safe = if generation == kept.generation {
            used
        } else {
            0
        };
        let length = kept.log.len() as u64;
        if length > safe && self.random.chance(40) {
            truncate(
                self.directory,
                kept.generation,
                self.random.between(safe, length),
            )?;
        }
        Ok(())
    }

    /// Looks at what is kept: nothing acknowledged is lost, and replay gives the tree after the whole fields.
    fn look(&mut self) -> Outcome<()> {
        let kept = store::read(self.directory)?;
        let (place, safe) = ((kept.generation, kept.log.len() as u64), self.acknowledged);
        if place < safe {
            return Err(format!("{safe:?} is acknowledged, {place:?} is kept").into());
        }
        let found = self.mirror.found(kept.generation, &kept.log);
        let dropped = replayed(kept, found.ok_or("a log is kept that the model never had")?)?;
        self.counts.torn += u64::from(dropped > 0);
        Ok(())
    }

    /// Cuts the file of the log at every byte, from its end on.
    fn cut(&mut self) -> Outcome<()> {
        for generation in &self.mirror.generations {
            for length in (0..=generation.log.used).rev() {
                truncate(self.directory, generation.number, length)?;
                replayed(store::read(self.directory)?, generation)?;
                self.counts.cuts += 1;
            }
        }
        Ok(())
    }
}

/// Replays the beginning of a generation's log onto the tables that are kept; answers how many bytes are dropped.
fn replayed(kept: Kept, generation: &Generation) -> Outcome<u64> {
    let (after, dropped) = generation.history.after(kept.log.len());
    if of_model(&kept.cells) != encode(generation.history.start()) {
        return Err("other tables are kept than the model has".into());
    }
    let mut tables = Tables::from_cells(kept.cells);
    let answer = tables.replay(&kept.log);
    if answer != Ok(dropped as usize) {
        return Err(format!("replay answers {answer:?} in place of {dropped}").into());
    }
    match of_model(tables.cells()) == encode(&after) {
        true => Ok(dropped),
        false => Err("replay gives other tables than the model has".into()),
    }
}

/// The next acknowledgement, if it is whole.
fn acknowledgement(lines: &mut impl BufRead) -> Outcome<Option<(u64, u64)>> {
    let mut line = String::new();
    lines.read_line(&mut line)?;
    let Some(line) = line.strip_suffix('\n') else {
        return Ok(None);
    };
    let (generation, used) = line.split_once(' ').ok_or("no acknowledgement")?;
    Ok(Some((generation.parse()?, used.parse()?)))
}

/// A request for a change: its numbers, and the bytes of its name.
fn line(call: &Call) -> String {
    let mut numbers = call.numbers();
    // The length of the report.
    numbers.pop();
    let name = call.bytes().unwrap_or_default();
    numbers.extend(name.iter().copied().map(u64::from));
    let numbers: Vec<String> = numbers.iter().map(u64::to_string).collect();
    format!("{} {}\n", call.name(), numbers.join(" "))
}

/// Cuts the file of a log.
fn truncate(directory: &Path, generation: u64, length: u64) -> Outcome<()> {
    let file = log_file(directory, generation);
    let file = OpenOptions::new().write(true).open(file)?;
    Ok(file.set_len(length)?)
}

/// The cells that show a model.
fn cells(model: &Model) -> Cells {
    let tables = encode(model);
    let mut cells = Cells::zeroed();
    for (table, of_model) in Table::ALL.into_iter().zip(ModelTable::ALL) {
        for cell in 0..table.size() {
            cells.set(table, cell, tables.cell(of_model, cell));
        }
    }
    cells
}

/// Cells as the model has them.
fn of_model(cells: &Cells) -> ModelTables {
    ModelTables {
        cells: [
            cells.system.to_vec(),
            cells.entries.to_vec(),
            cells.rulesets.to_vec(),
            cells.layers.to_vec(),
            cells.pool.to_vec(),
            cells.threads.to_vec(),
        ],
        names: cells.names.to_vec(),
    }
}
