//! The words of `poke` and `poke_name`.
use super::arguments::{number, Arguments};
use super::call::Call;
use super::Bad;
use skeinrabbit::{ParseError, QueuePart, Table};
use std::str::FromStr;

/// What cells are written of: a table, or a part of the queue.
#[derive(Clone, Copy, Debug, PartialEq, Eq)]
pub enum Poked {
    Table(Table),
    Queue(QueuePart),
}

impl Poked {
    pub fn name(self) -> &'static str {
        match self {
            Poked::Table(table) => table.name(),
            Poked::Queue(part) => part.name(),
        }
    }

    /// The number of cells.
    fn size(self) -> usize {
        match self {
            Poked::Table(table) => table.size(),
            Poked::Queue(part) => part.size(),
        }
    }
}

impl FromStr for Poked {
    type Err = ParseError;

    fn from_str(word: &str) -> Result<Self, ParseError> {
        let part = || word.parse().map(Poked::Queue);
        word.parse().map(Poked::Table).or_else(|_| part())
    }
}

/// Reads the words after the call's name.
pub fn poke(arguments: &mut Arguments) -> Result<Call, Bad> {
    let poked = arguments.value()?;
    let cell = arguments.number("a cell")?;
    let value = arguments.number("a value")?;
    let run = Run::read(arguments, poked)?;
    let write = |i| {
        Ok((
            cell_of(poked, nth(cell, run.step, i))?,
            value_of(poked, nth(value, run.rise, i))?,
        ))
    };
    let writes = (0..run.count).map(write).collect::<Result<_, Bad>>()?;
    Ok(Call::Poke { poked, writes })
}

/// How many writes there are, and by how much cell and value grow from one to the next.
struct Run {
    count: u64,
    step: u64,
    rise: u64,
}

impl Run {
    /// Reads the last three words; without them there is one write.
    fn read(arguments: &mut Arguments, poked: Poked) -> Result<Run, Bad> {
        let Some(word) = arguments.next() else {
            let (count, step, rise) = (1, 0, 0);
            return Ok(Run { count, step, rise });
        };
        Ok(Run {
            count: count(word, poked)?,
            step: arguments.number("a step")?,
            rise: arguments.number("a rise")?,
        })
    }
}

/// A number of writes: no more than there are cells, so that no line takes long.
fn count(word: &str, poked: Poked) -> Result<u64, Bad> {
    let count = number(word, "a count")?;
    let most = poked.size();
    match usize::try_from(count) {
        Ok(writes) if (1..=most).contains(&writes) => Ok(count),
        _ => Err(Bad::word(word, format!("a count from 1 to {most}"))),
    }
}

/// What `first` is after it grew `i` times; none from 2^64 on.
fn nth(first: u64, growth: u64, i: u64) -> Option<u64> {
    growth.checked_mul(i)?.checked_add(first)
}

fn cell_of(poked: Poked, number: Option<u64>) -> Result<usize, Bad> {
    let cell = number.and_then(|number| usize::try_from(number).ok());
    cell.filter(|cell| *cell < poked.size()).ok_or_else(|| {
        let found = number.map_or(TOO_LARGE.to_owned(), |number| format!("cell {number}"));
        let expected = format!("a cell of {}, below {}", poked.name(), poked.size());
        Bad::new(found, expected)
    })
}

fn value_of(poked: Poked, number: Option<u64>) -> Result<u64, Bad> {
    let names = Poked::Table(Table::Names);
    let fits = |value: &u64| poked != names || *value <= u8::MAX.into();
    number.filter(fits).ok_or_else(|| match (poked, number) {
        (Poked::Table(Table::Names), Some(value)) => {
            Bad::new(format!("value {value}"), "bytes in names, up to 255")
        }
        _ => Bad::new(TOO_LARGE, "values below 2^64"),
    })
}

/// Reads the words after `poke_name`: the rows of one entry or of some, one after the other.
pub fn poke_name(arguments: &mut Arguments) -> Result<Call, Bad> {
    let word = arguments.word()?;
    let first = number(word, "an entry")?;
    let name = arguments.text()?;
    let count = arguments
        .next()
        .map_or(Ok(1), |word| number(word, "a count"))?;
    let last = first.checked_add(count);
    if count == 0 || last.is_none_or(|last| last > MAX_ENTRIES) {
        let expected = format!("entries below {MAX_ENTRIES}, at least one");
        return Err(Bad::new(format!("{count} from {word} on"), expected));
    }
    if name.bytes(count).len() > MAX_NAME {
        let expected = format!("a name of at most {MAX_NAME} bytes: a row has no room for more");
        return Err(Bad::new("a name that is too long", expected));
    }
    Ok(Call::PokeName { first, count, name })
}

const MAX_ENTRIES: u64 = 1024;
const MAX_NAME: usize = 48;
const TOO_LARGE: &str = "2^64 or more";
