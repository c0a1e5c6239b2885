//! Random tables that no list of calls leads to: of wrong lengths, or of cells at random.

use crate::compare::Step;
use crate::damage::Poke;
use crate::tables::Table;
use random::Random;

/// What is odd about tables.
#[derive(Clone, Copy, PartialEq, Eq, PartialOrd, Ord, Debug)]
pub enum Odd {
    OneWrongLength,
    TwoWrongLengths,
    /// A table is longer, and cells past its right length are set.
    SetPastEnd,
    RandomCells,
}

impl Odd {
    pub const ALL: [Odd; 4] = [
        Odd::OneWrongLength,
        Odd::TwoWrongLengths,
        Odd::SetPastEnd,
        Odd::RandomCells,
    ];
}

/// Gives one or two tables a wrong length; in longer ones, cells past the end may be set.
pub fn wrong_lengths(random: &mut Random) -> (Vec<Odd>, Vec<Step>) {
    let mut tables = Table::ALL;
    random.shuffle(&mut tables);
    let (count, odd) = random.pick(&[(1, Odd::OneWrongLength), (2, Odd::TwoWrongLengths)]);
    let (mut odds, mut steps) = (vec![odd], Vec::new());
    for table in tables.into_iter().take(count) {
        let length = wrong_length(table, random);
        steps.push(Step::Resize { table, length });
        if length > table.length() && random.chance(60) {
            odds.push(Odd::SetPastEnd);
            let first = random.between(table.length() as u64, length as u64 - 1) as usize;
            steps.push(Step::Damage(set_cells(table, first, length, random)));
        }
    }
    odds.dedup();
    (odds, steps)
}

fn wrong_length(table: Table, random: &mut Random) -> usize {
    let right = table.length() as u64;
    let length = match random.below(6) {
        0 => 0,
        1 => right - 1,
        2 => random.below(right),
        3 | 4 => right + 1,
        _ => right + random.between(1, 200),
    };
    length as usize
}

/// Sets the cells of a table from the first to before the end.
fn set_cells(table: Table, first: usize, end: usize, random: &mut Random) -> Vec<Poke> {
    let pokes = (first..end).map(|cell| Poke {
        table,
        cell,
        value: any_value(random).max(1),
    });
    pokes.collect()
}

/// Writes every cell of tables of the right lengths.
pub fn random_cells(random: &mut Random) -> Vec<Poke> {
    let mut pokes = Vec::new();
    for table in Table::ALL {
        pokes.extend((0..table.length()).map(|cell| Poke {
            table,
            cell,
            value: any_value(random),
        }));
    }
    pokes
}

/// A small number, a bit, a number at some limit, or any.
fn any_value(random: &mut Random) -> u64 {
    match random.below(4) {
        0 => random.below(8),
        1 => 1 << random.below(64),
        2 => random.edge(),
        _ => random.number(),
    }
}
