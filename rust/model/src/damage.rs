//! Random damage to the cells of sound tables.

use crate::state::{Model, MAX_ENTRIES, MAX_LAYERS, MAX_RULES, POOL_PLACES, ROOT};
use crate::tables::{Table, Tables, HOLDERS, RULESET_HEAD, RULE_WIDTH};
use random::Random;

/// A change of one cell.
#[derive(Clone, Copy, PartialEq, Eq, Debug)]
pub struct Poke {
    pub table: Table,
    pub cell: usize,
    pub value: u64,
}

/// Changes of a few cells, mostly of cells in use.
pub fn pokes(model: &Model, tables: &Tables, random: &mut Random) -> Vec<Poke> {
    let mut pokes = match random.below(24) {
        0 => swap_rows(tables, random),
        1 => copy_row(model, tables, random),
        2 | 3 => vec![copy_key(model, tables, random)],
        4 => vec![any_cell(tables, random)],
        5 | 6 => vec![renamed_cell(model, tables, random)],
        7..=9 => moved_hold(model, tables, random),
        10 => unheld_layer(model, tables, random),
        11 => gap(model, tables, random),
        12..=16 => damaged_name(model, tables, random),
        _ => vec![cell_in_use(model, tables, random)],
    };
    while random.chance(10) {
        pokes.push(cell_in_use(model, tables, random));
    }
    pokes
}

/// The pokes that write the cells back as they are.
pub fn undo(tables: &Tables, pokes: &[Poke]) -> Vec<Poke> {
    let there = |poke: &Poke| Poke {
        value: tables.cell(poke.table, poke.cell),
        ..*poke
    };
    pokes.iter().map(there).collect()
}

/// A row of a table, one in use where there is one.
fn row_in_use(table: Table, model: &Model, random: &mut Random) -> usize {
    let numbers: Vec<u64> = match table {
        Table::System => vec![0],
        Table::Entries | Table::Names => model.entries.keys().copied().collect(),
        Table::Rulesets => model.rulesets.keys().copied().collect(),
        Table::Layers => model.layers.keys().map(|number| *number as u64).collect(),
        Table::Pool => (0..model.pool_used() as u64).collect(),
        Table::Threads => model.threads.keys().copied().collect(),
    };
    let row = random.pick_some(&numbers).unwrap_or(0);
    row as usize
}

/// A cell of a row in use, or of the row after it.
fn cell_in_use(model: &Model, tables: &Tables, random: &mut Random) -> Poke {
    let table = random.pick(&Table::ALL);
    let mut row = row_in_use(table, model, random);
    if random.chance(10) {
        row = (row + 1) % table.rows();
    }
    let width = match table {
        Table::Rulesets => {
            let rules = tables.row(table, row)[3].min(MAX_RULES as u64 - 1);
            RULESET_HEAD + RULE_WIDTH * (1 + rules as usize)
        }
        _ => table.width(),
    };
    let column = if random.chance(50) {
        random.below(width.min(4) as u64)
    } else {
        random.below(width as u64)
    };
    let cell = table.width() * row + column as usize;
    let value = changed(model, tables, table, cell, random);
    Poke { table, cell, value }
}

/// Another value for a cell.
fn changed(model: &Model, tables: &Tables, table: Table, cell: usize, random: &mut Random) -> u64 {
    let there = tables.cell(table, cell);
    match random.below(8) {
        0 => there.wrapping_add(1),
        1 => there.wrapping_sub(1),
        2 => there ^ (1 << random.below(17)),
        3 => there.wrapping_add(random.below(20)),
        4 => random.edge(),
        5 => random.number(),
        6 => 0,
        _ => {
            let row = row_in_use(table, model, random);
            tables.cell(table, table.width() * row + cell % table.width())
        }
    }
}

/// A cell that names something, so that it names another thing of the same sort: a parent that is
/// below, a mask of nothing, another count of holders, a port out of range, rights that a file
/// doesn't have.
fn renamed_cell(model: &Model, tables: &Tables, random: &mut Random) -> Poke {
    let (table, row, column, value) = match random.below(5) {
        0 => {
            let entries = model.entries.iter();
            let directories = entries.filter(|(_, entry)| entry.kind.is_directory());
            let numbers: Vec<u64> = directories.map(|(number, _)| *number).collect();
            let row = random.pick(&numbers) as usize;
            (Table::Entries, row, 1, random.pick(&numbers))
        }
        1 => {
            let row = row_in_use(Table::Layers, model, random);
            let there = tables.row(Table::Layers, row)[HOLDERS];
            let value = random.pick(&[0, there + 1, there.saturating_sub(1)]);
            (Table::Layers, row, HOLDERS, value)
        }
        2 => {
            let row = row_in_use(Table::Layers, model, random);
            (Table::Layers, row, random.between(1, 3) as usize, 0)
        }
        3 => {
            let row = rule_in_use(2, model, tables, random);
            (Table::Pool, row, 1, random.between(65_535, 65_536))
        }
        _ => {
            let row = rule_in_use(1, model, tables, random);
            let rights = tables.row(Table::Pool, row)[2] | 1 << random.below(16);
            (Table::Pool, row, 2, rights)
        }
    };
    let cell = table.width() * row + column;
    Poke { table, cell, value }
}

/// Another layer for a thread or a layer to hold, and the counts of both made true: perhaps one
/// above itself, one that is too deep, or none.
fn moved_hold(model: &Model, tables: &Tables, random: &mut Random) -> Vec<Poke> {
    let (table, column) = random.pick(&[(Table::Threads, 1), (Table::Layers, 0)]);
    let row = row_in_use(table, model, random);
    let cell = table.width() * row + column;
    let layers: Vec<usize> = model.layers.keys().copied().collect();
    let held = random.pick_some(&layers).filter(|_| random.chance(90));
    let value = held.map_or(0, |layer| layer as u64 + 1);
    let there = tables.of(table)[cell];
    if value == there {
        return Vec::new();
    }
    let mut pokes = vec![Poke { table, cell, value }];
    pokes.extend(counted(tables, there, |count| count - 1));
    pokes.extend(counted(tables, value, |count| count + 1));
    pokes
}

/// A change of the count of the layer that a cell names, if it names one.
fn counted(tables: &Tables, named: u64, change: fn(u64) -> u64) -> Option<Poke> {
    let row = (named as usize).checked_sub(1)?;
    Some(Poke {
        table: Table::Layers,
        cell: Table::Layers.width() * row + HOLDERS,
        value: change(tables.row(Table::Layers, row)[HOLDERS]),
    })
}

/// A record that is counted and used as a layer's, but that nobody reaches.
fn unheld_layer(model: &Model, tables: &Tables, random: &mut Random) -> Vec<Poke> {
    let free = (0..MAX_LAYERS).filter(|number| !model.layers.contains_key(number));
    let free: Vec<usize> = free.collect();
    let Some(number) = random.pick_some(&free) else {
        return Vec::new();
    };
    let table = Table::Layers;
    let first = table.width() * number;
    let poke = |table, cell, value| Poke { table, cell, value };
    vec![
        poke(table, first + 1, random.between(1, 8)),
        poke(table, first + HOLDERS, 1),
        poke(Table::System, 2, tables.of(Table::System)[2] + 1),
    ]
}

/// A place of the used pool that belongs to no layer, before a run or behind all.
fn gap(model: &Model, tables: &Tables, random: &mut Random) -> Vec<Poke> {
    let used = model.pool_used();
    if used == POOL_PLACES {
        return Vec::new();
    }
    let places = model.places();
    let run = random.pick_some(&model.runs).filter(|_| random.chance(80));
    let from = run.map_or(used, |number| places[number]);
    let poke = |table, cell, value| Poke { table, cell, value };
    let mut pokes = vec![poke(Table::System, 3, used as u64 + 1)];
    for place in from..used {
        let cells = tables.row(Table::Pool, place).iter().enumerate();
        let to = RULE_WIDTH * (place + 1);
        pokes.extend(cells.map(|(column, value)| poke(Table::Pool, to + column, *value)));
    }
    if random.chance(50) {
        let cells = RULE_WIDTH * from..RULE_WIDTH * (from + 1);
        pokes.extend(cells.map(|cell| poke(Table::Pool, cell, 0)));
    }
    let moved = model.runs.iter().filter(|number| places[**number] >= from);
    pokes.extend(moved.map(|number| {
        let cell = Table::Layers.width() * number + 4;
        poke(Table::Layers, cell, places[*number] as u64 + 1)
    }));
    pokes
}

/// A name that is none, each sort of fault alone: its length, a byte behind it, one of its bytes,
/// dots, the name of another entry of the directory; or a name where there is none.
fn damaged_name(model: &Model, tables: &Tables, random: &mut Random) -> Vec<Poke> {
    let named: Vec<u64> = model.names.iter().map(|(number, _)| number).collect();
    let Some(number) = random.pick_some(&named) else {
        return written_name(0, b"a");
    };
    let (row, name) = (number as usize, model.names.of(number));
    let (first, length) = (Table::Names.width() * row, name.len() as u64);
    let poke = |column: u64, value| Poke {
        table: Table::Names,
        cell: first + column as usize,
        value,
    };
    match random.below(10) {
        0 => vec![poke(0, random.pick(&[0, length - 1, length + 1, 49, 255]))],
        1 => vec![poke(random.between(length, 48), random.pick(&[1, 47, 97]))],
        2 => vec![poke(random.between(1, length), u64::from(b'/'))],
        3 => vec![poke(random.between(1, length), 0)],
        4 => written_name(row, random.pick(&[b".", &b".."[..]])),
        5 => written_name(row, random.pick(&[b"...", &b".a"[..], b"a."])),
        6 => written_name(ROOT as usize, random.pick(&[b"", &b"/"[..], b"a"])),
        7 => free_name(model, tables, random),
        _ => written_name(row, &sibling_name(model, number, random)),
    }
}

/// Writes the whole row of a name.
fn written_name(row: usize, name: &[u8]) -> Vec<Poke> {
    let width = Table::Names.width();
    let mut bytes = vec![name.len() as u8];
    bytes.extend(name);
    bytes.resize(width, 0);
    let cells = bytes.into_iter().enumerate();
    let pokes = cells.map(|(column, byte)| Poke {
        table: Table::Names,
        cell: width * row + column,
        value: byte.into(),
    });
    pokes.collect()
}

/// A byte in the row of an entry that is free, or its whole name.
fn free_name(model: &Model, tables: &Tables, random: &mut Random) -> Vec<Poke> {
    let free = (0..MAX_ENTRIES).filter(|number| !model.entries.contains_key(number));
    let free: Vec<u64> = free.collect();
    let Some(row) = random.pick_some(&free) else {
        return vec![any_cell(tables, random)];
    };
    let (table, row) = (Table::Names, row as usize);
    if random.chance(30) {
        return written_name(row, b"a");
    }
    let cell = table.width() * row + random.below(table.width() as u64) as usize;
    vec![Poke {
        table,
        cell,
        value: random.between(1, 255),
    }]
}

/// The name of another entry of the same directory, or of another one.
fn sibling_name(model: &Model, number: u64, random: &mut Random) -> Vec<u8> {
    let parent = model.entries[&number].parent;
    let others = model.names.iter().filter(|(other, _)| *other != number);
    let others: Vec<u64> = others.map(|(other, _)| other).collect();
    let siblings = others.iter().copied();
    let siblings = siblings.filter(|other| model.entries[other].parent == parent);
    let siblings: Vec<u64> = siblings.collect();
    let among = if random.chance(80) {
        &siblings
    } else {
        &others
    };
    let other = random.pick_some(among);
    other.map_or(b"a".to_vec(), |other| model.names.of(other).to_vec())
}

/// A pool place with a rule of a type, if there is one.
fn rule_in_use(sort: u64, model: &Model, tables: &Tables, random: &mut Random) -> usize {
    let places = 0..model.pool_used();
    let fit = places.filter(|place| tables.row(Table::Pool, *place)[0] == sort);
    let fit: Vec<usize> = fit.collect();
    random.pick_some(&fit).unwrap_or(0)
}

fn any_cell(tables: &Tables, random: &mut Random) -> Poke {
    let table = random.pick(&Table::ALL);
    let cell = random.below(tables.length(table) as u64) as usize;
    let value = random.pick(&[1, 2, 3, random_high(cell)]);
    Poke { table, cell, value }
}

/// A value with a high bit set.
fn random_high(cell: usize) -> u64 {
    1 << (32 + cell % 32)
}

/// Writes a table's row over another one.
fn written_over(tables: &Tables, table: Table, from: usize, to: usize) -> Vec<Poke> {
    let pokes = (0..table.width()).map(|column| Poke {
        table,
        cell: table.width() * to + column,
        value: tables.cell(table, table.width() * from + column),
    });
    pokes.collect()
}

fn swap_rows(tables: &Tables, random: &mut Random) -> Vec<Poke> {
    let table = random.pick(&Table::ALL);
    let (one, two) = (
        random.below(table.rows() as u64) as usize,
        random.below(table.rows() as u64) as usize,
    );
    let mut pokes = written_over(tables, table, one, two);
    pokes.extend(written_over(tables, table, two, one));
    pokes
}

fn copy_row(model: &Model, tables: &Tables, random: &mut Random) -> Vec<Poke> {
    let table = random.pick(&Table::ALL);
    let from = row_in_use(table, model, random);
    let to = row_in_use(table, model, random);
    written_over(tables, table, from, to)
}

/// Copies a cell of a rule, a run or an entry from its neighbour: a key twice, runs that overlap,
/// an object of two entries.
fn copy_key(model: &Model, tables: &Tables, random: &mut Random) -> Poke {
    let table = random.pick(&[Table::Entries, Table::Rulesets, Table::Layers, Table::Pool]);
    let row = row_in_use(table, model, random);
    let cell_of = |row, column| table.width() * row + column;
    let (cell, from) = match table {
        Table::Entries => (
            cell_of(row, 2),
            cell_of(row_in_use(table, model, random), 2),
        ),
        Table::Layers => (
            cell_of(row, 4),
            cell_of(row_in_use(table, model, random), 4),
        ),
        Table::Pool => (cell_of(row, 1), cell_of(row.saturating_sub(1), 1)),
        _ => {
            let rule = random.below(MAX_RULES as u64 - 1) as usize;
            let first = cell_of(row, RULESET_HEAD + RULE_WIDTH * rule + 1);
            (first, first + RULE_WIDTH)
        }
    };
    let value = tables.of(table)[from];
    Poke { table, cell, value }
}
