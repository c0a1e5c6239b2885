//! The seven tables, and the model as their contents.

use crate::names::LONGEST_NAME;
use crate::rights::{Masks, Rights};
use crate::state::{
    Key, Model, Rules, MAX_ENTRIES, MAX_LAYERS, MAX_RULES, MAX_RULESETS, MAX_THREADS, POOL_PLACES,
};

/// The cells of a rule.
pub const RULE_WIDTH: usize = 3;
/// The cells of a ruleset before its rules.
pub const RULESET_HEAD: usize = 4;
const RULESET_WIDTH: usize = RULESET_HEAD + RULE_WIDTH * MAX_RULES;
const LAYER_WIDTH: usize = 7;
/// The cell of a layer that counts its holders.
pub const HOLDERS: usize = 6;

/// The bytes of a row of names: the length, the name, zeros.
const NAME_WIDTH: usize = 1 + LONGEST_NAME;

/// The seven tables.
#[derive(Clone, Copy, PartialEq, Eq, PartialOrd, Ord, Debug)]
pub enum Table {
    System,
    Entries,
    Rulesets,
    Layers,
    Pool,
    Threads,
    /// The only one of bytes.
    Names,
}

impl Table {
    pub const ALL: [Table; 7] = [
        Table::System,
        Table::Entries,
        Table::Rulesets,
        Table::Layers,
        Table::Pool,
        Table::Threads,
        Table::Names,
    ];

    pub fn name(self) -> &'static str {
        [
            "system", "entries", "rulesets", "layers", "pool", "threads", "names",
        ][self as usize]
    }

    /// The cells of a row.
    pub const fn width(self) -> usize {
        [4, 3, RULESET_WIDTH, LAYER_WIDTH, RULE_WIDTH, 4, NAME_WIDTH][self as usize]
    }

    pub fn rows(self) -> usize {
        [
            1,
            MAX_ENTRIES as usize,
            MAX_RULESETS as usize,
            MAX_LAYERS,
            POOL_PLACES,
            MAX_THREADS as usize,
            MAX_ENTRIES as usize,
        ][self as usize]
    }

    pub fn length(self) -> usize {
        self.width() * self.rows()
    }
}

/// The cells of the seven tables, of any length and contents.
#[derive(Clone, PartialEq, Eq, Debug)]
pub struct Tables {
    /// The tables of numbers.
    pub cells: [Vec<u64>; 6],
    pub names: Vec<u8>,
}

impl Default for Tables {
    /// Tables of the right lengths, all zero.
    fn default() -> Tables {
        let mut tables = Tables {
            cells: Default::default(),
            names: Vec::new(),
        };
        for table in Table::ALL {
            tables.resize(table, table.length());
        }
        tables
    }
}

impl Tables {
    /// A table of numbers.
    pub fn of(&self, table: Table) -> &[u64] {
        &self.cells[table as usize]
    }

    /// A table of numbers, to be changed.
    pub fn of_mut(&mut self, table: Table) -> &mut Vec<u64> {
        &mut self.cells[table as usize]
    }

    /// A row of a table of numbers.
    pub fn row(&self, table: Table, row: usize) -> &[u64] {
        let width = table.width();
        &self.of(table)[width * row..width * (row + 1)]
    }

    fn row_mut(&mut self, table: Table, row: usize) -> &mut [u64] {
        let width = table.width();
        &mut self.of_mut(table)[width * row..width * (row + 1)]
    }

    /// The row of an entry's name.
    pub fn name_row(&self, entry: usize) -> &[u8] {
        &self.names[NAME_WIDTH * entry..NAME_WIDTH * (entry + 1)]
    }

    /// The cells that a table has.
    pub fn length(&self, table: Table) -> usize {
        match table {
            Table::Names => self.names.len(),
            _ => self.of(table).len(),
        }
    }

    /// Cuts a table, or fills it up with zeros.
    pub fn resize(&mut self, table: Table, length: usize) {
        match table {
            Table::Names => self.names.resize(length, 0),
            _ => self.of_mut(table).resize(length, 0),
        }
    }

    pub fn right_lengths(&self) -> bool {
        Table::ALL
            .into_iter()
            .all(|table| self.length(table) == table.length())
    }

    /// The value of a cell; 0 if the table doesn't have it.
    pub fn cell(&self, table: Table, cell: usize) -> u64 {
        let value = match table {
            Table::Names => self.names.get(cell).copied().map(u64::from),
            _ => self.of(table).get(cell).copied(),
        };
        value.unwrap_or(0)
    }

    /// Writes a cell, if the table has it; of a name, the value's lowest byte.
    pub fn poke(&mut self, table: Table, cell: usize, value: u64) {
        match table {
            Table::Names => write(&mut self.names, cell, value as u8),
            _ => write(self.of_mut(table), cell, value),
        }
    }
}

fn write<T>(cells: &mut [T], cell: usize, value: T) {
    if let Some(there) = cells.get_mut(cell) {
        *there = value;
    }
}

/// The cells that show a model.
pub fn encode(model: &Model) -> Tables {
    let mut tables = Tables::default();
    encode_into(model, &mut tables);
    tables
}

/// Writes the cells that show a model over tables of the right lengths.
pub fn encode_into(model: &Model, tables: &mut Tables) {
    for cells in &mut tables.cells {
        cells.fill(0);
    }
    tables.names.fill(0);
    tables.row_mut(Table::System, 0).copy_from_slice(&[
        model.level,
        model.next_object,
        model.layers.len() as u64,
        model.pool_used() as u64,
    ]);
    for (number, entry) in &model.entries {
        let row = [entry.kind as u64, entry.parent, entry.object];
        let cells = tables.row_mut(Table::Entries, *number as usize);
        cells.copy_from_slice(&row);
    }
    for (number, thread) in &model.threads {
        let youngest = after(thread.youngest);
        let row = [1, youngest, thread.no_new_privs.into(), thread.admin.into()];
        let cells = tables.row_mut(Table::Threads, *number as usize);
        cells.copy_from_slice(&row);
    }
    encode_names(model, tables);
    encode_rulesets(model, tables);
    encode_layers(model, tables);
}

fn encode_names(model: &Model, tables: &mut Tables) {
    for (number, name) in model.names.iter() {
        let first = NAME_WIDTH * number as usize;
        tables.names[first] = name.len() as u8;
        tables.names[first + 1..][..name.len()].copy_from_slice(name);
    }
}

fn encode_rulesets(model: &Model, tables: &mut Tables) {
    for (number, ruleset) in &model.rulesets {
        let row = tables.row_mut(Table::Rulesets, *number as usize);
        row[..3].copy_from_slice(&mask_cells(ruleset.masks));
        row[3] = ruleset.rules.len() as u64;
        encode_rules(&ruleset.rules, &mut row[RULESET_HEAD..]);
    }
}

fn encode_layers(model: &Model, tables: &mut Tables) {
    let (holders, places) = (model.holders(), model.places());
    for (number, layer) in &model.layers {
        let place = places[*number];
        let row = tables.row_mut(Table::Layers, *number);
        row[0] = after(layer.parent);
        row[1..4].copy_from_slice(&mask_cells(layer.masks));
        row[4] = place as u64;
        row[5] = layer.rules.len() as u64;
        row[HOLDERS] = holders[*number];
        encode_rules(
            &layer.rules,
            &mut tables.of_mut(Table::Pool)[RULE_WIDTH * place..],
        );
    }
}

fn encode_rules(rules: &Rules, cells: &mut [u64]) {
    for ((key, rights), rule) in rules.iter().zip(cells.chunks_exact_mut(RULE_WIDTH)) {
        rule.copy_from_slice(&rule_cells(key, rights));
    }
}

fn rule_cells(key: Key, rights: Rights) -> [u64; RULE_WIDTH] {
    match key {
        Key::Object(object) => [1, object, rights.0],
        Key::Port(port) => [2, port, rights.0],
    }
}

fn mask_cells(masks: Masks) -> [u64; 3] {
    [masks.fs.0, masks.net.0, masks.scope.0]
}

/// A layer's number plus 1, or 0 for none.
fn after(layer: Option<usize>) -> u64 {
    layer.map_or(0, |layer| layer as u64 + 1)
}
