//! Damaged variants of sound tables.

use crate::landlock::OBJECTS_END;
use crate::tables::{Tables, HOLDERS};
use random::Random;
use skeinrabbit_sys::layout::{LAYER_WIDTH, MAX_DOMAIN, NAME_WIDTH, RULE_WIDTH, WIDTHS};

/// The tables with one or two cells changed, or with a table of wrong length.
pub fn damaged(tables: &Tables, random: &mut Random) -> Tables {
    let mut variant = tables.clone();
    if random.below(20) == 0 {
        resize(&mut variant, random);
        return variant;
    }
    poke(&mut variant, random);
    if random.below(4) == 0 {
        poke(&mut variant, random);
    }
    if random.below(3) == 0 {
        variant = tables.clone();
        poke_name(&mut variant, random);
    }
    variant
}

/// Changes a byte of a row of the names, mostly of one in use, or makes the row that of another entry.
fn poke_name(tables: &mut Tables, random: &mut Random) {
    let rows = tables.live_entries().min(1023) + 1;
    let [row, other] = [(); 2].map(|()| NAME_WIDTH * random.below(rows) as usize);
    if random.below(4) == 0 {
        tables.names.copy_within(other..other + NAME_WIDTH, row);
        return;
    }
    let length = u64::from(tables.names[row]);
    let column = match random.below(8) {
        0 => 0,
        1 => random.below(NAME_WIDTH as u64),
        _ => 1 + random.below(length + 1),
    };
    let byte = random.pick(&[0, 1, 48, 49, b'/', b'.', b'e', 255]);
    tables.names[row + (column as usize).min(NAME_WIDTH - 1)] = byte;
}

/// Variants at limits that random damage rarely meets.
pub fn at_limits(tables: &Tables) -> Vec<Tables> {
    let mut variants = Vec::new();
    let mut add = |change: &dyn Fn(&mut Tables)| {
        let mut variant = tables.clone();
        change(&mut variant);
        variants.push(variant);
    };
    for counter in [OBJECTS_END, OBJECTS_END + 1] {
        add(&|variant| variant.system[1] = counter);
    }
    for layers in MAX_DOMAIN..=MAX_DOMAIN + 1 {
        add(&|variant| one_domain(variant, layers));
    }
    add(&|variant| {
        one_domain(variant, 1);
        // The only layer is its own parent, in no thread's domain.
        variant.layers[0] = 1;
        variant.threads[1] = 0;
    });
    for used in 2..4 {
        add(&|variant| variant.system[used] += 1);
        add(&|variant| variant.system[used] = variant.system[used].wrapping_sub(1));
    }
    add(&|variant| *variant.names.last_mut().unwrap() = 1);
    for table in 0..6 {
        add(&|variant| *variant.all_mut()[table].last_mut().unwrap() = 1);
    }
    variants
}

/// Leaves the first layers, or fewer where there are no more, in one line in the domain of the only thread. Their rules stand first in
/// the pool.
fn one_domain(tables: &mut Tables, layers: usize) {
    let kept = layers.min(tables.system[2] as usize);
    let mut rules = 0;
    for (number, row) in tables.layers.chunks_exact_mut(LAYER_WIDTH).enumerate() {
        if number < kept {
            row[0] = number as u64;
            row[HOLDERS] = 1;
            rules += row[5];
        } else {
            row.fill(0);
        }
    }
    tables.system[2] = kept as u64;
    tables.system[3] = rules;
    tables.pool[RULE_WIDTH * rules as usize..].fill(0);
    tables.threads.fill(0);
    tables.put_thread(0, [1, kept as u64, 0, 0]);
}

fn resize(tables: &mut Tables, random: &mut Random) {
    let table = random.below(7) as usize;
    if table == 6 {
        let length = random.pick(&[0, tables.names.len() - 1, tables.names.len() + 1]);
        tables.names.resize(length, 0);
        return;
    }
    let cells = &mut tables.all_mut()[table];
    let length = random.pick(&[0, cells.len() - 1, cells.len() + 1]);
    cells.resize(length, 0);
}

fn poke(tables: &mut Tables, random: &mut Random) {
    let table = random.below(6) as usize;
    let width = WIDTHS[table];
    let cells = &mut tables.all_mut()[table];
    let row = row_in_use(cells, width, random);
    // Mostly one of a row's first cells: those of a ruleset before its rules and the first rules.
    let columns = if random.below(8) == 0 {
        width
    } else {
        width.min(16)
    };
    let column = random.below(columns as u64) as usize;
    let other = cells[width * row_in_use(cells, width, random) + column];
    let cell = &mut cells[width * row + column];
    *cell = changed(*cell, other, random);
}

/// Mostly a row that isn't all zero.
fn row_in_use(cells: &[u64], width: usize, random: &mut Random) -> usize {
    let rows: Vec<&[u64]> = cells.chunks_exact(width).collect();
    let mut row = 0;
    for _ in 0..32 {
        row = random.below(rows.len() as u64) as usize;
        if rows[row].iter().any(|cell| *cell != 0) {
            break;
        }
    }
    row
}

/// Another value for a cell; `other` is the same cell of another row.
fn changed(cell: u64, other: u64, random: &mut Random) -> u64 {
    match random.below(8) {
        0 => cell.wrapping_add(1),
        1 => cell.wrapping_sub(1),
        2 => cell ^ (1 << random.below(17)),
        3 => 0,
        4 => 1 << random.below(64),
        5 => random.below(1024),
        _ => other,
    }
}
