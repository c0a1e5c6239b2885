//! The soundness test: the clauses that any way of testing shares. What takes long has two ways.

mod buckets;
mod names;
mod pairwise;

pub use buckets::Buckets;
pub use names::is_bad;
pub use pairwise::Pairwise;

use crate::landlock::{
    known_rights, DIRECTORY, FILE_SET, LAST_KIND, LAST_LEVEL, LAST_PORT, OBJECTS_END, PATH_RULE,
    PORT_RULE,
};
use crate::tables::{Tables, HOLDERS};
use skeinrabbit_sys::layout::{
    ENTRY_WIDTH, LAYER_WIDTH, MAX_ENTRIES, MAX_LAYERS, MAX_POOL, MAX_RULES, RULESET_HEAD,
    RULESET_WIDTH, RULE_WIDTH, THREAD_WIDTH,
};
use skeinrabbit_sys::{NAMES_SIZE, SIZES};

/// A way to test what takes long.
pub trait Method<'a>: Sized {
    /// Reads entries whose rows are sound each by itself, and free from `end` on. None if a climb doesn't end at entry 0, or if two entries of one
    /// object differ in kind or are directories.
    fn new(entries: &'a [u64], end: usize) -> Option<Self>;

    /// Whether some live entry other than a directory has the object.
    fn is_file_object(&self, object: u64) -> bool;

    /// What is kept of the rules gone over.
    type Seen: Default;

    /// Whether no rule before this one, all of them gone over, is for the same object or port.
    fn key_new(seen: &mut Self::Seen, rules: &[u64], number: usize) -> bool;

    /// Whether the runs of layers, each within the pool, don't overlap.
    fn runs_apart(layers: &[u64]) -> bool;

    /// Whether the count of each layer is the number of layers and threads that name it; all name records.
    fn counts_true(layers: &[u64], threads: &[u64]) -> bool;

    /// Whether climbing from each layer ends within the limit of a domain; parents are records.
    fn domains_end(layers: &[u64]) -> bool;

    fn all_zero(cells: &[u64]) -> bool;

    /// The rows of entries after which all are free, or more.
    fn rows_used(entries: &[u64]) -> usize;

    /// Whether no two entries of one directory have the same name, of rows that are sound each by itself.
    fn names_apart(entries: &[u64], names: &[u8]) -> bool;
}

/// Whether the tables are sound, for tables of any length and contents. That there is no ruleset and no layer at level 0
/// follows: each handles something, and level 0 knows no right.
pub fn is_sound<'a, M: Method<'a>>(tables: &'a Tables) -> bool {
    let lengths_right = tables.all().map(|table| table.len()) == SIZES;
    lengths_right
        && tables.names.len() == NAMES_SIZE
        && system_sound(&tables.system)
        && threads_sound(&tables.threads)
        && layer_rows_sound::<M>(tables)
        && M::counts_true(&tables.layers, &tables.threads)
        && M::domains_end(&tables.layers)
        && entries_and_rules_sound::<M>(tables)
        && names::rows_sound(&tables.entries, &tables.names)
        && M::names_apart(&tables.entries, &tables.names)
}

fn entries_and_rules_sound<'a, M: Method<'a>>(tables: &'a Tables) -> bool {
    let end = M::rows_used(&tables.entries);
    entries_sound(&tables.entries, end, tables.system[1])
        && M::new(&tables.entries, end).is_some_and(|method| {
            let rules = RuleTest::new(tables, method);
            rules.rulesets_sound(&tables.rulesets) && rules.layers_sound(tables)
        })
}

fn system_sound(system: &[u64]) -> bool {
    system[0] <= LAST_LEVEL
        && (1..=OBJECTS_END).contains(&system[1])
        && system[3] <= MAX_POOL as u64
}

fn threads_sound(threads: &[u64]) -> bool {
    let mut rows = threads.chunks_exact(THREAD_WIDTH);
    rows.all(|row| match row[0] {
        0 => row == [0; THREAD_WIDTH],
        1 => row[1] <= MAX_LAYERS as u64 && row[2] <= 1 && row[3] <= 1,
        _ => false,
    })
}

/// Whether each layer's row is sound by itself, but for masks and rules, and the runs fill the used pool.
fn layer_rows_sound<'a, M: Method<'a>>(tables: &Tables) -> bool {
    let (mut used, mut filled) = (0, 0);
    let pool_used = tables.system[3];
    let mut rows = tables.layers.chunks_exact(LAYER_WIDTH);
    let sound = rows.all(|row| {
        if row[HOLDERS] == 0 {
            return row == [0; LAYER_WIDTH];
        }
        let (parent, first, count) = (row[0], row[4], row[5]);
        used += 1;
        filled += count.min(MAX_RULES as u64);
        let placed = first <= pool_used && count <= pool_used - first;
        placed
            && parent <= MAX_LAYERS as u64
            && count <= MAX_RULES as u64
            && (count != 0 || first == 0)
    });
    sound
        && tables.system[2] == used
        && pool_used == filled
        && M::runs_apart(&tables.layers)
        && M::all_zero(&tables.pool[RULE_WIDTH * pool_used as usize..])
}

/// Whether entry 0 is the root and every row is sound by itself.
fn entries_sound(entries: &[u64], end: usize, next_object: u64) -> bool {
    let rows = entries.chunks_exact(ENTRY_WIDTH);
    entries[..ENTRY_WIDTH] == [DIRECTORY, 0, 0]
        && rows.take(end).all(|row| {
            let (kind, parent, object) = (row[0], row[1], row[2]);
            if kind == 0 {
                return parent | object == 0;
            }
            let below_directory =
                parent < MAX_ENTRIES as u64 && entries[ENTRY_WIDTH * parent as usize] == DIRECTORY;
            kind <= LAST_KIND && below_directory && object < next_object
        })
}

/// Whether no rule before this one is for the same object or port, by comparing.
fn unlike_those_before(rules: &[u64], number: usize) -> bool {
    let (before, rest) = rules.split_at(RULE_WIDTH * number);
    let mut before = before.chunks_exact(RULE_WIDTH);
    before.all(|other| other[1] != rest[1] || other[0] != rest[0])
}

/// What rules and masks are tested against.
struct RuleTest<M> {
    next_object: u64,
    known: [u64; 3],
    method: M,
}

impl<'a, M: Method<'a>> RuleTest<M> {
    fn new(tables: &Tables, method: M) -> RuleTest<M> {
        RuleTest {
            next_object: tables.system[1],
            known: known_rights(tables.system[0]),
            method,
        }
    }

    fn rulesets_sound(&self, rulesets: &[u64]) -> bool {
        let mut rows = rulesets.chunks_exact(RULESET_WIDTH);
        rows.all(|row| {
            let (masks, count) = (&row[..3], row[3]);
            if masks == [0; 3] {
                return M::all_zero(row);
            }
            if count > MAX_RULES as u64 || !self.masks_known(masks) {
                return false;
            }
            let (rules, free) = row[RULESET_HEAD..].split_at(RULE_WIDTH * count as usize);
            M::all_zero(free) && self.rules_sound(masks, rules)
        })
    }

    /// Tests the masks and rules of layers whose runs lie in the pool.
    fn layers_sound(&self, tables: &Tables) -> bool {
        let mut rows = tables.layers.chunks_exact(LAYER_WIDTH);
        rows.all(|row| {
            let (masks, first, count) = (&row[1..4], row[4] as usize, row[5] as usize);
            let rules = &tables.pool[RULE_WIDTH * first..][..RULE_WIDTH * count];
            let free = row[HOLDERS] == 0;
            free || masks != [0; 3] && self.masks_known(masks) && self.rules_sound(masks, rules)
        })
    }

    fn masks_known(&self, masks: &[u64]) -> bool {
        let mut pairs = masks.iter().zip(self.known);
        pairs.all(|(mask, known)| mask & !known == 0)
    }

    fn rules_sound(&self, masks: &[u64], rules: &[u64]) -> bool {
        let mut seen = M::Seen::default();
        let mut each = rules.chunks_exact(RULE_WIDTH).enumerate();
        each.all(|(number, rule)| {
            self.rule_sound(masks, rule) && M::key_new(&mut seen, rules, number)
        })
    }

    fn rule_sound(&self, masks: &[u64], rule: &[u64]) -> bool {
        let (key, rights) = (rule[1], rule[2]);
        let sound = match rule[0] {
            PATH_RULE => {
                key < self.next_object
                    && rights & !masks[0] == 0
                    && (rights & !FILE_SET == 0 || !self.method.is_file_object(key))
            }
            PORT_RULE => key <= LAST_PORT && rights & !masks[1] == 0,
            _ => false,
        };
        sound && rights != 0
    }
}
