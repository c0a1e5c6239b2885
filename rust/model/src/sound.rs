//! Whether tables are sound, clause by clause, and the model they show if so.

use crate::names::{Names, LONGEST_NAME};
use crate::rights::{Masks, Rights};
use crate::state::{
    Entry, Key, Kind, Layer, Model, Rules, Ruleset, Thread, LAST_LEVEL, MAX_DOMAIN, MAX_ENTRIES,
    MAX_LAYERS, MAX_PORT, MAX_RULES, OBJECTS_END, POOL_PLACES, ROOT,
};
use crate::tables::{Table, Tables, HOLDERS, RULESET_HEAD, RULE_WIDTH};
use std::collections::BTreeMap;

macro_rules! clauses {
    ($($name:ident)*) => {
        /// A clause of soundness that doesn't hold.
        #[derive(Clone, Copy, PartialEq, Eq, PartialOrd, Ord, Debug)]
        pub enum Unsound {
            $($name,)*
        }

        impl Unsound {
            pub const ALL: &'static [Unsound] = &[$(Unsound::$name),*];
        }
    };
}

clauses! {
    Lengths
    Level
    ObjectCounter
    PoolCounter
    Root
    Kind
    FreeEntry
    ParentNotLive
    ParentNotDirectory
    NotBelowRoot
    ObjectNotBelowCounter
    LinksOfTwoKinds
    LinkedDirectory
    NamedRoot
    NameOfFreeEntry
    NameLength
    NamePadding
    NameOfDots
    NameWithSlash
    NameWithZero
    NameTwice
    ClosedRuleset
    MasksNotOfLevel
    LayerHandlesNothing
    TooManyRules
    FreeRule
    RuleType
    RuleObject
    RulePort
    RuleGrantsNothing
    RuleNotAsked
    RuleTwice
    RuleNotForFile
    FreeLayer
    LayersUsed
    EmptyRunPlace
    RunNotInPool
    RunsOverlap
    PoolNotFilled
    FreePool
    ThreadLive
    FreeThread
    Marks
    LayerParent
    YoungestLayer
    Holders
    DomainTooDeep
}

type Checked<T> = Result<T, Unsound>;

/// The model that sound tables show; none for other tables.
pub fn decode(tables: &Tables) -> Option<Model> {
    check(tables).ok()
}

/// As [`decode`], with the first clause that doesn't hold.
///
/// That level 0 has no ruleset and no layer follows: each handles something, and level 0 knows no
/// bit.
pub fn check(tables: &Tables) -> Checked<Model> {
    ensure(tables.right_lengths(), Unsound::Lengths)?;
    let [level, next_object, layers_used, pool_used] = cells_of(tables.of(Table::System));
    ensure(level <= LAST_LEVEL, Unsound::Level)?;
    ensure(
        (1..=OBJECTS_END).contains(&next_object),
        Unsound::ObjectCounter,
    )?;
    ensure(pool_used <= POOL_PLACES as u64, Unsound::PoolCounter)?;
    let mut model = Model {
        next_object,
        ..Model::fresh(level)
    };
    model.entries = entries(tables)?;
    tree_sound(&model.entries, next_object)?;
    model.names = names(tables, &model.entries)?;
    let rule_check = RuleCheck {
        next_object,
        kinds: object_kinds(&model.entries),
        known: Masks::known(level),
    };
    model.rulesets = rulesets(tables, &rule_check)?;
    let records = records_in_use(tables)?;
    ensure(layers_used == records.len() as u64, Unsound::LayersUsed)?;
    model.runs = runs(tables, &records, pool_used as usize)?;
    for number in records {
        let layer = layer(tables, number, &rule_check)?;
        model.layers.insert(number, layer);
    }
    model.threads = threads(tables)?;
    domains_sound(tables, &model)?;
    Ok(model)
}

fn ensure(holds: bool, clause: Unsound) -> Checked<()> {
    if holds {
        Ok(())
    } else {
        Err(clause)
    }
}

/// The cells of a row whose width is known.
fn cells_of<const N: usize>(row: &[u64]) -> [u64; N] {
    let mut cells = [0; N];
    cells.copy_from_slice(row);
    cells
}

fn all_zero(cells: &[u64]) -> bool {
    // Without an early end, so that many cells are read at once.
    cells.iter().fold(0, |bits, cell| bits | cell) == 0
}

fn entries(tables: &Tables) -> Checked<BTreeMap<u64, Entry>> {
    let mut entries = BTreeMap::new();
    for (number, row) in tables.of(Table::Entries).chunks_exact(3).enumerate() {
        let [kind, parent, object] = cells_of(row);
        if kind == 0 {
            ensure(all_zero(row), Unsound::FreeEntry)?;
            continue;
        }
        let kind = Kind::of_number(kind).ok_or(Unsound::Kind)?;
        let entry = Entry {
            kind,
            parent,
            object,
        };
        entries.insert(number as u64, entry);
    }
    Ok(entries)
}

fn tree_sound(entries: &BTreeMap<u64, Entry>, next_object: u64) -> Checked<()> {
    let root = entries.get(&ROOT).ok_or(Unsound::Root)?;
    let root_row = (root.kind, root.parent, root.object);
    ensure(root_row == (Kind::Directory, ROOT, 0), Unsound::Root)?;
    let mut links: BTreeMap<u64, Kind> = BTreeMap::new();
    for entry in entries.values() {
        let parent = entries.get(&entry.parent).ok_or(Unsound::ParentNotLive)?;
        ensure(parent.kind.is_directory(), Unsound::ParentNotDirectory)?;
        ensure(entry.object < next_object, Unsound::ObjectNotBelowCounter)?;
        if let Some(kind) = links.insert(entry.object, entry.kind) {
            ensure(kind == entry.kind, Unsound::LinksOfTwoKinds)?;
            ensure(!kind.is_directory(), Unsound::LinkedDirectory)?;
        }
    }
    ensure(below_root(entries) == entries.len(), Unsound::NotBelowRoot)
}

/// The names of the entries other than the root; all other bytes are zero.
fn names(tables: &Tables, entries: &BTreeMap<u64, Entry>) -> Checked<Names> {
    let mut named = Vec::new();
    let mut entries = entries.iter().peekable();
    for number in 0..MAX_ENTRIES {
        let row = tables.name_row(number as usize);
        match entries.next_if(|(live, _)| **live == number) {
            Some((_, entry)) if number != ROOT => named.push((number, entry.parent, name(row)?)),
            live => {
                let clause = live.map_or(Unsound::NameOfFreeEntry, |_| Unsound::NamedRoot);
                ensure(row == [0; Table::Names.width()], clause)?;
            }
        }
    }
    Names::of_all(named).ok_or(Unsound::NameTwice)
}

/// The name in a row: its length, its bytes, zeros.
fn name(row: &[u8]) -> Checked<&[u8]> {
    let length = row[0] as usize;
    ensure((1..=LONGEST_NAME).contains(&length), Unsound::NameLength)?;
    let (name, padding) = row[1..].split_at(length);
    ensure(padding.iter().all(|byte| *byte == 0), Unsound::NamePadding)?;
    ensure(name != b"." && name != b"..", Unsound::NameOfDots)?;
    ensure(!name.contains(&b'/'), Unsound::NameWithSlash)?;
    ensure(!name.contains(&0), Unsound::NameWithZero)?;
    Ok(name)
}

/// How many entries are reached from the root downwards, the root included.
fn below_root(entries: &BTreeMap<u64, Entry>) -> usize {
    let mut children: BTreeMap<u64, Vec<u64>> = BTreeMap::new();
    for (number, entry) in entries.iter().filter(|(number, _)| **number != ROOT) {
        children.entry(entry.parent).or_default().push(*number);
    }
    let mut reached = 0;
    let mut waiting = vec![ROOT];
    while let Some(at) = waiting.pop() {
        reached += 1;
        waiting.extend(children.remove(&at).unwrap_or_default());
    }
    reached
}

fn object_kinds(entries: &BTreeMap<u64, Entry>) -> BTreeMap<u64, Kind> {
    let pairs = entries.values().map(|entry| (entry.object, entry.kind));
    pairs.collect()
}

/// What rules and masks are checked against.
struct RuleCheck {
    next_object: u64,
    /// The kind of each live object.
    kinds: BTreeMap<u64, Kind>,
    known: Masks,
}

impl RuleCheck {
    fn masks(&self, cells: &[u64]) -> Checked<Masks> {
        let [fs, net, scope] = cells_of(cells).map(Rights);
        let masks = Masks { fs, net, scope };
        ensure(masks.within(&self.known), Unsound::MasksNotOfLevel)?;
        Ok(masks)
    }

    fn rules(&self, cells: &[u64], masks: &Masks) -> Checked<Rules> {
        let mut rules = Rules::default();
        for rule in cells.chunks_exact(RULE_WIDTH) {
            let (key, rights) = self.rule(rule, masks)?;
            ensure(!rules.contains(key), Unsound::RuleTwice)?;
            rules.add(key, rights);
        }
        Ok(rules)
    }

    fn rule(&self, cells: &[u64], masks: &Masks) -> Checked<(Key, Rights)> {
        let [sort, number, rights] = cells_of(cells);
        let rights = Rights(rights);
        ensure(!rights.is_empty(), Unsound::RuleGrantsNothing)?;
        match sort {
            1 => {
                ensure(number < self.next_object, Unsound::RuleObject)?;
                ensure(rights.within(masks.fs), Unsound::RuleNotAsked)?;
                let kind = self.kinds.get(&number);
                let sensible = kind.map_or(Rights::ALL, |kind| kind.rights());
                ensure(rights.within(sensible), Unsound::RuleNotForFile)?;
                Ok((Key::Object(number), rights))
            }
            2 => {
                ensure(number <= MAX_PORT, Unsound::RulePort)?;
                ensure(rights.within(masks.net), Unsound::RuleNotAsked)?;
                Ok((Key::Port(number), rights))
            }
            _ => Err(Unsound::RuleType),
        }
    }
}

fn rulesets(tables: &Tables, check: &RuleCheck) -> Checked<BTreeMap<u64, Ruleset>> {
    let mut rulesets = BTreeMap::new();
    for number in 0..Table::Rulesets.rows() {
        let row = tables.row(Table::Rulesets, number);
        let masks = check.masks(&row[..3])?;
        if masks.is_empty() {
            ensure(all_zero(row), Unsound::ClosedRuleset)?;
            continue;
        }
        ensure(row[3] <= MAX_RULES as u64, Unsound::TooManyRules)?;
        let (used, free) = row[RULESET_HEAD..].split_at(RULE_WIDTH * row[3] as usize);
        ensure(all_zero(free), Unsound::FreeRule)?;
        let rules = check.rules(used, &masks)?;
        rulesets.insert(number as u64, Ruleset { masks, rules });
    }
    Ok(rulesets)
}

/// The layer records that have holders; the others are zero.
fn records_in_use(tables: &Tables) -> Checked<Vec<usize>> {
    let mut records = Vec::new();
    for number in 0..MAX_LAYERS {
        let row = tables.row(Table::Layers, number);
        if row[HOLDERS] == 0 {
            ensure(all_zero(row), Unsound::FreeLayer)?;
        } else {
            records.push(number);
        }
    }
    Ok(records)
}

/// The records whose rules the used pool has, in its order: the runs lie in it side by side and
/// leave no place out, and behind them all is zero.
fn runs(tables: &Tables, records: &[usize], pool_used: usize) -> Checked<Vec<usize>> {
    let mut runs = BTreeMap::new();
    let mut filled = vec![false; pool_used];
    for number in records {
        let (first, count) = run(tables, *number);
        ensure(count <= MAX_RULES as u64, Unsound::TooManyRules)?;
        if count == 0 {
            ensure(first == 0, Unsound::EmptyRunPlace)?;
            continue;
        }
        let end = first.checked_add(count).ok_or(Unsound::RunNotInPool)?;
        ensure(end <= pool_used as u64, Unsound::RunNotInPool)?;
        for place in &mut filled[first as usize..end as usize] {
            ensure(!*place, Unsound::RunsOverlap)?;
            *place = true;
        }
        runs.insert(first, *number);
    }
    ensure(filled.iter().all(|place| *place), Unsound::PoolNotFilled)?;
    let free = &tables.of(Table::Pool)[RULE_WIDTH * pool_used..];
    ensure(all_zero(free), Unsound::FreePool)?;
    Ok(runs.into_values().collect())
}

/// The first pool place of a record's rules, and their number.
fn run(tables: &Tables, number: usize) -> (u64, u64) {
    let row = tables.row(Table::Layers, number);
    (row[4], row[5])
}

/// A layer in use, whose rules lie in the pool.
fn layer(tables: &Tables, number: usize, check: &RuleCheck) -> Checked<Layer> {
    let row = tables.row(Table::Layers, number);
    let masks = check.masks(&row[1..4])?;
    ensure(!masks.is_empty(), Unsound::LayerHandlesNothing)?;
    let (first, count) = run(tables, number);
    let (start, length) = (RULE_WIDTH * first as usize, RULE_WIDTH * count as usize);
    let cells = &tables.of(Table::Pool)[start..start + length];
    Ok(Layer {
        parent: layer_of(row[0]).ok_or(Unsound::LayerParent)?,
        masks,
        rules: check.rules(cells, &masks)?,
    })
}

/// The layer that a cell names, or none, if there is such a record.
fn layer_of(cell: u64) -> Option<Option<usize>> {
    if cell > MAX_LAYERS as u64 {
        return None;
    }
    Some((cell as usize).checked_sub(1))
}

fn threads(tables: &Tables) -> Checked<BTreeMap<u64, Thread>> {
    let mut threads = BTreeMap::new();
    for (number, row) in tables.of(Table::Threads).chunks_exact(4).enumerate() {
        let [live, youngest, no_new_privs, admin] = cells_of(row);
        if live == 0 {
            ensure(all_zero(row), Unsound::FreeThread)?;
            continue;
        }
        ensure(live == 1, Unsound::ThreadLive)?;
        ensure(no_new_privs <= 1 && admin <= 1, Unsound::Marks)?;
        let thread = Thread {
            youngest: layer_of(youngest).ok_or(Unsound::YoungestLayer)?,
            no_new_privs: no_new_privs == 1,
            admin: admin == 1,
        };
        threads.insert(number as u64, thread);
    }
    Ok(threads)
}

/// Layers and threads name layers in use, the counts of holders are true, and climbing from any
/// layer ends within the limit of a domain.
fn domains_sound(tables: &Tables, model: &Model) -> Checked<()> {
    let in_use = |layer: Option<usize>| layer.is_none_or(|layer| model.layers.contains_key(&layer));
    let mut parents = model.layers.values().map(|layer| layer.parent);
    ensure(parents.all(in_use), Unsound::LayerParent)?;
    let mut youngest = model.threads.values().map(|thread| thread.youngest);
    ensure(youngest.all(in_use), Unsound::YoungestLayer)?;
    let holders = model.holders();
    for number in model.layers.keys() {
        let counted = tables.row(Table::Layers, *number)[HOLDERS];
        ensure(counted == holders[*number], Unsound::Holders)?;
    }
    let mut layers = model.layers.keys();
    let shallow = layers.all(|number| climbs(model, *number) <= MAX_DOMAIN);
    ensure(shallow, Unsound::DomainTooDeep)
}

/// The layers of a climb from one, or one more than a domain may have.
fn climbs(model: &Model, from: usize) -> usize {
    let climb = std::iter::successors(Some(from), |layer| model.layers[layer].parent);
    climb.take(MAX_DOMAIN + 1).count()
}
