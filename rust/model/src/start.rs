//! Random sound tables to start from: small ones, deep ones, and nearly full ones.

use crate::paths::new_name;
use crate::rights::{Masks, Rights};
use crate::state::{
    Entry, Key, Kind, Layer, Model, Rules, Ruleset, Thread, LAST_LEVEL, MAX_DOMAIN, MAX_LAYERS,
    MAX_RULES, MAX_RULESETS, MAX_THREADS, OBJECTS_END, POOL_PLACES, ROOT,
};
use random::Random;

/// Random sound tables.
pub fn start(random: &mut Random) -> Model {
    let level = if random.chance(60) {
        LAST_LEVEL
    } else {
        random.between(0, LAST_LEVEL)
    };
    let mut model = Model::fresh(level);
    if random.chance(10) {
        return model;
    }
    grow_tree(&mut model, random);
    let shape = shape(random);
    start_threads(&mut model, shape, random);
    if level > 0 {
        open_rulesets(&mut model, random);
        let layers = stack_layers(&mut model, shape, random);
        place_layers(&mut model, layers, random);
    }
    model
}

/// How a tree grows; chances in a hundred.
struct Growth {
    /// Of standing below the last directory.
    down: u64,
    /// Of a new entry being a hard link.
    links: u64,
    /// Of a new object being a directory.
    directories: u64,
    /// Object numbers skipped are fewer than this.
    gap: u64,
}

fn grow_tree(model: &mut Model, random: &mut Random) {
    let count = match random.below(10) {
        0..=3 => random.between(3, 12),
        4..=6 => random.between(10, 60),
        7 => random.between(100, 700),
        _ => random.between(1015, 1023),
    };
    let mut numbers: Vec<u64> = (1..1024).collect();
    if random.chance(40) {
        random.shuffle(&mut numbers);
    }
    let growth = Growth {
        down: random.pick(&[0, 30, 97]),
        links: random.pick(&[0, 10, 40]),
        directories: random.pick(&[30, 60, 98]),
        gap: random.pick(&[1, 1, 4, 1000]),
    };
    let mut directories = vec![ROOT];
    let mut files = Vec::new();
    for number in numbers.into_iter().take(count as usize) {
        let entry = grown(model, random, &growth, &directories, &files);
        let name = new_name(model, entry.parent, random);
        model.add_entry(number, entry, &name);
        if entry.kind.is_directory() {
            directories.push(number);
        } else {
            files.push(entry);
        }
    }
    if random.chance(15) {
        model.next_object = OBJECTS_END - random.below(4);
    }
}

/// The next entry: a link to one of the files, or a new object.
fn grown(
    model: &mut Model,
    random: &mut Random,
    growth: &Growth,
    directories: &[u64],
    files: &[Entry],
) -> Entry {
    let parent = if random.chance(growth.down) {
        directories[directories.len() - 1]
    } else {
        random.pick(directories)
    };
    if !files.is_empty() && random.chance(growth.links) {
        let linked = random.pick(files);
        return Entry { parent, ..linked };
    }
    let kind = if random.chance(growth.directories) {
        Kind::Directory
    } else {
        random.pick(&Kind::ALL)
    };
    let object = model.next_object + random.below(growth.gap);
    model.next_object = object + 1;
    Entry {
        kind,
        parent,
        object,
    }
}

fn open_rulesets(model: &mut Model, random: &mut Random) {
    let count = match random.below(4) {
        0 => random.between(14, MAX_RULESETS),
        _ => random.between(0, 4),
    };
    let entries: Vec<Entry> = model.entries.values().copied().collect();
    let mut numbers: Vec<u64> = (0..MAX_RULESETS).collect();
    random.shuffle(&mut numbers);
    for number in numbers.into_iter().take(count as usize) {
        let masks = masks(model.level, random);
        let count = match random.below(4) {
            0 => random.between(MAX_RULES as u64 - 3, MAX_RULES as u64),
            _ => random.between(0, 6),
        };
        let rules = rules(&entries, model, &masks, count, random);
        model.rulesets.insert(number, Ruleset { masks, rules });
    }
}

/// Masks that a level knows, never all empty at level 1 and above.
pub fn masks(level: u64, random: &mut Random) -> Masks {
    let known = Masks::known(level);
    let mut fs = match random.below(4) {
        0 => known.fs.0,
        1 => random.bits_of(known.fs.0),
        2 => 0,
        _ => (1 << random.below(16)) | (1 << random.below(16)) | random.pick(&[0, 0x3ff0, 2, 4]),
    };
    if random.chance(60) {
        fs |= Rights::REFER.0;
    }
    let net = if random.chance(40) {
        random.number()
    } else {
        0
    };
    let scope = if random.chance(25) {
        random.number()
    } else {
        0
    };
    let masks = Masks {
        fs: Rights(fs).common(known.fs),
        net: Rights(net).common(known.net),
        scope: Rights(scope).common(known.scope),
    };
    if masks.is_empty() {
        let fs = Rights::WRITE_FILE;
        return Masks { fs, ..masks };
    }
    masks
}

/// Rules that masks allow; perhaps fewer than asked for.
fn rules(
    entries: &[Entry],
    model: &Model,
    masks: &Masks,
    count: u64,
    random: &mut Random,
) -> Rules {
    let mut rules = Rules::default();
    let ports = port_limit(masks, count);
    for _ in 0..3 * count {
        if rules.len() < (count as usize).min(MAX_RULES) {
            let (key, rights) = rule(entries, model, masks, ports, random);
            if !rights.is_empty() {
                rules.add(key, rights);
            }
        }
    }
    rules
}

fn rule(
    entries: &[Entry],
    model: &Model,
    masks: &Masks,
    ports: u64,
    random: &mut Random,
) -> (Key, Rights) {
    if !masks.net.is_empty() && random.chance(30) {
        let port = random.below(ports);
        return (Key::Port(port), some_of(masks.net, random));
    }
    if random.chance(10) {
        let object = random.below(model.next_object);
        let live = entries.iter().find(|entry| entry.object == object);
        let kind = live.map_or(Kind::Directory, |entry| entry.kind);
        return (
            Key::Object(object),
            some_of(masks.fs.common(kind.rights()), random),
        );
    }
    let entry = if random.chance(15) {
        entries[0]
    } else {
        random.pick(entries)
    };
    let rights = some_of(masks.fs.common(entry.kind.rights()), random);
    (Key::Object(entry.object), rights)
}

/// Few ports where both rights are handled, so that requests meet them; any where there are many
/// rules, so that they come to as many.
fn port_limit(masks: &Masks, rules: u64) -> u64 {
    if masks.net == Rights::NETWORK && rules <= 20 {
        20
    } else {
        65_536
    }
}

/// All of some rights, all but one, or a few.
pub fn some_of(rights: Rights, random: &mut Random) -> Rights {
    match random.below(4) {
        0 => Rights(random.bits_of(rights.0)),
        1 => rights.without(Rights(1 << random.below(16))),
        _ => rights,
    }
}

/// How the domains of the threads grow.
#[derive(Clone, Copy, PartialEq, Eq)]
enum Shape {
    None,
    Few,
    /// A domain with about as many layers as it may have.
    Deep,
    /// Nearly all records are in use.
    Many,
    /// Layers with so many rules that the pool is nearly full.
    FullPool,
    /// Layers that grant almost everything everywhere, so that moves between directories are decided
    /// by the few rights that some directories or files get in addition, and by whether a layer
    /// without a file system mask handles REFER.
    Uneven,
}

fn shape(random: &mut Random) -> Shape {
    match random.below(20) {
        0 | 1 => Shape::None,
        2..=8 => Shape::Few,
        9 | 10 => Shape::Deep,
        11 | 12 => Shape::Many,
        13 => Shape::FullPool,
        _ => Shape::Uneven,
    }
}

/// Gives each thread a domain that grows from that of another one, or from none; answers the layers
/// in the order in which they were made. All are reached.
fn stack_layers(model: &mut Model, shape: Shape, random: &mut Random) -> Vec<Layer> {
    let entries: Vec<Entry> = model.entries.values().copied().collect();
    let most_rules = random.pick(&[0, 4, 8, MAX_RULES as u64]);
    let threads: Vec<u64> = model.threads.keys().copied().collect();
    let mut made: Vec<Layer> = Vec::new();
    for (turn, thread) in threads.iter().enumerate() {
        let mut youngest = below_new_ones(&made, shape, random);
        let room = (MAX_DOMAIN - depth(&made, youngest)).min(MAX_LAYERS - made.len());
        let left = threads.len() - turn;
        for _ in 0..new_layers(shape, turn, left, made.len(), random).min(room) {
            let used: usize = made.iter().map(|layer| layer.rules.len()).sum();
            let free = POOL_PLACES - used;
            let (masks, rules) = match shape {
                Shape::Uneven => uneven(&entries, model.level, free, random),
                Shape::FullPool if model.level >= 4 => ports(free, random),
                _ => plain(&entries, model, most_rules.min(free as u64), random),
            };
            let parent = youngest;
            youngest = Some(made.len());
            made.push(Layer {
                parent,
                masks,
                rules,
            });
        }
        if let Some(thread) = model.threads.get_mut(thread) {
            thread.youngest = youngest;
        }
    }
    made
}

/// The layer that a thread's own ones stand on: none, the last one, or any.
fn below_new_ones(made: &[Layer], shape: Shape, random: &mut Random) -> Option<usize> {
    let alone = if shape == Shape::Many { 70 } else { 20 };
    if made.is_empty() || random.chance(alone) {
        return None;
    }
    let last = made.len() - 1;
    if random.chance(60) {
        Some(last)
    } else {
        Some(random.below(made.len() as u64) as usize)
    }
}

/// The layers of a climb.
fn depth(made: &[Layer], youngest: Option<usize>) -> usize {
    std::iter::successors(youngest, |layer| made[*layer].parent).count()
}

/// How many layers a thread gets of its own, where so many threads have yet to get theirs.
fn new_layers(shape: Shape, turn: usize, left: usize, made: usize, random: &mut Random) -> usize {
    let deep = random.between(MAX_DOMAIN as u64 - 2, MAX_DOMAIN as u64) as usize;
    let few = random.below(4) as usize;
    match shape {
        Shape::None => 0,
        Shape::Few | Shape::Uneven => few.max(1 - turn.min(1)),
        Shape::Deep if turn == 0 => deep,
        Shape::Deep => random.pick(&[0, few, deep]),
        Shape::Many => (MAX_LAYERS - few - made).div_ceil(left),
        Shape::FullPool => 17 / (turn + 1) + few,
    }
}

/// Masks and rules of a layer with so many rules at most.
fn plain(entries: &[Entry], model: &Model, most_rules: u64, random: &mut Random) -> (Masks, Rules) {
    let masks = masks(model.level, random);
    let count = random.between(0, most_rules);
    let rules = rules(entries, model, &masks, count, random);
    (masks, rules)
}

/// Masks and rules of a layer that grants almost everything.
fn uneven(entries: &[Entry], level: u64, free: usize, random: &mut Random) -> (Masks, Rules) {
    let masks = uneven_masks(level, random);
    let fs = masks.fs;
    let bits = [0, 1, 2, 3, 14, random.below(13)];
    let [one, two] = [(); 2].map(|()| Rights(1 << random.pick(&bits)));
    let uneven = one.join(two);
    let mut rules = Rules::default();
    let mut add = |entry: Entry, rights: Rights| {
        let rights = rights.common(entry.kind.rights());
        if !rights.is_empty() && rules.len() < free {
            rules.add(Key::Object(entry.object), rights);
        }
    };
    add(entries[0], fs.without(uneven));
    for _ in 0..random.between(1, 8) {
        let rights = random.pick(&[uneven, uneven, one, two]);
        add(random.pick(entries), fs.common(rights));
    }
    (masks, rules)
}

/// Masks and rules of a layer with about as many rules, for ports, as it may have.
fn ports(free: usize, random: &mut Random) -> (Masks, Rules) {
    let net = Rights::NETWORK;
    let count = random
        .pick(&[MAX_RULES, MAX_RULES - 1, MAX_RULES - 3])
        .min(free);
    let first = random.below(100);
    let mut rules = Rules::default();
    for port in (first..).take(count) {
        rules.add(Key::Port(port), Rights(random.between(1, net.0)));
    }
    let masks = Masks {
        net,
        ..Masks::default()
    };
    (masks, rules)
}

/// Masks of file system rights, mostly many and REFER among them; or of the network or scopes alone.
fn uneven_masks(level: u64, random: &mut Random) -> Masks {
    let known = Masks::known(level);
    let none = Masks::default();
    let (net, scope) = (known.net, known.scope);
    match random.below(8) {
        0 if !net.is_empty() => return Masks { net, ..none },
        1 if !scope.is_empty() => return Masks { scope, ..none },
        _ => {}
    }
    let fs = if random.chance(50) {
        known.fs
    } else {
        Rights(random.bits_of(known.fs.0) | Rights::WRITE_FILE.0)
    };
    let fs = fs.join(Rights::REFER).common(known.fs);
    Masks { fs, ..none }
}

/// Gives the layers records: the first ones, in order or not, or any, so that records between them
/// are free and a parent may have a larger number; and their rules places in the pool, in order or
/// not.
fn place_layers(model: &mut Model, layers: Vec<Layer>, random: &mut Random) {
    let mut records: Vec<usize> = (0..MAX_LAYERS).collect();
    match random.below(3) {
        0 => {}
        1 => random.shuffle(&mut records[..layers.len()]),
        _ => random.shuffle(&mut records),
    }
    let record = |layer: Option<usize>| layer.map(|layer| records[layer]);
    for thread in model.threads.values_mut() {
        thread.youngest = record(thread.youngest);
    }
    let mut order: Vec<(usize, Layer)> = layers.into_iter().enumerate().collect();
    if random.chance(40) {
        random.shuffle(&mut order);
    }
    for (number, layer) in order {
        let parent = record(layer.parent);
        model.add_layer(records[number], Layer { parent, ..layer });
    }
}

fn start_threads(model: &mut Model, shape: Shape, random: &mut Random) {
    let count = match random.below(5) {
        _ if shape == Shape::Many => random.between(5, MAX_THREADS),
        0 => random.between(7, MAX_THREADS),
        1 => 1 - random.below(20) / 19,
        _ => random.between(1, 5),
    };
    let mut numbers: Vec<u64> = (0..MAX_THREADS).collect();
    if random.chance(50) {
        random.shuffle(&mut numbers);
    }
    model.threads.clear();
    for number in numbers.into_iter().take(count as usize) {
        let thread = Thread {
            youngest: None,
            no_new_privs: random.chance(70),
            admin: random.chance(25),
        };
        model.threads.insert(number, thread);
    }
}
