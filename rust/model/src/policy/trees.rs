//! Random trees and rulesets to write policy files of, and what is asked for.

use super::read::LONGEST_NAME;
use super::write::Writing;
use super::LONGEST_FILE;
use crate::names::{Name, LONGEST_NAME as LONGEST_COMPONENT, LONGEST_PATH};
use crate::rights::{Masks, Rights};
use crate::start::some_of;
use crate::state::{Entry, Key, Kind, Model, Rules, Ruleset, LAST_LEVEL, MAX_RULES, ROOT};
use random::Random;

/// What names begin with, and what follows: bytes before and behind the slash, so that the order of whole paths is not
/// that of their components.
const FIRST: [&[u8]; 6] = [b"a", b"a", b"b", b"aa", b"-", b"\xff"];
const MORE: [&[u8]; 8] = [b"", b"", b"-b", b" ", b"\x01", b".", b"0", b"\xfe"];

/// How a tree looks.
#[derive(Clone, Copy, PartialEq, Eq)]
enum Sort {
    /// A few directories and files with names that are like each other.
    Small,
    /// Many links of few files.
    Linked,
    /// Paths about as long as they may be, and shorter links.
    Deep,
    /// Rules that fill a file.
    Full,
}

/// Random sound tables with rulesets.
pub fn tables(random: &mut Random) -> Model {
    let level = random.pick(&[LAST_LEVEL, LAST_LEVEL, LAST_LEVEL, 5, 4, 2]);
    let mut model = Model::fresh(level);
    let sorts = [Sort::Small, Sort::Linked, Sort::Deep, Sort::Full];
    let sort = random.pick(&sorts);
    match sort {
        Sort::Small => grow(&mut model, 4..30, 25, random),
        Sort::Linked => grow(&mut model, 30..120, 80, random),
        Sort::Deep | Sort::Full => {
            let bottom = chain(&mut model, random);
            deep_files(&mut model, &bottom, random);
            grow(&mut model, 1..10, 40, random);
        }
    }
    let mut numbers: Vec<u64> = (0..16).collect();
    random.shuffle(&mut numbers);
    for number in numbers.into_iter().take(3) {
        let ruleset = match sort {
            Sort::Full => full(&mut model, random),
            _ => ruleset(&model, random),
        };
        model.rulesets.insert(number, ruleset);
    }
    model
}

/// Puts a new object, or a link of one, into a directory; answers its number if there is room.
fn put(
    model: &mut Model,
    kind: Kind,
    parent: u64,
    object: Option<u64>,
    name: &[u8],
    random: &mut Random,
) -> Option<u64> {
    if model.names.bearer(parent, name).is_some() {
        return None;
    }
    // Any free number, so that the order of numbers says nothing.
    let free: Vec<u64> = (1..1024)
        .filter(|number| !model.entries.contains_key(number))
        .collect();
    let number = random.pick_some(&free)?;
    // Numbers of objects that are gone lie between those of others.
    let object = object.unwrap_or(model.next_object + random.below(2));
    model.next_object = model.next_object.max(object + 1);
    let entry = Entry {
        kind,
        parent,
        object,
    };
    model.add_entry(number, entry, name);
    Some(number)
}

fn name(random: &mut Random) -> Name {
    [random.pick(&FIRST), random.pick(&MORE)].concat()
}

/// Directories, files and links, these with a chance in a hundred.
fn grow(model: &mut Model, count: std::ops::Range<u64>, links: u64, random: &mut Random) {
    let mut files: Vec<Entry> = Vec::new();
    for _ in 0..random.between(count.start, count.end) {
        let directories = model.entries.iter();
        let directories = directories.filter(|(_, entry)| entry.kind.is_directory());
        // Long chains have few places here.
        let numbers: Vec<u64> = directories.map(|(number, _)| *number).collect();
        let parent = if random.chance(30) {
            ROOT
        } else {
            random.pick(&numbers)
        };
        let name = name(random);
        let linked = random.pick_some(&files).filter(|_| random.chance(links));
        let kind = match linked {
            Some(file) => file.kind,
            None => random.pick(&[Kind::Directory, Kind::Directory, Kind::Regular, Kind::Fifo]),
        };
        let object = linked.map(|file| file.object);
        let made = put(model, kind, parent, object, &name, random);
        if let Some(entry) = made.map(|made| model.entries[&made]) {
            if !kind.is_directory() {
                files.push(entry);
            }
        }
    }
}

/// Directories with long names, one in another, as deep as a path may be; answers them with the lengths of their paths.
fn chain(model: &mut Model, random: &mut Random) -> Vec<(u64, usize)> {
    let (mut parent, mut length) = (ROOT, 0);
    let mut made = vec![(ROOT, 0)];
    let byte = random.pick(b"az\xff");
    while length + LONGEST_COMPONENT < LONGEST_PATH {
        let name = vec![byte; LONGEST_COMPONENT - random.below(2) as usize];
        let Some(directory) = put(model, Kind::Directory, parent, None, &name, random) else {
            break;
        };
        (parent, length) = (directory, length + 1 + name.len());
        made.push((directory, length));
    }
    made
}

/// Puts a new file, or a link, where its path has a length.
fn put_at(
    model: &mut Model,
    chain: &[(u64, usize)],
    length: usize,
    object: Option<u64>,
    random: &mut Random,
) -> Option<u64> {
    let fits = |above: usize| {
        let name = length.checked_sub(above + 1);
        name.filter(|name| (1..=LONGEST_COMPONENT).contains(name))
    };
    let places = chain
        .iter()
        .filter_map(|(parent, above)| Some((*parent, fits(*above)?)));
    let (parent, name) = random.pick_some(&places.collect::<Vec<_>>())?;
    let mut name = vec![random.pick(b"bc\xfe"); name];
    if let Some(first) = name.first_mut() {
        *first = random.pick(b"-bcdefgh");
    }
    put(model, Kind::Regular, parent, object, &name, random)
}

/// Files whose paths are about as long as they may be, some with a shorter link before or behind that.
fn deep_files(model: &mut Model, chain: &[(u64, usize)], random: &mut Random) {
    for _ in 0..random.between(1, 12) {
        let length = LONGEST_PATH + 2 - random.below(5) as usize;
        let length = if random.chance(70) {
            length
        } else {
            random.between(1, LONGEST_PATH as u64) as usize
        };
        let made = put_at(model, chain, length, None, random);
        let Some(object) = made.map(|made| model.entries[&made].object) else {
            continue;
        };
        if random.chance(50) {
            let name = [random.pick(&[&b"A"[..], b"zz", b"\xff\xff"]), &name(random)].concat();
            put(model, Kind::Regular, ROOT, Some(object), &name, random);
        }
    }
}

/// Masks with file system and perhaps network rights.
fn masks(model: &Model, random: &mut Random) -> Masks {
    let known = Masks::known(model.level);
    let some = random.bits_of(known.fs.0) | 4;
    let fs = random.pick(&[known.fs.0, some, 4]);
    let net = random.below(4);
    Masks {
        fs: Rights(fs),
        net: Rights(net).common(known.net),
        scope: Rights(random.below(4)).common(known.scope),
    }
}

/// A ruleset with rules on entries and ports; seldom one that cannot be written.
fn ruleset(model: &Model, random: &mut Random) -> Ruleset {
    let masks = masks(model, random);
    let mut rules = Rules::default();
    let count = random.pick(&[0, 1, 2, 3, 5, 8, 20, MAX_RULES]);
    let entries: Vec<Entry> = model.entries.values().copied().collect();
    for _ in 0..3 * count {
        if rules.len() == count {
            break;
        }
        let (key, rights) = match random.below(100) {
            0..=29 => (
                Key::Port(random.pick(&[0, 1, 80, 255, 256, 65_535])),
                masks.net,
            ),
            30..=39 => (Key::Port(random.below(65_536)), masks.net),
            _ => {
                let entry = random.pick(&entries);
                let own = masks.fs.common(entry.kind.rights());
                (Key::Object(entry.object), own)
            }
        };
        let rights = some_of(rights, random);
        let root = key == Key::Object(model.entries[&ROOT].object);
        let rights = if root && random.chance(90) {
            rights.without(Rights::CHANGING)
        } else {
            rights
        };
        if !rights.is_empty() {
            rules.add(key, rights);
        }
    }
    let gone = (1..model.next_object).filter(|object| model.paths_of(*object).is_empty());
    let gone: Vec<u64> = gone.collect();
    let gone = random.pick_some(&gone).filter(|_| rules.len() < MAX_RULES);
    if let Some(object) = gone.filter(|_| random.chance(10) && !masks.fs.is_empty()) {
        rules.add(Key::Object(object), masks.fs);
    }
    Ruleset { masks, rules }
}

/// A ruleset whose file has about as many bytes as one may have, under a name of one byte.
fn full(model: &mut Model, random: &mut Random) -> Ruleset {
    let target = LONGEST_FILE + 2 - random.below(5) as usize;
    full_ruleset(model, target, random).unwrap_or_else(|| ruleset(model, random))
}

/// Adds files to a tree that has a chain of directories, and gives a ruleset with rules on these whose file under a name
/// of one byte has so many bytes.
fn full_ruleset(model: &mut Model, target: usize, random: &mut Random) -> Option<Ruleset> {
    let directories: Vec<u64> = model.entries.keys().copied().collect();
    let directories = directories.into_iter();
    let directories = directories.filter(|entry| model.entries[entry].kind.is_directory());
    let chain: Vec<(u64, usize)> = directories
        .map(|entry| match entry {
            ROOT => (ROOT, 0),
            _ => (entry, model.path_of(entry).len()),
        })
        .collect();
    let masks = Masks {
        fs: Rights::READ_FILE,
        ..Masks::default()
    };
    let mut rules = Rules::default();
    // The fields of the name and the masks, and of a rule all but its path.
    let (mut left, rule) = (target - 31, 11);
    while left > 0 {
        let longest = LONGEST_PATH.min(left - rule);
        // The last rule takes all; the one before it leaves enough.
        let length = match left {
            _ if left <= rule + LONGEST_PATH => longest,
            _ => longest.min(left - rule - 100) - random.below(40) as usize,
        };
        let file = put_at(model, &chain, length, None, random)?;
        rules.add(Key::Object(model.entries[&file].object), masks.fs);
        left -= rule + length;
    }
    Some(Ruleset { masks, rules })
}

/// A ruleset to write, a name, and room for about as many bytes as the file has.
pub fn writing(model: &Model, random: &mut Random) -> Writing {
    let open: Vec<u64> = model.rulesets.keys().copied().collect();
    let ruleset = match random.pick_some(&open) {
        Some(open) if random.chance(92) => open,
        _ if random.chance(50) => random.pick(&[0, 1, 15, 16]),
        _ => random.edge(),
    };
    let name = match random.below(20) {
        0 => Vec::new(),
        1 => vec![b'p'; random.pick(&[LONGEST_NAME + 1, 300])],
        2 | 3 => vec![b'p'; LONGEST_NAME],
        4 => b"\0\xff".to_vec(),
        _ => b"p".to_vec(),
    };
    let length = model.policy_file(ruleset, &name).map(|file| file.len());
    let room = match (length, random.below(10)) {
        (Ok(length), 0..=2) => length,
        (Ok(length), 3..=5) => length - 1,
        (Ok(length), 6) => length + random.between(1, 9) as usize,
        (_, 7) => LONGEST_FILE + random.below(9) as usize,
        (_, 8) => random.below(40) as usize,
        _ => random.below(200) as usize,
    };
    Writing {
        ruleset,
        name,
        room,
    }
}

/// The same ruleset and name with rooms around the file's length, where it has one; all from none on for a short file.
pub fn rooms(model: &Model, writing: &Writing) -> Vec<Writing> {
    let length = model.policy_file(writing.ruleset, &writing.name);
    let length = length.map_or(0, |file| file.len());
    let rooms: Vec<usize> = match length {
        0 => vec![0, LONGEST_FILE + 1],
        1..100 => (0..length + 9).collect(),
        _ => vec![0, length - 1, length, length + 1, LONGEST_FILE + 1],
    };
    let rooms = rooms.into_iter();
    let with = |room| Writing {
        room,
        ..writing.clone()
    };
    rooms.map(with).collect()
}
