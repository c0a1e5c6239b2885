//! Random names and paths: mostly ones that are there, else such as the checks tell apart.

use crate::names::{well_named, Name, LONGEST_NAME, LONGEST_PATH};
use crate::state::{Model, ROOT};
use random::Random;

/// The components of an existing path that a random one takes at most.
const DEPTH: usize = 70;
/// Bytes that names are made of: letters, dots, and bytes that are no text.
const BYTES: [u8; 10] = [b'a', b'a', b'b', b'.', b'.', b' ', 1, b'0', 128, 255];

/// A name that an entry may have.
pub fn any_name(random: &mut Random) -> Name {
    let length = match random.below(10) {
        0..=5 => random.between(1, 3),
        6 | 7 => random.between(1, LONGEST_NAME as u64),
        _ => LONGEST_NAME as u64 - random.below(2),
    };
    let one = random.pick(&BYTES);
    let varied = random.chance(60);
    let bytes = (0..length).map(|_| if varied { random.pick(&BYTES) } else { one });
    let name: Name = bytes.collect();
    match well_named(&name) {
        Ok(()) => name,
        Err(_) => [&name, &b"x"[..]].concat(),
    }
}

/// A name that is free in a directory.
pub fn new_name(model: &Model, directory: u64, random: &mut Random) -> Name {
    let name = any_name(random);
    if model.names.bearer(directory, &name).is_none() {
        return name;
    }
    loop {
        let name = format!("{:x}", random.below(1 << 20)).into_bytes();
        if model.names.bearer(directory, &name).is_none() {
            return name;
        }
    }
}

/// What is no name: empty, dots, a slash or a zero byte at any place, too long.
pub fn bad_name(random: &mut Random) -> Name {
    let mut name = any_name(random);
    let place = random.below(name.len() as u64) as usize;
    match random.below(12) {
        0 | 1 => name.clear(),
        2 => name = b".".to_vec(),
        3 => name = b"..".to_vec(),
        4 | 5 => name[place] = b'/',
        6 | 7 => name[place] = 0,
        _ => {
            // Also lengths that a byte doesn't tell from 0, 1 and the longest.
            let length = random.pick(&[49, 49, 49, 50, 200, 256, 257, 304]);
            name.resize(length, random.pick(&[b'a', b'/', 0]));
        }
    }
    name
}

/// A random path.
pub fn path(model: &Model, random: &mut Random) -> Vec<u8> {
    let mut path = match random.below(20) {
        0 => odd_path(random),
        _ => existing(model, random),
    };
    if random.chance(40) {
        end(&mut path, model, random);
    }
    match random.below(25) {
        0 => fill_up(&mut path, random),
        1 => write_byte(&mut path, 0, random),
        2 => write_byte(&mut path, random.pick(&BYTES), random),
        3 => drop(path.drain(..1.min(path.len()))),
        4 => path.truncate(random.below(path.len() as u64 + 1) as usize),
        _ => {}
    }
    path
}

/// A path of slashes and dots.
fn odd_path(random: &mut Random) -> Vec<u8> {
    let length = random.below(8);
    let bytes = (0..length).map(|_| random.pick(&[b'/', b'/', b'/', b'.', b'.', b'a', 0]));
    bytes.collect()
}

/// A path to an entry, with detours.
fn existing(model: &Model, random: &mut Random) -> Vec<u8> {
    let entries: Vec<u64> = model.entries.keys().copied().collect();
    let entry = random.pick(&entries);
    let mut way = model.way_up(entry);
    way.reverse();
    if random.chance(95) {
        way.truncate(DEPTH);
    }
    let detours = random.pick(&[0, 0, 5, 30]);
    let mut path = Vec::new();
    for pair in way.windows(2) {
        if random.chance(detours) {
            path.extend(detour(model, pair[0], random));
        }
        path.push(b'/');
        path.extend(model.names.of(pair[1]));
    }
    if path.is_empty() {
        path.push(b'/');
    }
    path
}

/// A way that leads back to its directory: slashes, dots, another directory of it and back.
fn detour(model: &Model, directory: u64, random: &mut Random) -> Vec<u8> {
    match random.below(5) {
        0 => b"/".to_vec(),
        1 => b"//".to_vec(),
        2 => b"/.".to_vec(),
        3 if directory == ROOT => b"/..".to_vec(),
        _ => {
            let children = child_names(model, directory);
            let child = random.pick_some(&children).unwrap_or(b".");
            [b"/", child, b"/.."].concat()
        }
    }
}

/// The names of a directory's entries.
fn child_names(model: &Model, directory: u64) -> Vec<&[u8]> {
    let entries = model.names.iter();
    let children = entries.filter(|(number, _)| model.entries[number].parent == directory);
    children.map(|(_, name)| name).collect()
}

/// Something behind a path: slashes, dots, a name that is there or not, or one that is too long.
fn end(path: &mut Vec<u8>, model: &Model, random: &mut Random) {
    let too_long = vec![b'a'; random.pick(&[49, 50, 304])];
    let named: Vec<&[u8]> = model.names.iter().map(|(_, name)| name).collect();
    let there = random.pick_some(&named).unwrap_or(b"a").to_vec();
    let end = match random.below(12) {
        0 | 1 => b"/".to_vec(),
        2 => b"//".to_vec(),
        3 => b"/.".to_vec(),
        4 => b"/..".to_vec(),
        5 => b"/../..".to_vec(),
        6 => [b"/", &any_name(random)[..]].concat(),
        7 => [b"/", &too_long[..]].concat(),
        8 => [b"/", &too_long[..], b"/a"].concat(),
        9 => [b"/a/", &too_long[..]].concat(),
        10 => [b"/", &there[..]].concat(),
        _ => b"a".to_vec(),
    };
    path.extend(end);
}

/// Makes a path as long as one may be, or longer, without another meaning.
fn fill_up(path: &mut Vec<u8>, random: &mut Random) {
    let length = random.pick(&[LONGEST_PATH - 1, LONGEST_PATH, LONGEST_PATH + 1, 5000]);
    let missing = length.saturating_sub(path.len());
    let filling: Vec<u8> = match random.below(3) {
        0 => vec![b'/'; missing],
        1 => b"/.".iter().copied().cycle().take(missing).collect(),
        _ => b"/..".iter().copied().cycle().take(missing).collect(),
    };
    path.splice(..0, filling);
}

/// Writes a byte of a path.
fn write_byte(path: &mut [u8], byte: u8, random: &mut Random) {
    if !path.is_empty() {
        let place = random.below(path.len() as u64) as usize;
        path[place] = byte;
    }
}

/// A place in a path or behind it: mostly at or beside the start of a component.
pub fn place(path: &[u8], random: &mut Random) -> u64 {
    let slashes = (0..path.len() as u64).filter(|at| path[*at as usize] == b'/');
    let slashes: Vec<u64> = slashes.collect();
    match random.below(8) {
        0 => random.edge(),
        1 => 0,
        2 | 3 => random.below(path.len() as u64 + 3),
        _ => random.pick_some(&slashes).unwrap_or(0) + random.below(3),
    }
}
