//! Random policy files, fine and damaged, and a list of files with every byte changed.

use super::read::{DEEPEST, LONGEST_NAME, MASKS};
use super::{Wanted, LONGEST_FILE};
use crate::attributes::level_masks;
use crate::paths::path;
use crate::state::Model;
use random::Random;

/// The bytes of a field.
pub fn field(tag: u8, value: &[u8]) -> Vec<u8> {
    let length = (value.len() as u16).to_le_bytes();
    [&[tag], &length[..], value].concat()
}

/// The bytes of a rule on a path and on a port.
pub fn path_rule(rights: u64, path: &[u8]) -> Vec<u8> {
    field(3, &[&rights.to_le_bytes()[..], path].concat())
}

pub fn port_rule(rights: u64, port: u16) -> Vec<u8> {
    let value = [&rights.to_le_bytes()[..], &port.to_le_bytes()].concat();
    field(4, &value)
}

/// A group of fields from a level on.
pub fn group(level: u8, fields: &[u8]) -> Vec<u8> {
    field(5, &[&[level], fields].concat())
}

/// A rule in so many groups, each inside the next.
pub fn nested(depth: usize, rule: &[u8]) -> Vec<u8> {
    (0..depth).fold(rule.to_vec(), |inner, _| group(1, &inner))
}

/// The name and the masks of a ruleset.
pub fn opening(name: &[u8], masks: [u64; 3]) -> Vec<u8> {
    let masks: Vec<u8> = masks.into_iter().flat_map(u64::to_le_bytes).collect();
    [field(1, name), field(2, &masks)].concat()
}

/// Where the fields of a file begin, as far as it has any, and where the last one ends.
pub fn places(file: &[u8]) -> Vec<usize> {
    let mut places = vec![0];
    let mut at = 0;
    while let [_, low, high, ..] = file[at..] {
        at += 3 + usize::from(u16::from_le_bytes([low, high]));
        if at > file.len() {
            break;
        }
        places.push(at);
    }
    places
}

/// Names that are like each other.
fn names() -> Vec<Vec<u8>> {
    let long = |byte| vec![byte; LONGEST_NAME];
    let mut names: Vec<Vec<u8>> = [&b"p"[..], b"q", b"pp", b"P", b"\0", b"p\0", b"\xff"]
        .map(<[u8]>::to_vec)
        .into();
    names.extend([long(b'p'), long(b'q'), long(b'p')[..31].to_vec()]);
    names
}

/// A name that some file may have, or that none has.
fn asked_name(random: &mut Random) -> Vec<u8> {
    match random.below(12) {
        0 => Vec::new(),
        1 => vec![b'p'; LONGEST_NAME + 1],
        2 => b"ppp".to_vec(),
        _ => names()[random.below(names().len() as u64) as usize].clone(),
    }
}

/// Two files for tables that show a model, a name, and a report of some length.
pub fn wanted(model: &Model, random: &mut Random) -> Wanted {
    let mut files = [(); 2].map(|()| match random.below(8) {
        0 => Vec::new(),
        _ => file(model, random),
    });
    if random.chance(40) {
        let file = random.below(2) as usize;
        damage(&mut files[file], random);
    }
    if random.chance(8) {
        let file = random.below(2) as usize;
        fill_up(&mut files[file], random);
    }
    let mut name = asked_name(random);
    let there = files.iter().flat_map(|file| names_in(file));
    let there: Vec<Vec<u8>> = there.collect();
    if random.chance(85) && !there.is_empty() {
        name = there[random.below(there.len() as u64) as usize].clone();
    }
    Wanted {
        files,
        name,
        report: random.pick(&[3, 3, 0, 1, 2, 5]),
    }
}

/// The values of the fields of tag 1.
fn names_in(file: &[u8]) -> Vec<Vec<u8>> {
    let fields = places(file);
    let values = fields.windows(2).filter(|pair| file[pair[0]] == 1);
    values
        .map(|pair| file[pair[0] + 3..pair[1]].to_vec())
        .collect()
}

/// A fine file.
fn file(model: &Model, random: &mut Random) -> Vec<u8> {
    let mut names = names();
    random.shuffle(&mut names);
    let count = random.pick(&[1, 1, 1, 2, 3, 6]);
    let rulesets = names.iter().take(count);
    rulesets
        .flat_map(|name| ruleset(name, model, random))
        .collect()
}

fn ruleset(name: &[u8], model: &Model, random: &mut Random) -> Vec<u8> {
    if random.chance(6) {
        return many_rules(name, random);
    }
    let groups = random.chance(40);
    let masks = match groups && random.chance(70) {
        // One file serves several levels: bits that higher ones know.
        true => [random.bits_of(0xffff) | 4, random.below(4), random.below(4)],
        false => masks(model, random),
    };
    let mut bytes = opening(name, masks);
    for _ in 0..random.pick(&[0, 1, 2, 3, 4, 6]) {
        let rule = rule(masks, model, random);
        match groups && random.chance(60) {
            true => bytes.extend(grouped(rule, masks, model, random)),
            false => bytes.extend(rule),
        }
    }
    bytes
}

/// A rule in groups, perhaps more than may be, with other rules beside it.
fn grouped(rule: Vec<u8>, masks: [u64; 3], model: &Model, random: &mut Random) -> Vec<u8> {
    let deepest = DEEPEST as u64;
    let depth = match random.below(10) {
        0 => deepest,
        1..=3 => random.between(3, deepest + 1),
        _ => random.between(1, 2),
    };
    let mut fields = match random.chance(15) {
        true => Vec::new(),
        false => rule,
    };
    for _ in 0..depth {
        let level = match random.below(40) {
            0 => random.pick(&[0, 7, 255]),
            1..=10 => model.level.max(1) as u8,
            11..=18 => random.between(1, 6) as u8,
            _ => 1,
        };
        fields = group(level, &fields);
        if random.chance(10) {
            fields.extend(self::rule(masks, model, random));
        }
    }
    fields
}

/// A ruleset with about as many rules as one may have.
fn many_rules(name: &[u8], random: &mut Random) -> Vec<u8> {
    let mut bytes = opening(name, [0, 1, 0]);
    let count = random.pick(&[64, 65, 66]);
    bytes.extend((0..count).flat_map(|port| port_rule(1, port)));
    bytes
}

/// Masks of the level, mostly; none, or any bits.
fn masks(model: &Model, random: &mut Random) -> [u64; 3] {
    let mut bytes = level_masks(model.level, random);
    bytes.resize(MASKS, 0);
    let mut masks = [0, 8, 16].map(|at| {
        let eight = bytes[at..at + 8].iter().rev();
        eight.fold(0, |mask, byte| mask << 8 | u64::from(*byte))
    });
    match random.below(20) {
        0 => masks = [0; 3],
        1 => masks[random.below(3) as usize] |= 1 << random.below(64),
        2 => masks[random.below(3) as usize] = random.number(),
        _ => {}
    }
    masks
}

/// A rule that a ruleset with these masks may have, or not.
fn rule(masks: [u64; 3], model: &Model, random: &mut Random) -> Vec<u8> {
    let [fs, net, _] = masks;
    if random.chance(30) {
        let port = random.pick(&[0, 1, 80, 255, 256, 443, 65_535]);
        return port_rule(some_of(net, random), port);
    }
    let path = path(model, random);
    let entry = model.lookup(&path).ok();
    let kind = entry.and_then(|entry| model.entries.get(&entry));
    let rights = kind.map_or(u64::MAX, |entry| entry.kind.rights().0);
    let rights = if random.chance(15) { fs } else { fs & rights };
    path_rule(some_of(rights, random), &path)
}

/// Rights of a mask, mostly; none, or others.
fn some_of(mask: u64, random: &mut Random) -> u64 {
    match random.below(20) {
        0 => 0,
        1 => mask | 1 << random.below(64),
        2 => random.number(),
        _ => {
            let lowest = mask & mask.wrapping_neg();
            random.bits_of(mask) | lowest
        }
    }
}

/// Damages a file, or changes what it says.
fn damage(file: &mut Vec<u8>, random: &mut Random) {
    let fields = places(file);
    let place = random.pick(&fields);
    let end = fields.iter().copied().find(|end| *end > place);
    let end = end.unwrap_or(file.len());
    if random.chance(50) {
        let faulty = random.pick(&[0, 1, 2, 3, 4, 5, 6, 7, 8, 9, 10]);
        file.splice(place..place, faulty_field(faulty));
        return;
    }
    match random.below(20) {
        way @ (10 | 11 | 14 | 15 | 18 | 19) => {
            let put = another_field(way, random);
            file.splice(place..place, put);
        }
        5 => file.truncate(random.below(file.len() as u64 + 1) as usize),
        6 => file.truncate(place),
        7 => {
            let count = random.between(1, 4);
            file.extend((0..count).map(|_| random.below(6) as u8));
        }
        8 => drop(file.drain(place..end)),
        9 => {
            let again = file[place..end].to_vec();
            let at = random.pick(&fields);
            file.splice(at..at, again);
        }
        12 => file.extend(field(1, &names()[random.below(3) as usize])),
        way => write_byte(file, place, way, random),
    }
}

/// A field that may be put anywhere, in one way or another.
fn another_field(way: u64, random: &mut Random) -> Vec<u8> {
    match way {
        10 => {
            let name = match random.below(3) {
                0 => Vec::new(),
                1 => vec![b'p'; LONGEST_NAME + 1],
                _ => names()[0].clone(),
            };
            opening(&name, [4, 0, 0])
        }
        11 => {
            let tag = random.pick(&[0, 2, 3, 3, 4, 4, 5, 6, 16, 255]);
            let length = random.pick(&[0, 1, 7, 8, 9, 10, 11, 23, 24, 25]);
            let value: Vec<u8> = (0..length).map(|_| random.number() as u8).collect();
            field(tag, &value)
        }
        15 => nested(DEEPEST + random.below(3) as usize, &path_rule(4, b"/")),
        _ => faulty_group(random),
    }
}

/// A group that has a faulty field in it or is faulty itself, mostly.
fn faulty_group(random: &mut Random) -> Vec<u8> {
    let inner = match random.below(6) {
        0 => Vec::new(),
        1 => opening(b"p", [4, 0, 0]),
        2 => field(2, &[0; MASKS]),
        3 => vec![3, 8],
        4 => vec![3, 9, 0, 4, 0, 0, 0, 0, 0, 0, 0],
        _ => field(random.pick(&[0, 6, 16]), &[]),
    };
    match random.chance(10) {
        true => field(5, &[]),
        false => group(random.pick(&[0, 1, 1, 1, 6, 6, 7]), &inner),
    }
}

/// Writes a byte of the field at a place, or any byte, in one way or another.
fn write_byte(file: &mut [u8], place: usize, way: u64, random: &mut Random) {
    match way {
        0 => write(file, place, random.below(8) as u8),
        1 => write(file, place, random.number() as u8),
        2 | 3 => {
            let by = random.pick(&[1, 255, 8, 16]);
            let old = file.get(place + 1).copied().unwrap_or(0);
            write(file, place + 1, old.wrapping_add(by));
        }
        4 => write(file, place + 2, random.pick(&[1, 128, 255])),
        16 => {
            // Somewhere in a group, perhaps.
            let at = random.below(file.len() as u64 + 1) as usize;
            write(file, at, random.pick(&[0, 1, 2, 3, 4, 5, 6, 7]));
        }
        _ => {
            let at = random.below(file.len() as u64 + 1) as usize;
            write(file, at, random.number() as u8);
        }
    }
}

/// A field that is faulty itself, wherever a rule may stand.
fn faulty_field(number: usize) -> Vec<u8> {
    match number {
        0 => field(3, &[0; 7]),
        1 => field(4, &[0; 9]),
        2 => field(5, &[]),
        3 => group(7, &[]),
        4 => group(6, &opening(b"r", [1, 0, 0])),
        5 => nested(DEEPEST + 1, &[]),
        6 => field(2, &[0; MASKS]),
        7 => opening(&[], [4, 0, 0]),
        8 => opening(&[b'n'; LONGEST_NAME + 1], [4, 0, 0]),
        9 => [field(1, b"r"), field(2, &[0; MASKS - 1])].concat(),
        _ => field(6, &[]),
    }
}

fn write(file: &mut [u8], at: usize, byte: u8) {
    if let Some(there) = file.get_mut(at) {
        *there = byte;
    }
}

/// Makes a file about as long as one may be, by a ruleset whose rule has a very long path.
fn fill_up(file: &mut Vec<u8>, random: &mut Random) {
    let length = random.pick(&[
        LONGEST_FILE - 1,
        LONGEST_FILE,
        LONGEST_FILE,
        LONGEST_FILE + 1,
    ]);
    file.extend(opening(b"long", [4, 0, 0]));
    fill_to(file, length);
}

/// Fills a file up to a length by a path rule.
pub fn fill_to(file: &mut Vec<u8>, length: usize) {
    let path = length.saturating_sub(file.len() + 3 + 8);
    file.extend(path_rule(4, &vec![b'/'; path]));
}

/// The tables that swept files are applied to: the worked tree of document 01, with no layer.
pub fn worked_tree(level: u64) -> Model {
    let mut model = Model::fresh(level);
    let entries = [
        (0, 2, &b"cal"[..]),
        (0, 2, b"import"),
        (1, 1, b"table"),
        (2, 1, b"feed"),
    ];
    for (directory, kind, name) in entries {
        // Fresh tables have room for each, and no thread is restricted.
        let _ = model.create(0, directory, kind, name);
    }
    model
}

/// Files of which every byte is changed: an empty one, one ruleset, several, some that are damaged already.
fn bases() -> Vec<Vec<u8>> {
    let fs = 0x2126;
    let worked = [
        opening(b"p", [fs, 0, 0]),
        path_rule(4, b"/cal"),
        path_rule(fs, b"/import"),
    ]
    .concat();
    let several = [
        opening(b"q", [6, 3, 0]),
        port_rule(1, 80),
        path_rule(2, b"/import/feed"),
        path_rule(4, b""),
        opening(&[b'n'; LONGEST_NAME], [0, 0, 2]),
        opening(b"p", [4, 0, 1]),
        path_rule(4, b"/cal/table"),
    ]
    .concat();
    let nearly = [opening(b"p", [1, 0, 0]), field(1, b"q")].concat();
    let mut bases = grouped_bases();
    bases.extend([
        Vec::new(),
        opening(b"p", [4, 0, 0]),
        worked,
        several,
        nearly,
    ]);
    bases
}

/// Files with groups, as deep as may be and deeper.
fn grouped_bases() -> Vec<Vec<u8>> {
    let inner = [path_rule(4, b"/cal"), group(6, &[]), port_rule(1, 80)].concat();
    let groups = [
        opening(b"p", [0xffff, 3, 3]),
        group(4, &inner),
        group(2, &group(5, &path_rule(1 << 15, b"/import"))),
        path_rule(4, b"/"),
        opening(b"q", [1 << 13, 0, 0]),
        group(1, &[]),
    ]
    .concat();
    let deepest = [
        opening(b"p", [4, 0, 0]),
        nested(DEEPEST, &path_rule(4, b"/")),
    ]
    .concat();
    let too_deep = [
        opening(b"p", [4, 0, 0]),
        nested(DEEPEST + 1, &path_rule(4, b"/")),
    ]
    .concat();
    vec![groups, deepest, too_deep]
}

/// Every base as one file or the other, unchanged, with every byte changed, cut at every place, with every length
/// one more and one less, with bytes behind it, and with every field left out or doubled.
pub fn sweep() -> Vec<Wanted> {
    let other = opening(b"p", [2, 0, 0]);
    let mut all = Vec::new();
    for base in bases() {
        for (number, file) in changed(&base).into_iter().enumerate() {
            let mut files = [file, Vec::new()];
            if number % 2 == 1 {
                files.reverse();
            }
            if number % 3 == 0 {
                files
                    .iter_mut()
                    .filter(|file| file.is_empty())
                    .for_each(|file| *file = other.clone());
            }
            let name = if number % 5 == 4 { &b"q"[..] } else { b"p" };
            all.push(Wanted {
                files,
                name: name.to_vec(),
                report: 3,
            });
        }
    }
    all.extend(sizes());
    all.extend(name_lengths());
    all
}

/// A file with one thing changed, in every way.
fn changed(base: &[u8]) -> Vec<Vec<u8>> {
    const VALUES: [u8; 10] = [0, 1, 2, 3, 4, 5, 6, 7, 8, 255];
    let mut files = vec![base.to_vec()];
    for at in 0..base.len() {
        let near = [
            base[at].wrapping_add(1),
            base[at].wrapping_sub(1),
            base[at] ^ 0x80,
        ];
        for value in VALUES.into_iter().chain(near) {
            let mut file = base.to_vec();
            file[at] = value;
            files.push(file);
        }
        files.push(base[..at].to_vec());
    }
    for bytes in [
        &[0][..],
        &[1],
        &[2],
        &[1, 0],
        &[3, 0],
        &[1, 0, 0],
        &[1, 1, 0, b'p'],
        &[3, 8, 0],
    ] {
        files.push([base, bytes].concat());
    }
    for pair in places(base).windows(2) {
        let (before, field, after) = (&base[..pair[0]], &base[pair[0]..pair[1]], &base[pair[1]..]);
        files.push([before, after].concat());
        files.push([before, field, field, after].concat());
        files.push([before, field, after, field].concat());
    }
    files
}

/// Files of sizes around the longest, damaged or not, as one and the other.
fn sizes() -> Vec<Wanted> {
    let mut all = Vec::new();
    for length in [
        LONGEST_FILE - 1,
        LONGEST_FILE,
        LONGEST_FILE + 1,
        LONGEST_FILE + 4,
        65_536,
    ] {
        let mut fine = opening(b"p", [4, 0, 0]);
        let room = length.min(LONGEST_FILE);
        fill_to(&mut fine, room);
        fine.resize(length, 3);
        let damaged = vec![0; length];
        for file in [fine, damaged] {
            let empty = Vec::new();
            let short = opening(b"p", [2, 0, 0]);
            let cut = field(1, b"p");
            for files in [
                [file.clone(), empty.clone()],
                [empty, file.clone()],
                [file.clone(), short.clone()],
                [short, file.clone()],
                [file.clone(), cut.clone()],
                [cut, file.clone()],
                [file.clone(), file],
            ] {
                let name = b"p".to_vec();
                all.push(Wanted {
                    files,
                    name,
                    report: 3,
                });
            }
        }
    }
    all
}

/// Names of 0 to 34 bytes in a file and asked for, alone and behind one that begins alike.
fn name_lengths() -> Vec<Wanted> {
    let lengths = 0..=LONGEST_NAME + 2;
    let pairs = lengths
        .clone()
        .flat_map(|there| lengths.clone().map(move |asked| (there, asked)));
    let wanted = pairs.map(|(there, asked)| {
        let file = [
            opening(b"nnnn", [4, 0, 0]),
            opening(&vec![b'm'; there], [2, 0, 0]),
        ];
        Wanted {
            files: [file.concat(), Vec::new()],
            name: vec![b'm'; asked],
            report: 3,
        }
    });
    wanted.collect()
}
