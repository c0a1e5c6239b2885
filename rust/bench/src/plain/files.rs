//! Policy files in ordinary Rust: both read whole, names in a set.

use std::collections::HashSet;

/// The place of a file's first fault, if it has one.
fn fault(file: &[u8]) -> Option<usize> {
    let mut names = HashSet::new();
    let (mut at, mut before) = (0, 0);
    while at < file.len() {
        let Some((tag, value)) = field(file, at) else {
            return Some(at);
        };
        let fine = match (before, tag) {
            (1, 2) => value.len() == 24,
            (1, _) => false,
            (_, 1) => (1..=32).contains(&value.len()) && names.insert(value),
            (0, _) => false,
            (_, 3) => value.len() >= 8,
            (_, 4) => value.len() == 10,
            _ => false,
        };
        if !fine {
            return Some(at);
        }
        (at, before) = (at + 3 + value.len(), tag);
    }
    (before == 1).then_some(at)
}

fn field(file: &[u8], at: usize) -> Option<(u8, &[u8])> {
    let [tag, low, high, rest @ ..] = &file[at..] else {
        return None;
    };
    let value = rest.get(..usize::from(u16::from_le_bytes([*low, *high])))?;
    Some((*tag, value))
}

/// Where a file's ruleset of a name stands: its place and its length.
fn part(file: &[u8], name: &[u8]) -> Option<(usize, usize)> {
    let (mut at, mut start) = (0, None);
    while at < file.len() {
        let (tag, value) = field(file, at)?;
        match (start, tag) {
            (None, 1) if value == name => start = Some(at),
            (Some(start), 1) => return Some((start, at - start)),
            _ => {}
        }
        at += 3 + value.len();
    }
    start.map(|start| (start, at - start))
}

/// What a name means in two fine files: the file, the place and the length; none where neither has it or one is damaged.
pub fn find(stock: &[u8], site: &[u8], name: &[u8]) -> Option<[u64; 3]> {
    let too_long = [stock, site].iter().any(|file| file.len() > 32_768);
    if too_long || fault(stock).is_some() || fault(site).is_some() {
        return None;
    }
    let files = [(1, site), (0, stock)].into_iter();
    let mut found = files.filter_map(|(number, file)| {
        let (place, length) = part(file, name)?;
        Some([number, place as u64, length as u64])
    });
    found.next()
}
