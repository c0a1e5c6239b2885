//! Writing a policy file in ordinary Rust: each object's paths in a vector, the rules sorted.

use crate::tables::Tables;
use skeinrabbit_sys::layout::{MAX_POLICY, RULESET_WIDTH, RULE_WIDTH};

const EPERM: u64 = 1;
const ENOENT: u64 = 2;
const E2BIG: u64 = 7;
const EBADF: u64 = 9;
const EINVAL: u64 = 22;
const ENOSPC: u64 = 28;
const ENAMETOOLONG: u64 = 36;
/// The rights that no rule on the root may ask for.
const NOT_AT_ROOT: u64 = 0x7ff2;
const LONGEST_PATH: usize = 4095;

/// Writes the file of a ruleset under a name; answers its length, or 2^64 minus the error number. The tables are sound and not of
/// level 0.
pub fn write(tables: &Tables, ruleset: u64, name: &[u8], out: &mut [u8]) -> u64 {
    let written = file(tables, ruleset, name).and_then(|file| {
        let room = out.get_mut(..file.len()).ok_or(ENOSPC)?;
        room.copy_from_slice(&file);
        Ok(file.len() as u64)
    });
    written.unwrap_or_else(u64::wrapping_neg)
}

fn file(tables: &Tables, ruleset: u64, name: &[u8]) -> Result<Vec<u8>, u64> {
    let mut rows = tables.rulesets.chunks_exact(RULESET_WIDTH);
    let row = rows.nth(ruleset as usize).ok_or(EBADF)?;
    let (masks, rest) = row.split_at(3);
    if masks.iter().all(|mask| *mask == 0) {
        return Err(EBADF);
    }
    if !(1..=32).contains(&name.len()) {
        return Err(EINVAL);
    }
    let rules = rest[1..].chunks_exact(RULE_WIDTH).take(rest[0] as usize);
    let (on_paths, on_ports): (Vec<&[u64]>, Vec<&[u64]>) = rules.partition(|rule| rule[0] == 1);
    let root = |rule: &&[u64]| rule[1] == tables.object(0) && rule[2] & NOT_AT_ROOT != 0;
    if on_paths.iter().any(root) {
        return Err(EPERM);
    }
    let paths = on_paths.iter();
    let paths = paths.map(|rule| Some((first_path(tables, rule[1])?, rule[2])));
    let mut paths: Vec<(Vec<u8>, u64)> = paths.collect::<Option<_>>().ok_or(ENOENT)?;
    if paths.iter().any(|(path, _)| path.len() > LONGEST_PATH) {
        return Err(ENAMETOOLONG);
    }
    paths.sort();
    let mut ports: Vec<(u16, u64)> = on_ports
        .iter()
        .map(|rule| (rule[1] as u16, rule[2]))
        .collect();
    ports.sort();
    let mut file = Vec::new();
    put(&mut file, 1, &[name]);
    put(
        &mut file,
        2,
        &[&masks
            .iter()
            .flat_map(|mask| mask.to_le_bytes())
            .collect::<Vec<u8>>()],
    );
    for (path, rights) in paths {
        put(&mut file, 3, &[&rights.to_le_bytes(), &path]);
    }
    for (port, rights) in ports {
        put(&mut file, 4, &[&rights.to_le_bytes(), &port.to_le_bytes()]);
    }
    if file.len() > MAX_POLICY {
        return Err(E2BIG);
    }
    Ok(file)
}

fn put(file: &mut Vec<u8>, tag: u8, parts: &[&[u8]]) {
    let length: usize = parts.iter().map(|part| part.len()).sum();
    file.push(tag);
    file.extend((length as u16).to_le_bytes());
    parts.iter().for_each(|part| file.extend(*part));
}

/// The first path of an object in byte order.
fn first_path(tables: &Tables, object: u64) -> Option<Vec<u8>> {
    let entries = 0..tables.live_entries();
    let own = entries.filter(|entry| tables.object(*entry) == object);
    own.map(|entry| path(tables, entry)).min()
}

fn path(tables: &Tables, entry: u64) -> Vec<u8> {
    if entry == 0 {
        return b"/".to_vec();
    }
    let up = std::iter::successors(Some(entry), |entry| Some(tables.parent(*entry)));
    let way: Vec<u64> = up.take_while(|entry| *entry != 0).collect();
    let mut path = Vec::new();
    for entry in way.iter().rev() {
        path.push(b'/');
        path.extend(tables.name(*entry));
    }
    path
}
