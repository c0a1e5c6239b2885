//! `skein policy export`: the policy file of a ruleset that a scenario leaves open.
use super::text::show;
use super::LONGEST_FILE;
use crate::messages::{not_as_written, not_written};
use crate::named::ruleset;
use crate::outcome::{Outcome, BAD_INPUT, DIFFERS};
use crate::play::Play;
use crate::transcript::counted;
use crate::words::escaped;
use skeinrabbit::{Entry, Errno, Rights, Rule, Ruleset, Tables};
use std::ffi::OsString;
use std::os::unix::ffi::OsStrExt;

/// What is to be written, and where.
#[derive(Debug, PartialEq, Eq)]
pub struct Export {
    pub scenario: OsString,
    /// The ruleset's label or number.
    pub ruleset: OsString,
    /// Its name in the file.
    pub name: OsString,
    /// The file; without it the ruleset is shown as text.
    pub file: Option<OsString>,
}

/// Writes the ruleset that a play leaves, or says why not.
pub fn export(scenario: &str, play: &Play, wanted: &Export) -> Result<Outcome, Outcome> {
    if let Some(messages) = not_as_written(scenario, play) {
        let stopped = play.stopped.is_some();
        let why = if stopped {
            String::new()
        } else {
            not_written(scenario)
        };
        let code = if stopped { BAD_INPUT } else { DIFFERS };
        return Err(Outcome::refused(messages + &why, code));
    }
    let word = wanted.ruleset.to_string_lossy();
    let found = ruleset(&play.player, &word);
    let ruleset = found.map_err(|message| Outcome::bad_file(scenario, message))?;
    let tables = &play.player.tables;
    let written = tables.policy_file(ruleset, wanted.name.as_bytes());
    let bytes = written.map_err(|errno| {
        let why = unwritten(tables, ruleset, errno);
        let (scenario, word) = (escaped(scenario), escaped(&word));
        let message = format!("ruleset {word} is not written: {errno}: {why}");
        Outcome::refused(format!("skein: {scenario}: {message}\n"), DIFFERS)
    })?;
    let Some(file) = &wanted.file else {
        return Ok(Outcome::output(show(&bytes)));
    };
    std::fs::write(file, &bytes).map_err(|error| Outcome::unreadable(file, &error))?;
    let length = counted(bytes.len(), "byte");
    let file = escaped(&file.to_string_lossy());
    Ok(Outcome::output(format!("{file}: {length}\n")))
}

/// Why the policy file of a ruleset is not written, in words.
pub fn unwritten(tables: &Tables, ruleset: Ruleset, errno: Errno) -> String {
    match errno {
        Errno::EBADF => "the ruleset is not open".to_owned(),
        Errno::EINVAL => "the name has not 1 to 32 bytes".to_owned(),
        Errno::EPERM => {
            let rights = root_rights(tables, ruleset);
            format!("a rule grants {rights} at the root, which no rule may")
        }
        Errno::ENOENT => match objects(tables, ruleset).find(|(_, path)| path.is_none()) {
            Some((object, _)) => format!("object {object} of a rule has no entry left"),
            None => errno.description().to_owned(),
        },
        Errno::ENAMETOOLONG => {
            let lengths =
                objects(tables, ruleset).filter_map(|(object, path)| Some((object, path?.len())));
            let mut long = lengths.filter(|(_, length)| *length > LONGEST_PATH);
            match long.next() {
                Some((object, length)) => format!(
                    "the first path of object {object} has {length} bytes, more than {LONGEST_PATH}"
                ),
                None => errno.description().to_owned(),
            }
        }
        Errno::E2BIG => format!("the file would have more than {LONGEST_FILE} bytes"),
        Errno::ENOSPC => "the file is longer than the room".to_owned(),
        Errno::EIO => "the tables are not sound".to_owned(),
        _ => errno.description().to_owned(),
    }
}

/// The most bytes of a path that is looked up.
const LONGEST_PATH: usize = 4095;

/// The rights to change something that a ruleset's rules grant at the root.
fn root_rights(tables: &Tables, ruleset: Ruleset) -> Rights {
    let root = tables.entry(Entry::ROOT).map(|row| row.object);
    let mut granted = Rights::NONE;
    for rule in rules(tables, ruleset) {
        if let Rule::Path { object, rights } = rule {
            if Some(object) == root {
                granted |= rights & Rights::NOT_AT_ROOT;
            }
        }
    }
    granted
}

fn rules(tables: &Tables, ruleset: Ruleset) -> impl Iterator<Item = Rule> + '_ {
    let row = tables.open_ruleset(ruleset);
    row.into_iter().flat_map(|row| row.rules.iter())
}

/// The objects of a ruleset's rules, each with its first path if it has one.
fn objects(tables: &Tables, ruleset: Ruleset) -> impl Iterator<Item = (u64, Option<Vec<u8>>)> + '_ {
    rules(tables, ruleset).filter_map(|rule| {
        let Rule::Path { object, .. } = rule else {
            return None;
        };
        let entries = tables.entries().filter(|row| row.object == object);
        let paths = entries.filter_map(|row| tables.path(row.entry));
        Some((object, paths.min()))
    })
}
