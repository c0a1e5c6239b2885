//! `skein policy`: what is done with policy files.
use super::source::{bytes, text, Unread};
use super::text::{build, show};
use super::{export, fault, fields, read, Export, Field, GROUP, LONGEST_FILE, MASKS, RULESET};
use crate::messages::bad_lines;
use crate::scenario::{written, Bad};
use crate::transcript::counted;
use crate::words::{escaped, quoted};
use crate::{with_play, Outcome, BAD_INPUT, DIFFERS, UNREADABLE};
use skeinrabbit::{find_policy, PolicyFile, PolicyRefusal};
use std::ffi::{OsStr, OsString};
use std::fs::File;
use std::os::unix::ffi::OsStrExt;
use std::path::Path;

/// What to do with policy files.
#[derive(Debug, PartialEq, Eq)]
pub enum PolicyCommand {
    Check(OsString),
    Show(OsString),
    /// Makes the second of the first, which is text.
    Build(OsString, OsString),
    /// Stock, site and the name of a ruleset.
    Find([OsString; 3]),
    Export(Export),
}

/// Stands for standard input.
const STDIN: &str = "-";
/// Stands for a file without bytes.
const EMPTY: &str = "none";

pub fn perform(command: &PolicyCommand) -> Outcome {
    let done = match command {
        PolicyCommand::Check(file) => check(file),
        PolicyCommand::Show(file) => fine(file).map(|bytes| show(&bytes)),
        PolicyCommand::Build(text, file) => build_file(text, file),
        PolicyCommand::Find([stock, site, name]) => find(stock, site, name),
        PolicyCommand::Export(wanted) => {
            return with_play(&wanted.scenario, |file, play| {
                export(file, &play, wanted).unwrap_or_else(|refused| refused)
            })
        }
    };
    done.map_or_else(
        |refused| refused,
        |output| Outcome {
            output,
            ..Outcome::default()
        },
    )
}

/// What a command writes, or what it leaves instead.
pub type Done<T> = Result<T, Outcome>;

fn refused(messages: String, code: u8) -> Outcome {
    Outcome {
        messages,
        code,
        ..Outcome::default()
    }
}

fn unread(file: &OsStr, unread: Unread) -> Outcome {
    match unread {
        Unread::Io(error) => {
            let name = escaped(&file.to_string_lossy());
            refused(format!("skein: {name}: {error}\n"), UNREADABLE)
        }
        Unread::Lines(lines) => refused(bad_lines(&file.to_string_lossy(), &lines), BAD_INPUT),
    }
}

/// The bytes of a policy file.
fn load(file: &OsStr) -> Done<Vec<u8>> {
    let read = match file.to_str() {
        Some(STDIN) => bytes(std::io::stdin()).map_err(Unread::Io),
        Some(EMPTY) => Ok(Vec::new()),
        _ => read(Path::new(file)),
    };
    read.map_err(|error| unread(file, error))
}

/// The bytes of a policy file that nothing is wrong with.
pub fn fine(file: &OsStr) -> Done<Vec<u8>> {
    let bytes = load(file)?;
    match find_policy(&bytes, &[], "") {
        // No ruleset has an empty name.
        Ok(_) | Err(PolicyRefusal::Missing) => Ok(bytes),
        Err(refusal) => Err(faulty(file, &bytes, refusal)),
    }
}

/// What is wrong with a file, and where.
fn faulty(file: &OsStr, bytes: &[u8], refusal: PolicyRefusal) -> Outcome {
    let message = match refusal {
        PolicyRefusal::Damaged { place, .. } => {
            let Bad { found, expected } = fault(bytes, place);
            let there = bytes.get(place..).unwrap_or_default().iter().take(8);
            let there: String = there.map(|byte| format!(" {byte:02x}")).collect();
            let there = if there.is_empty() { " end" } else { &there };
            format!("byte {place}:{there}: found {found}; expected {expected}")
        }
        _ => format!("found more than {LONGEST_FILE} bytes; expected at most so many"),
    };
    let name = escaped(&file.to_string_lossy());
    refused(format!("{name}: {message}\n"), BAD_INPUT)
}

/// Says which rulesets a file has.
fn check(file: &OsStr) -> Done<String> {
    let bytes = fine(file)?;
    let all: Vec<Field> = fields(&bytes, 0).collect();
    let rulesets = all.iter().filter(|field| field.tag == RULESET);
    let mut output = format!(
        "{}: fine, {} in {}\n",
        escaped(&file.to_string_lossy()),
        counted(rulesets.clone().count(), "ruleset"),
        counted(bytes.len(), "byte")
    );
    for ruleset in rulesets {
        let behind = all.iter().filter(|field| field.place > ruleset.place);
        let own = behind.take_while(|field| field.tag != RULESET);
        let rules: usize = own.map(|field| rules_in(*field)).sum();
        output.push_str(&format!(
            "  byte {}: {}, {}\n",
            ruleset.place,
            written(ruleset.value),
            counted(rules, "rule")
        ));
    }
    Ok(output)
}

/// How many rules a field is or has in it.
fn rules_in(field: Field) -> usize {
    match field.tag {
        MASKS => 0,
        GROUP => field.inner().map(rules_in).sum(),
        _ => 1,
    }
}

/// Makes a policy file of text.
fn build_file(from: &OsStr, to: &OsStr) -> Done<String> {
    let read = match from.to_str() {
        Some(STDIN) => text(std::io::stdin()),
        _ => File::open(from).and_then(text),
    };
    let built = read.map_err(Unread::Io);
    let built = built.and_then(|text| build(&text).map_err(Unread::Lines));
    let built = built.map_err(|error| unread(from, error))?;
    std::fs::write(to, &built).map_err(|error| unread(to, Unread::Io(error)))?;
    Ok(format!(
        "{}: {}\n",
        escaped(&to.to_string_lossy()),
        counted(built.len(), "byte")
    ))
}

/// Says which ruleset a name means, and shows it.
fn find(stock: &OsStr, site: &OsStr, name: &OsStr) -> Done<String> {
    let (in_stock, in_site) = (load(stock)?, load(site)?);
    let found = find_policy(&in_stock, &in_site, name.as_bytes());
    let part = found.map_err(|refusal| match refusal {
        PolicyRefusal::Damaged { file, .. } | PolicyRefusal::TooBig { file } => {
            let (file, bytes) = of(file, (stock, &in_stock), (site, &in_site));
            faulty(file, bytes, refusal)
        }
        PolicyRefusal::Missing | PolicyRefusal::Call(_) => {
            let name = quoted(&name.to_string_lossy());
            let [stock, site] = [stock, site].map(|file| escaped(&file.to_string_lossy()));
            let message = format!("skein: neither {stock} nor {site} has a ruleset {name}\n");
            refused(message, DIFFERS)
        }
    })?;
    let (file, _) = of(part.file, (stock, ()), (site, ()));
    Ok(format!(
        "# {}: {} file, bytes {} to {}\n{}",
        escaped(&file.to_string_lossy()),
        part.file,
        part.place,
        part.place + part.bytes.len(),
        show(part.bytes)
    ))
}

/// What is given for one file or the other.
fn of<T>(file: PolicyFile, stock: T, site: T) -> T {
    match file {
        PolicyFile::Stock => stock,
        PolicyFile::Site => site,
    }
}
