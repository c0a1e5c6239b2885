//! The log of a scenario, and a log in words.
use crate::scenario::written;
use crate::transcript::counted;
use skeinrabbit::{Kind, Layer, Log, Tables};
use std::collections::BTreeMap;

/// A log, with the tables that it started from and the line that had made each layer by then.
#[derive(Clone)]
pub struct Kept {
    pub log: Log,
    tables: Tables,
    restricted: BTreeMap<Layer, usize>,
}

impl Kept {
    pub fn new(room: usize, used: u64, tables: Tables, restricted: BTreeMap<Layer, usize>) -> Self {
        Self {
            log: Log::from_parts(vec![0; room], used),
            tables,
            restricted,
        }
    }

    /// What it started from.
    pub fn start(&self) -> (Tables, BTreeMap<Layer, usize>) {
        (self.tables.clone(), self.restricted.clone())
    }
}

/// A log that has room for any one change.
pub fn of_one_change() -> Log {
    Log::with_capacity(HEAD + MAX_VALUE)
}

/// The bytes of a field before its value, and the most of a value.
const HEAD: usize = 3;
const MAX_VALUE: usize = 64;

/// Each field of a log in words, with its place; the last line is the tail that is no whole field.
pub fn in_words(log: &[u8]) -> Vec<String> {
    let mut lines = Vec::new();
    let mut rest = log;
    while let Some((tag, value, more)) = field(rest) {
        let place = log.len() - rest.len();
        lines.push(format!("byte {place}: {}", change(tag, value)));
        rest = more;
    }
    if !rest.is_empty() {
        let place = log.len() - rest.len();
        let bytes = counted(rest.len(), "byte");
        lines.push(format!("byte {place}: {bytes} of a field that is cut"));
    }
    lines
}

/// The tag and the value of the first field, and what stands behind it, if the field is whole.
fn field(log: &[u8]) -> Option<(u8, &[u8], &[u8])> {
    let (&[tag, low, high], rest) = log.split_first_chunk::<HEAD>()?;
    let length = usize::from(u16::from_le_bytes([low, high]));
    let (value, rest) = rest.split_at_checked(length)?;
    Some((tag, value, rest))
}

fn change(tag: u8, value: &[u8]) -> String {
    let known = match tag {
        16 => create(value),
        17 => all_numbers(value).map(|[entry]| format!("remove {entry}")),
        18 => moved("link", value),
        19 => moved("rename", value),
        20 => all_numbers(value).map(|[source, directory, other]| {
            format!("exchange {source} with {other} in {directory}")
        }),
        _ => None,
    };
    let known = known.filter(|_| value.len() <= MAX_VALUE);
    known.unwrap_or_else(|| format!("unknown: tag {tag}, {}", counted(value.len(), "byte")))
}

fn create(value: &[u8]) -> Option<String> {
    let (kind, rest) = value.split_first()?;
    let ([directory], name) = numbers(rest)?;
    let kind = Kind::new(u64::from(*kind));
    Some(format!("create {kind} in {directory}, {}", written(name)))
}

fn moved(call: &str, value: &[u8]) -> Option<String> {
    let ([source, directory], name) = numbers(value)?;
    Some(format!("{call} {source} to {directory}, {}", written(name)))
}

/// The numbers of two bytes that a value is.
fn all_numbers<const N: usize>(value: &[u8]) -> Option<[u16; N]> {
    let (numbers, rest) = numbers(value)?;
    rest.is_empty().then_some(numbers)
}

/// The numbers of two bytes that a value starts with, the lower one first, and what stands behind them.
fn numbers<const N: usize>(value: &[u8]) -> Option<([u16; N], &[u8])> {
    let mut rest = value;
    let mut numbers = [0; N];
    for number in &mut numbers {
        let (bytes, more) = rest.split_first_chunk()?;
        *number = u16::from_le_bytes(*bytes);
        rest = more;
    }
    Some((numbers, rest))
}

#[cfg(test)]
mod tests {
    use super::*;

    #[test]
    fn every_field_is_said() {
        let log = b"\x10\x06\x00\x02\x00\x00cal\x11\x02\x00\x00\x01\x12\x06\x00\x02\x00\x01\x00a \x13\x05\x00\x02\x00\x01\x00b\
            \x14\x06\x00\x01\x00\x02\x00\x03\x00";
        let lines = [
            "byte 0: create directory in 0, cal",
            "byte 9: remove 256",
            r"byte 14: link 2 to 1, a\x20",
            "byte 23: rename 2 to 1, b",
            "byte 31: exchange 1 with 3 in 2",
        ];
        assert_eq!(in_words(log), lines);
        assert_eq!(in_words(&log[..9]), lines[..1]);
        let cut = [lines[0], "byte 9: 4 bytes of a field that is cut"];
        assert_eq!(in_words(&log[..13]), cut);
        assert_eq!(
            in_words(&log[..1]),
            ["byte 0: 1 byte of a field that is cut"]
        );
        assert!(in_words(b"").is_empty());
    }

    #[test]
    fn other_fields_are_unknown() {
        for (log, bytes) in [
            (&b"\x00\x00\x00"[..], 0),
            (b"\x15\x01\x00n", 1),
            (b"\x10\x02\x00\x01\x00", 2),
            (b"\x11\x03\x00\x01\x00\x00", 3),
            (b"\x12\x03\x00\x01\x00\x00", 3),
            (b"\x14\x05\x00\x01\x00\x00\x00\x00", 5),
        ] {
            let line = format!(
                "byte 0: unknown: tag {}, {}",
                log[0],
                counted(bytes, "byte")
            );
            assert_eq!(in_words(log), [line]);
        }
        let long = [&[16, 65, 0][..], &[1; 65]].concat();
        assert_eq!(in_words(&long), ["byte 0: unknown: tag 16, 65 bytes"]);
        assert_eq!(
            in_words(b"\x10\x03\x00\x09\x05\x00"),
            ["byte 0: create 9 in 5, \"\""]
        );
    }
}
