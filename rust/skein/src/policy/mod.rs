//! Policy files: read, checked, shown as text and built from it, and written of a ruleset.
mod command;
mod export;
mod fault;
mod meaning;
mod source;
mod text;

pub use command::{fine, perform, PolicyCommand};
pub use export::{export, unwritten, Export};
pub use fault::fault;
pub use meaning::{rulesets, Ruleset};
pub use source::{read, Unread};
pub use text::show;

use skeinrabbit::{Attribute, PortRights, Rights, Scopes};

/// The tags of fields.
const RULESET: u8 = 1;
const MASKS: u8 = 2;
const PATH_RULE: u8 = 3;
const PORT_RULE: u8 = 4;
const GROUP: u8 = 5;

/// The bytes of a field before its value.
const HEADER: usize = 3;
/// The bytes of a group before its fields.
const GROUP_HEADER: usize = 4;
/// How many groups may stand inside one another.
const DEEPEST: usize = 8;
/// The highest level.
const LAST_LEVEL: u8 = 6;
/// The bytes of three masks, of a right set and of a port.
const MASKS_SIZE: usize = 24;
const RIGHTS_SIZE: usize = 8;
const PORT_SIZE: usize = 2;
/// The most bytes of a ruleset's name and of a file.
const LONGEST_NAME: usize = 32;
pub const LONGEST_FILE: usize = 32_768;

/// A whole field of a file.
#[derive(Clone, Copy)]
struct Field<'f> {
    place: usize,
    tag: u8,
    value: &'f [u8],
}

/// The field at the start of some bytes that stand at a place, and what follows it; none where there is no whole one.
fn split_field(bytes: &[u8], place: usize) -> Option<(Field<'_>, &[u8])> {
    let (header, after) = bytes.split_at_checked(HEADER)?;
    let [tag, low, high] = *header else {
        return None;
    };
    let length = usize::from(u16::from_le_bytes([low, high]));
    let (value, rest) = after.split_at_checked(length)?;
    Some((Field { place, tag, value }, rest))
}

impl<'f> Field<'f> {
    /// The fields of a group.
    fn inner(self) -> impl Iterator<Item = Field<'f>> {
        fields(self.inside(), self.place + GROUP_HEADER)
    }

    /// Whether it is a group that a place is in, or that ends there.
    fn is_around(self, place: usize) -> bool {
        self.tag == GROUP && self.place + HEADER + self.value.len() > place
    }

    /// The bytes of a group behind its level.
    fn inside(self) -> &'f [u8] {
        self.value.get(1..).unwrap_or_default()
    }

    /// The level of a group.
    fn level(self) -> u8 {
        self.value.first().copied().unwrap_or_default()
    }

    /// The rights of a rule, and the bytes of its path or port.
    fn rule(self) -> (u64, &'f [u8]) {
        let split = self.value.split_at_checked(RIGHTS_SIZE);
        let (rights, rest) = split.unwrap_or((self.value, &[]));
        (little_endian(rights), rest)
    }

    fn masks(self) -> Attribute {
        let mut masks = self.value.chunks(RIGHTS_SIZE).map(little_endian);
        let mut next = || masks.next().unwrap_or_default();
        Attribute {
            fs: Rights::from_bits(next()),
            net: PortRights::from_bits(next()),
            scope: Scopes::from_bits(next()),
        }
    }
}

fn little_endian(bytes: &[u8]) -> u64 {
    let bytes = bytes.iter().rev();
    bytes.fold(0, |number, byte| number << 8 | u64::from(*byte))
}

/// The whole fields at the start of some bytes, the first of which stands at a place.
fn fields(bytes: &[u8], place: usize) -> impl Iterator<Item = Field<'_>> {
    let mut rest = bytes;
    let mut at = place;
    std::iter::from_fn(move || {
        let (field, after) = split_field(rest, at)?;
        at += rest.len() - after.len();
        rest = after;
        Some(field)
    })
}
