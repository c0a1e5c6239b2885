//! A policy file, read from its start by what may stand next.

use crate::refusal::Refusal;
use crate::rights::{Masks, Rights};
use crate::state::LAST_LEVEL;
use std::collections::BTreeSet;
use std::ops::Range;

/// The most bytes of a ruleset's name.
pub const LONGEST_NAME: usize = 32;
/// How many groups may stand inside one another.
pub const DEEPEST: usize = 8;
/// The bytes of three masks, of a right set and of a port.
pub const MASKS: usize = 24;
const RIGHTS: usize = 8;
const PORT: usize = 2;

/// A ruleset as a file has it.
#[derive(Clone, PartialEq, Eq, Debug)]
pub struct Written {
    pub name: Vec<u8>,
    /// From its tag 1 up to the next ruleset or the file's end.
    pub part: Range<usize>,
    pub masks: Vec<u8>,
    pub items: Vec<Item>,
}

/// A rule, or a group of rules and groups from a level on.
#[derive(Clone, PartialEq, Eq, Debug)]
pub enum Item {
    Rule(Rule),
    Group { level: u64, items: Vec<Item> },
}

impl Item {
    /// The rules that count at a level.
    fn counted(&self, level: u64) -> Vec<Rule> {
        match self {
            Item::Rule(rule) => vec![rule.clone()],
            Item::Group { level: lowest, .. } if level < *lowest => Vec::new(),
            Item::Group { items, .. } => {
                let rules = items.iter().flat_map(|item| item.counted(level));
                rules.collect()
            }
        }
    }
}

impl Written {
    /// The rules that are added at a level, in order: "a group counts exactly if the .. level reaches its number
    /// and those of the groups around it".
    pub fn rules(&self, level: u64) -> Vec<Rule> {
        let rules = self.items.iter().flat_map(|item| item.counted(level));
        rules.collect()
    }

    /// How many groups stand inside one another.
    pub fn depth(&self) -> usize {
        depth(&self.items)
    }

    /// Whether it has a group, counted or not.
    pub fn has_groups(&self) -> bool {
        let mut items = self.items.iter();
        items.any(|item| matches!(item, Item::Group { .. }))
    }

    /// What its create is given at a level: "in a ruleset with groups the create gets no mask bits that only
    /// higher levels know".
    pub fn attribute(&self, level: u64) -> Vec<u8> {
        if !self.has_groups() {
            return self.masks.clone();
        }
        let only_higher = |lowest: u64| {
            let (all, known) = (Masks::known(LAST_LEVEL), Masks::known(lowest));
            [
                all.fs.without(known.fs),
                all.net.without(known.net),
                all.scope.without(known.scope),
            ]
        };
        let masks = self.masks.chunks(8).zip(only_higher(level));
        let cut = masks.map(|(mask, higher)| Rights(number(mask)).without(higher).0);
        cut.flat_map(u64::to_le_bytes).collect()
    }
}

#[derive(Clone, PartialEq, Eq, Debug)]
pub enum Rule {
    Path { rights: u64, path: Vec<u8> },
    Port { rights: u64, port: u64 },
}

fn depth(items: &[Item]) -> usize {
    let groups = items.iter().map(|item| match item {
        Item::Rule(_) => 0,
        Item::Group { items, .. } => 1 + depth(items),
    });
    groups.max().unwrap_or(0)
}

/// The place of the first faulty field, and what is wrong with it.
#[derive(Clone, Copy, PartialEq, Eq, Debug)]
pub struct Fault {
    pub place: usize,
    pub why: Refusal,
}

/// A field that fits where it stands.
struct Field<'f> {
    place: usize,
    tag: u8,
    value: &'f [u8],
}

impl Field<'_> {
    fn fault(&self, why: Refusal) -> Fault {
        let place = self.place;
        Fault { place, why }
    }
}

/// What is left of a file, and where that begins.
struct Rest<'f> {
    place: usize,
    bytes: &'f [u8],
}

impl<'f> Rest<'f> {
    fn is_over(&self) -> bool {
        self.bytes.is_empty()
    }

    fn fault(&self, why: Refusal) -> Fault {
        let place = self.place;
        Fault { place, why }
    }

    /// The next field, which is not taken: "a one-byte tag and a two-byte little-endian length, then the value".
    fn next(&self) -> Result<Field<'f>, Fault> {
        let [tag, low, high, after @ ..] = self.bytes else {
            return Err(self.fault(Refusal::StrayBytes));
        };
        let length = usize::from(u16::from_le_bytes([*low, *high]));
        let value = after.get(..length);
        let value = value.ok_or(self.fault(Refusal::ValuePastEnd))?;
        Ok(Field {
            place: self.place,
            tag: *tag,
            value,
        })
    }

    fn drop(&mut self, field: &Field) {
        let taken = 3 + field.value.len();
        self.place += taken;
        self.bytes = &self.bytes[taken..];
    }
}

/// The rulesets of a file, or its first fault. The size of the file is not looked at.
pub fn rulesets_of(file: &[u8]) -> Result<Vec<Written>, Fault> {
    let mut rest = Rest {
        place: 0,
        bytes: file,
    };
    let mut names = BTreeSet::new();
    let mut rulesets = Vec::new();
    while !rest.is_over() {
        let name = opening(&mut rest, &mut names)?;
        let start = name.place;
        let masks = masks(&mut rest)?;
        let items = items(&mut rest)?;
        rulesets.push(Written {
            name: name.value.to_vec(),
            part: start..rest.place,
            masks,
            items,
        });
    }
    Ok(rulesets)
}

/// "Tag 1 opens a ruleset (a name of 1 to 32 bytes, unique in the file)".
fn opening<'f>(rest: &mut Rest<'f>, names: &mut BTreeSet<&'f [u8]>) -> Result<Field<'f>, Fault> {
    let field = rest.next()?;
    if field.tag != 1 {
        return Err(field.fault(Refusal::NoRulesetYet));
    }
    match field.value.len() {
        0 => return Err(field.fault(Refusal::RulesetWithoutName)),
        1..=LONGEST_NAME => {}
        _ => return Err(field.fault(Refusal::RulesetNameTooLong)),
    }
    if !names.insert(field.value) {
        return Err(field.fault(Refusal::RulesetTwice));
    }
    rest.drop(&field);
    Ok(field)
}

/// "tag 2 gives its three masks (24 bytes)", "Tag 2 follows tag 1 at once"; the place is "the file's length if
/// only a last tag 2 is missing".
fn masks(rest: &mut Rest) -> Result<Vec<u8>, Fault> {
    if rest.is_over() {
        return Err(rest.fault(Refusal::MasksMissing));
    }
    let field = rest.next()?;
    if field.tag != 2 {
        return Err(field.fault(Refusal::NotMasks));
    }
    if field.value.len() != MASKS {
        return Err(field.fault(Refusal::MasksSize));
    }
    rest.drop(&field);
    Ok(field.value.to_vec())
}

/// The rules and groups up to the next ruleset or the file's end.
fn items(rest: &mut Rest) -> Result<Vec<Item>, Fault> {
    let mut items = Vec::new();
    while !rest.is_over() {
        let field = rest.next()?;
        if field.tag == 1 {
            break;
        }
        items.push(item(&field, 0)?);
        rest.drop(&field);
    }
    Ok(items)
}

/// A field where a rule may stand, with so many groups around it.
fn item(field: &Field, around: usize) -> Result<Item, Fault> {
    if field.tag != 5 {
        return rule(field).map(Item::Rule);
    }
    // "Groups nest at most 8 deep .. a ninth is EBADMSG at its place".
    if around == DEEPEST {
        return Err(field.fault(Refusal::GroupTooDeep));
    }
    // "a one-byte lowest level (1 to 6), then fields, perhaps none".
    let Some((level, inner)) = field.value.split_first() else {
        return Err(field.fault(Refusal::GroupWithoutLevel));
    };
    if !(1..=LAST_LEVEL).contains(&u64::from(*level)) {
        return Err(field.fault(Refusal::GroupLevel));
    }
    let mut rest = Rest {
        place: field.place + 4,
        bytes: inner,
    };
    let mut items = Vec::new();
    while !rest.is_over() {
        let field = rest.next()?;
        items.push(item(&field, around + 1)?);
        rest.drop(&field);
    }
    Ok(Item::Group {
        level: u64::from(*level),
        items,
    })
}

/// "tag 3 a path rule (8-byte rights, then the path), tag 4 a port rule (8-byte rights, 2-byte port, both
/// little-endian)".
fn rule(field: &Field) -> Result<Rule, Fault> {
    let value = field.value;
    match field.tag {
        1 => Err(field.fault(Refusal::RulesetInGroup)),
        2 => Err(field.fault(Refusal::MasksAgain)),
        3 if value.len() < RIGHTS => Err(field.fault(Refusal::PathRuleTooShort)),
        3 => Ok(Rule::Path {
            rights: number(&value[..RIGHTS]),
            path: value[RIGHTS..].to_vec(),
        }),
        4 if value.len() != RIGHTS + PORT => Err(field.fault(Refusal::PortRuleSize)),
        4 => Ok(Rule::Port {
            rights: number(&value[..RIGHTS]),
            port: number(&value[RIGHTS..]),
        }),
        _ => Err(field.fault(Refusal::UnknownTag)),
    }
}

/// Little-endian bytes as a number.
fn number(bytes: &[u8]) -> u64 {
    let digits = bytes.iter().zip((0..).step_by(8));
    digits.map(|(byte, at)| u64::from(*byte) << at).sum()
}
