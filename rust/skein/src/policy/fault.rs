//! What is wrong at a place of a policy file, in words. That something is, and where, the broker says.
use super::{
    fields, split_field, Field, DEEPEST, GROUP, GROUP_HEADER, HEADER, LAST_LEVEL, LONGEST_NAME,
    MASKS, MASKS_SIZE, PATH_RULE, PORT_RULE, PORT_SIZE, RIGHTS_SIZE, RULESET,
};
use crate::scenario::{written, Bad};
use crate::transcript::counted;

/// What stands at the place where a file is damaged, and what should.
pub fn fault(file: &[u8], place: usize) -> Bad {
    let before: Vec<Field> = fields(file, 0)
        .take_while(|field| field.place < place)
        .collect();
    let rest = file.get(place..).unwrap_or_default();
    match before.last() {
        Some(group) if group.is_around(place) => in_group(*group, place, 1),
        _ => match split_field(rest, place) {
            Some((field, _)) => in_place(field, &before),
            None => cut_short(rest, "the file", &before),
        },
    }
}

/// What stands at a place in a group, where so many groups are around it.
fn in_group(group: Field, place: usize, around: usize) -> Bad {
    let before = group.inner().take_while(|field| field.place < place);
    let inner = before.last().filter(|inner| inner.is_around(place));
    if let Some(inner) = inner {
        return in_group(inner, place, around + 1);
    }
    let from = place.saturating_sub(group.place + GROUP_HEADER);
    let rest = group.inside().get(from..).unwrap_or_default();
    match split_field(rest, place) {
        Some((field, _)) if field.tag == GROUP && around == DEEPEST => {
            let found = format!("a group inside {DEEPEST} others");
            Bad::new(found, format!("at most {DEEPEST} inside one another"))
        }
        Some((field, _)) => item(field, "a path rule (tag 3), a port rule (4) or a group (5)"),
        None => cut_short(rest, "its group", &[]),
    }
}

/// The bytes at the end that are no whole field.
fn cut_short(rest: &[u8], whole: &str, before: &[Field]) -> Bad {
    match rest {
        [] => Bad::new("the end of the file", masks_of(before)),
        [tag, low, high, there @ ..] => {
            let says = usize::from(u16::from_le_bytes([*low, *high]));
            let found = format!(
                "a field of tag {tag} with {} to come, of which {} there",
                counted(says, "byte"),
                are(there.len())
            );
            Bad::new(found, format!("a value that ends with {whole} or before"))
        }
        stray => {
            let found = format!("{} at the end", counted(stray.len(), "stray byte"));
            let expected = format!("a field, which has {HEADER} bytes before its value");
            Bad::new(found, expected)
        }
    }
}

fn are(count: usize) -> String {
    match count {
        1 => "1 is".to_owned(),
        _ => format!("{count} are"),
    }
}

/// A whole field that may not stand after those before it.
fn in_place(field: Field, before: &[Field]) -> Bad {
    let after = before.last().map(|field| field.tag);
    match (field.tag, after) {
        (MASKS, Some(RULESET)) => sized(field, "masks", MASKS_SIZE),
        (_, Some(RULESET)) => Bad::new(noun(field.tag), masks_of(before)),
        (RULESET, _) => name(field, before),
        (_, None) => Bad::new(noun(field.tag), "a ruleset's name (tag 1) at the start"),
        _ => {
            let expected =
                "a ruleset's name (tag 1), a path rule (3), a port rule (4) or a group (5)";
            item(field, expected)
        }
    }
}

/// A whole field that is no rule and no group as they should be.
fn item(field: Field, expected: &str) -> Bad {
    match field.tag {
        RULESET => Bad::new(noun(RULESET), "it outside of groups"),
        MASKS => Bad::new(
            noun(MASKS),
            "them right behind a ruleset's name and nowhere else",
        ),
        PATH_RULE => {
            let found = format!("a path rule of {}", counted(field.value.len(), "byte"));
            let expected = format!("at least {RIGHTS_SIZE} bytes, which are its rights");
            Bad::new(found, expected)
        }
        PORT_RULE => sized(field, "a port rule", RIGHTS_SIZE + PORT_SIZE),
        GROUP => {
            let found = match field.value.first() {
                Some(level) => format!("a group from level {level} on"),
                None => "a group without a level".to_owned(),
            };
            Bad::new(found, format!("a level from 1 to {LAST_LEVEL}"))
        }
        tag => Bad::new(noun(tag), expected),
    }
}

/// A field that always has the same size, and has another.
fn sized(field: Field, what: &str, size: usize) -> Bad {
    let found = format!("{what} of {}", counted(field.value.len(), "byte"));
    Bad::new(found, counted(size, "byte"))
}

/// A ruleset's name that cannot be one, or is taken.
fn name(field: Field, before: &[Field]) -> Bad {
    let taken = before
        .iter()
        .find(|other| other.tag == RULESET && other.value == field.value);
    match (taken, field.value.len()) {
        (_, 0) | (None, _) => {
            let found = format!("a ruleset's name of {}", counted(field.value.len(), "byte"));
            Bad::new(found, format!("1 to {LONGEST_NAME} bytes"))
        }
        (Some(other), _) => {
            let found = format!("a second ruleset {}", written(field.value));
            let expected = format!("another name: the first is at byte {}", other.place);
            Bad::new(found, expected)
        }
    }
}

/// The masks that a ruleset's name asks for.
fn masks_of(before: &[Field]) -> String {
    let name = before.last().map(|field| written(field.value));
    format!("the masks (tag 2) of ruleset {}", name.unwrap_or_default())
}

/// What a tag stands for.
fn noun(tag: u8) -> String {
    let noun = match tag {
        RULESET => "a ruleset's name",
        MASKS => "masks",
        PATH_RULE => "a path rule",
        PORT_RULE => "a port rule",
        GROUP => "a group",
        _ => return format!("tag {tag}, which means nothing"),
    };
    format!("{noun} (tag {tag})")
}
