//! Policy files as text, one field to a line.
use super::{
    fault, fields, little_endian, Field, GROUP, HEADER, LONGEST_FILE, MASKS, PATH_RULE, PORT_RULE,
    RULESET,
};
use crate::scenario::{number, value, words_of, written, Bad, BadLine, Named, Text};
use skeinrabbit::{find_policy, Attribute, PolicyRefusal, PortRights, Rights, Scopes};

/// A file that is built from text.
#[derive(Default)]
struct Built {
    bytes: Vec<u8>,
    /// The place of each field with its line.
    lines: Vec<(usize, usize)>,
    /// The groups that have no end yet: each one's place with its line.
    open: Vec<(usize, usize)>,
}

impl Built {
    /// The line of the field at a place; the last one behind all fields.
    fn line(&self, place: usize) -> usize {
        let before = self.lines.iter().take_while(|(at, _)| *at <= place);
        before.last().map_or(1, |(_, line)| *line)
    }

    /// Takes what a line says.
    fn take(&mut self, line: usize, said: Said) -> Result<(), Bad> {
        let place = self.bytes.len();
        match said {
            Said::Nothing => {}
            Said::Field(field) => {
                self.lines.push((place, line));
                self.bytes.extend(field);
            }
            Said::Group(level) => {
                self.lines.push((place, line));
                self.open.push((place, line));
                // Its length is written when it ends.
                self.bytes.extend([GROUP, 0, 0, level]);
            }
            Said::End => {
                let group = self.open.pop();
                let (start, _) = group.ok_or_else(|| Bad::word("end", "it behind a `group`"))?;
                self.close(start)?;
            }
        }
        Ok(())
    }

    /// Writes the length of a group that ends here.
    fn close(&mut self, start: usize) -> Result<(), Bad> {
        let length = length_of(self.bytes.len().saturating_sub(start + HEADER))?;
        let place = self.bytes.get_mut(start + 1..start + HEADER);
        for (byte, length) in place.into_iter().flatten().zip(length) {
            *byte = length;
        }
        Ok(())
    }

    /// The bytes, if the broker finds nothing wrong with them.
    fn checked(self) -> Result<Vec<u8>, Vec<BadLine>> {
        let (place, bad) = match find_policy(&self.bytes, &[], "") {
            Err(PolicyRefusal::Damaged { place, .. }) => (place, fault(&self.bytes, place)),
            Err(PolicyRefusal::TooBig { .. }) => {
                let found = format!("a file of {} bytes", self.bytes.len());
                let expected = format!("at most {LONGEST_FILE}");
                (LONGEST_FILE, Bad::new(found, expected))
            }
            _ => return Ok(self.bytes),
        };
        let line = self.line(place);
        Err(vec![BadLine { line, bad }])
    }
}

/// Builds a file; answers every line that is not as the form asks where there is one.
pub fn build(text: &[u8]) -> Result<Vec<u8>, Vec<BadLine>> {
    let mut built = Built::default();
    let mut bad_lines = Vec::new();
    for (place, bytes) in text.split(|byte| *byte == b'\n').enumerate() {
        let line = place + 1;
        let said = said(bytes).and_then(|said| built.take(line, said));
        if let Err(bad) = said {
            bad_lines.push(BadLine { line, bad });
        }
    }
    bad_lines.extend(built.open.iter().map(|(_, line)| BadLine {
        line: *line,
        bad: Bad::new("a group without `end`", "`end` behind its last field"),
    }));
    if bad_lines.is_empty() {
        built.checked()
    } else {
        Err(bad_lines)
    }
}

/// What a line says.
enum Said {
    Nothing,
    /// The bytes of a field.
    Field(Vec<u8>),
    /// A group from a level on begins.
    Group(u8),
    /// The last group that began ends.
    End,
}

fn said(line: &[u8]) -> Result<Said, Bad> {
    let (words, _) = words_of(line)?;
    let Some((word, rest)) = words.split_first() else {
        return Ok(Said::Nothing);
    };
    let field = match (*word, rest) {
        ("ruleset", [name]) => put(RULESET, &bytes(name)?)?,
        ("masks", masks) => put(MASKS, &attribute(masks)?.to_bytes())?,
        ("path", [path, rights]) => {
            let rights: Rights = value(rights)?;
            let path = bytes(path)?;
            put(
                PATH_RULE,
                &[&rights.bits().to_le_bytes(), &path[..]].concat(),
            )?
        }
        ("port", [port, rights]) => {
            let rights: PortRights = value(rights)?;
            let port = port_number(port)?;
            let value = [&rights.bits().to_le_bytes()[..], &port.to_le_bytes()];
            put(PORT_RULE, &value.concat())?
        }
        ("group", [level]) => return level_of(level).map(Said::Group),
        ("end", []) => return Ok(Said::End),
        _ => return Err(Bad::word(&words.join(" "), FORMS)),
    };
    Ok(Said::Field(field))
}

const FORMS: &str = "`ruleset NAME`, `masks [fs=RIGHTS] [net=RIGHTS] [scope=RIGHTS]`, \
    `path PATH RIGHTS`, `port PORT RIGHTS`, `group LEVEL` or `end`";

fn level_of(word: &str) -> Result<u8, Bad> {
    let level = number(word, "a level")?;
    u8::try_from(level).map_err(|_| Bad::word(word, "a level from 1 to 6"))
}

/// The bytes of a field.
fn put(tag: u8, value: &[u8]) -> Result<Vec<u8>, Bad> {
    Ok([&[tag], &length_of(value.len())?[..], value].concat())
}

/// The two bytes of a length.
fn length_of(length: usize) -> Result<[u8; 2], Bad> {
    let bytes = u16::try_from(length).map(u16::to_le_bytes);
    bytes.map_err(|_| {
        let found = format!("a field of {length} bytes");
        Bad::new(found, format!("at most {}", u16::MAX))
    })
}

/// A name or a path with its escapes.
fn bytes(word: &str) -> Result<Vec<u8>, Bad> {
    let text = Text::parse_within(word, LONGEST_FILE)?;
    text.fixed()
        .ok_or_else(|| Bad::word(word, "no `\\i`: nothing is repeated here"))
}

fn port_number(word: &str) -> Result<u16, Bad> {
    let port = number(word, "a port")?;
    u16::try_from(port).map_err(|_| Bad::word(word, "a port up to 65535"))
}

/// The masks of a ruleset, each at most once and in any order.
fn attribute(words: &[&str]) -> Result<Attribute, Bad> {
    let (mut fs, mut net, mut scope) = (None, None, None);
    for word in words {
        let again = match word.split_once('=') {
            Some(("fs", text)) => once::<Rights>(&mut fs, text)?,
            Some(("net", text)) => once::<PortRights>(&mut net, text)?,
            Some(("scope", text)) => once::<Scopes>(&mut scope, text)?,
            _ => return Err(Bad::word(word, "fs=, net= or scope=")),
        };
        if again {
            return Err(Bad::word(word, "it once"));
        }
    }
    Ok(Attribute {
        fs: fs.unwrap_or_default(),
        net: net.unwrap_or_default(),
        scope: scope.unwrap_or_default(),
    })
}

/// Reads a mask; answers whether it was there before.
fn once<T: Named>(mask: &mut Option<T>, text: &str) -> Result<bool, Bad> {
    Ok(mask.replace(value(text)?).is_some())
}

/// The text of a fine file or of a part of one, which [`build`] makes the same bytes of.
pub fn show(bytes: &[u8]) -> String {
    let mut text = String::new();
    for field in fields(bytes, 0) {
        // Rulesets stand apart.
        if field.tag == RULESET && !text.is_empty() {
            text.push('\n');
        }
        put_lines(&mut text, field, 0);
    }
    text
}

/// The lines of a field that has so many groups around it.
fn put_lines(text: &mut String, field: Field, around: usize) {
    let indent = "  ".repeat(around);
    if field.tag != GROUP {
        text.push_str(&format!("{indent}{}\n", line(field)));
        return;
    }
    text.push_str(&format!("{indent}group {}\n", field.level()));
    for inner in field.inner() {
        put_lines(text, inner, around + 1);
    }
    text.push_str(&format!("{indent}end\n"));
}

fn line(field: Field) -> String {
    let (rights, rest) = field.rule();
    match field.tag {
        RULESET => format!("ruleset {}", written(field.value)),
        MASKS => masks_line(field.masks()),
        PATH_RULE => format!("path {} {}", written(rest), Rights::from_bits(rights)),
        _ => format!(
            "port {} {}",
            little_endian(rest),
            PortRights::from_bits(rights)
        ),
    }
}

/// The masks that are not empty; all of them where none is.
fn masks_line(masks: Attribute) -> String {
    let Attribute { fs, net, scope } = masks;
    let words = [
        (!fs.is_empty()).then(|| format!(" fs={fs}")),
        (!net.is_empty()).then(|| format!(" net={net}")),
        (!scope.is_empty()).then(|| format!(" scope={scope}")),
    ];
    let words: String = words.into_iter().flatten().collect();
    format!("masks{words}")
}
