//! The words of `create_ruleset`.
use super::arguments::{number, value, Arguments};
use super::call::{Call, Masks, RulesetBytes, RulesetCall};
use super::Bad;
use skeinrabbit::{Attribute, PortRights, Rights, Scopes};

/// Reads the words after the call's name.
pub fn create_ruleset(arguments: &mut Arguments) -> Result<Call, Bad> {
    let mut given = Given::default();
    while let Some(word) = arguments.next() {
        given.take(word)?;
    }
    let flags = given.flags.unwrap_or(0);
    let attribute = Attribute {
        fs: given.fs.unwrap_or_default(),
        net: given.net.unwrap_or_default(),
        scope: given.scope.unwrap_or_default(),
    };
    let bytes = match given.hex {
        None => RulesetBytes::Masks(Masks {
            attribute,
            size: given.size,
        }),
        Some(_) if given.masks => {
            return Err(Bad::new(
                "`hex=` beside `fs=`, `net=`, `scope=` or `size=`",
                "only one of the two",
            ))
        }
        Some(bytes) => RulesetBytes::Hex(bytes),
    };
    Ok(Call::Ruleset(RulesetCall::Create { bytes, flags }))
}

/// The words of `create_ruleset`, each at most once and in any order.
#[derive(Default)]
struct Given {
    fs: Option<Rights>,
    net: Option<PortRights>,
    scope: Option<Scopes>,
    size: Option<u64>,
    flags: Option<u64>,
    hex: Option<Vec<u8>>,
    /// Whether any of the first four is there.
    masks: bool,
}

impl Given {
    fn take(&mut self, word: &str) -> Result<(), Bad> {
        let (key, text) = word.split_once('=').unwrap_or((word, ""));
        let again = match key {
            "fs" => self.fs.replace(value(text)?).is_some(),
            "net" => self.net.replace(value(text)?).is_some(),
            "scope" => self.scope.replace(value(text)?).is_some(),
            "size" => self.size.replace(number(text, "a size")?).is_some(),
            "flags" => self.flags.replace(number(text, "flags")?).is_some(),
            "hex" if word.contains('=') => self.hex.replace(hex_bytes(text)?).is_some(),
            _ => return Err(Bad::word(word, "fs=, net=, scope=, size=, flags= or hex=")),
        };
        self.masks |= matches!(key, "fs" | "net" | "scope" | "size");
        if again {
            return Err(Bad::word(word, format!("`{key}=` once")));
        }
        Ok(())
    }
}

/// Pairs of hexadecimal digits as bytes.
fn hex_bytes(text: &str) -> Result<Vec<u8>, Bad> {
    let digits: Option<Vec<u8>> = text
        .chars()
        .map(|c| c.to_digit(16).and_then(|d| u8::try_from(d).ok()))
        .collect();
    match digits {
        Some(digits) if digits.len() % 2 == 0 => Ok(digits
            .chunks_exact(2)
            .map(|pair| pair.iter().fold(0, |byte, digit| byte << 4 | digit))
            .collect()),
        _ => Err(Bad::word(text, "pairs of hexadecimal digits after `hex=`")),
    }
}
