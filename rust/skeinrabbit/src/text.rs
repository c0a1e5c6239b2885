//! Reading numbers and names.
use alloc::borrow::ToOwned;
use alloc::format;
use alloc::string::String;
use core::fmt;

/// Text that is not what a type is written as.
#[derive(Clone, Debug, PartialEq, Eq)]
pub struct ParseError {
    /// The text that was found.
    pub found: String,
    /// What would have been accepted.
    pub expected: &'static str,
}

impl ParseError {
    pub(crate) fn new(found: &str, expected: &'static str) -> Self {
        Self {
            found: found.to_owned(),
            expected,
        }
    }
}

impl fmt::Display for ParseError {
    fn fmt(&self, f: &mut fmt::Formatter<'_>) -> fmt::Result {
        write!(f, "found {:?}; expected {}", self.found, self.expected)
    }
}

impl core::error::Error for ParseError {}

/// Reads a number: decimal, or hexadecimal after `0x`, up to 2^64 - 1, without a sign.
///
/// ```
/// assert_eq!(skeinrabbit::parse_number("31"), Some(31));
/// assert_eq!(skeinrabbit::parse_number("0x1F"), Some(31));
/// assert_eq!(skeinrabbit::parse_number("+31"), None);
/// assert_eq!(skeinrabbit::parse_number("18446744073709551616"), None);
/// ```
pub fn parse_number(text: &str) -> Option<u64> {
    let (digits, radix) = match text.strip_prefix("0x") {
        Some(digits) => (digits, 16),
        None => (text, 10),
    };
    // `from_str_radix` would take a plus sign.
    if digits.starts_with('+') {
        return None;
    }
    u64::from_str_radix(digits, radix).ok()
}

/// Writes a mask: `none`, its names joined by `+`, or a hexadecimal number where a bit has no name.
pub(crate) fn write_mask(f: &mut fmt::Formatter<'_>, bits: u64, names: &[&str]) -> fmt::Result {
    if bits == 0 {
        return f.pad("none");
    }
    let mut text = String::new();
    let mut named = 0;
    for (bit, name) in names.iter().enumerate() {
        if bits >> bit & 1 == 1 {
            named |= 1 << bit;
            if !text.is_empty() {
                text.push('+');
            }
            text.push_str(name);
        }
    }
    if named == bits {
        f.pad(&text)
    } else {
        f.pad(&format!("{bits:#x}"))
    }
}

/// Reads what [`write_mask`] writes, in any letter case, and any number.
pub(crate) fn read_mask(text: &str, names: &[&str]) -> Option<u64> {
    if let Some(number) = parse_number(text) {
        return Some(number);
    }
    if text.eq_ignore_ascii_case("none") {
        return Some(0);
    }
    let mut bits = 0;
    for word in text.split('+') {
        let bit = names
            .iter()
            .position(|name| name.eq_ignore_ascii_case(word))?;
        bits |= 1 << bit;
    }
    Some(bits)
}
