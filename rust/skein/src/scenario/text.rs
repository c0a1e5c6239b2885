//! Names and paths as they are written in a line: any bytes, and what grows from round to round.
use super::Bad;
use skeinrabbit::parse_number;

/// The most bytes of a name or path: more than any that is answered with success.
const MOST: usize = 8192;
/// How a name or path without bytes is written.
const EMPTY: &str = "\"\"";

/// A name or path.
#[derive(Clone, Debug, PartialEq, Eq)]
pub struct Text(Vec<Piece>);

#[derive(Clone, Copy, Debug, PartialEq, Eq)]
enum Piece {
    Byte(u8),
    /// The number of the round.
    Round,
}

impl Text {
    /// Reads a word with its escapes.
    pub fn parse(word: &str) -> Result<Text, Bad> {
        Text::parse_within(word, MOST)
    }

    /// Reads a word with its escapes, of at most so many bytes.
    pub fn parse_within(word: &str, most: usize) -> Result<Text, Bad> {
        if word == EMPTY {
            return Ok(Text(Vec::new()));
        }
        let mut pieces = Vec::new();
        let mut rest = word;
        while !rest.is_empty() {
            let (read, more) = next(rest, most).ok_or_else(|| Bad::word(word, ESCAPES))?;
            pieces.extend(read);
            rest = more;
            if pieces.len() > most {
                return Err(Bad::word(word, format!("at most {most} bytes")));
            }
        }
        Ok(Text(pieces))
    }

    /// The bytes, if they are the same in each round.
    pub fn fixed(&self) -> Option<Vec<u8>> {
        let bytes = self.0.iter().map(|piece| match piece {
            Piece::Byte(byte) => Some(*byte),
            Piece::Round => None,
        });
        bytes.collect()
    }

    /// The bytes in a round.
    pub fn bytes(&self, round: u64) -> Vec<u8> {
        let mut bytes = Vec::new();
        for piece in &self.0 {
            match piece {
                Piece::Byte(byte) => bytes.push(*byte),
                Piece::Round => bytes.extend(round.to_string().bytes()),
            }
        }
        bytes
    }
}

const ESCAPES: &str = "`\\xNN` for a byte, `\\\\` for a backslash, `\\i` for the round or `\\*N{TEXT}` for N times a text";

/// The pieces that a word of at most so many bytes starts with, and what is left of it; none where an escape is not one.
fn next(word: &str, most: usize) -> Option<(Vec<Piece>, &str)> {
    let Some(escape) = word.strip_prefix('\\') else {
        let end = word.find('\\').unwrap_or(word.len());
        let (plain, rest) = word.split_at(end);
        return Some((plain.bytes().map(Piece::Byte).collect(), rest));
    };
    if let Some(rest) = escape.strip_prefix('\\') {
        return Some((vec![Piece::Byte(b'\\')], rest));
    }
    if let Some(rest) = escape.strip_prefix('i') {
        return Some((vec![Piece::Round], rest));
    }
    if let Some(digits) = escape.strip_prefix('x') {
        let byte = u8::from_str_radix(digits.get(..2)?, 16).ok()?;
        // `from_str_radix` would take a sign.
        let signed = digits.starts_with(['+', '-']);
        return (!signed).then_some((vec![Piece::Byte(byte)], digits.get(2..)?));
    }
    times(escape.strip_prefix('*')?, most)
}

/// The pieces of `N{TEXT}`, which holds no other such.
fn times(word: &str, most: usize) -> Option<(Vec<Piece>, &str)> {
    let (count, rest) = word.split_once('{')?;
    let (text, rest) = rest.split_once('}')?;
    let count = usize::try_from(parse_number(count)?).ok()?;
    let mut pieces = Vec::new();
    let mut inner = text;
    while !inner.is_empty() {
        let (read, more) = next(inner, most).filter(|_| !inner.starts_with("\\*"))?;
        pieces.extend(read);
        inner = more;
    }
    // Longer ones are refused; none is made much longer.
    let most = most / pieces.len().max(1) + 1;
    Some((pieces.repeat(count.min(most)), rest))
}

/// A name or path as a word that [`Text::parse`] reads.
pub fn written(bytes: &[u8]) -> String {
    let mut word = String::new();
    for chunk in bytes.utf8_chunks() {
        for c in chunk.valid().chars() {
            if is_plain(c) {
                word.push(c);
            } else {
                word.push_str(&escaped(c.to_string().as_bytes()));
            }
        }
        word.push_str(&escaped(chunk.invalid()));
    }
    match word.as_str() {
        "" => EMPTY.to_owned(),
        // Words with another meaning.
        "->" | "=>" | EMPTY => escaped(word.as_bytes()),
        _ => word,
    }
}

/// Whether a character stands for itself in a word.
fn is_plain(c: char) -> bool {
    c.is_alphanumeric() || (c.is_ascii_graphic() && c != '\\' && c != '#')
}

fn escaped(bytes: &[u8]) -> String {
    bytes.iter().map(|byte| format!("\\x{byte:02x}")).collect()
}

#[cfg(test)]
mod tests {
    use super::*;

    fn bytes(word: &str) -> Vec<u8> {
        Text::parse(word).unwrap().bytes(7)
    }

    #[test]
    fn escapes_are_bytes() {
        assert_eq!(bytes("/cal/table"), b"/cal/table");
        assert_eq!(bytes(r"a\x00\xFf\\\x20"), b"a\0\xff\\ ");
        assert_eq!(bytes(r"f\i.\i"), b"f7.7");
        assert_eq!(bytes(r"/\*3{ab}c"), b"/abababc");
        assert_eq!(bytes(r"\*2{\x2f\i}"), b"/7/7");
        assert_eq!(bytes(r"\*0{x}"), b"");
        assert_eq!(bytes("\"\""), b"");
        assert_eq!(bytes("é"), "é".as_bytes());
        assert_eq!(bytes(r"\*4096{/}").len(), 4096);
    }

    #[test]
    fn other_escapes_are_bad() {
        for word in [
            r"\",
            r"a\",
            r"\n",
            r"\x",
            r"\x1",
            r"\xg0",
            r"\x+1",
            r"\*",
            r"\*3",
            r"\*3{",
            r"\*{a}",
            r"\*x{a}",
            r"\*3{\*3{a}}",
            r"\*8193{/}",
            r"\*99999999999999999999{/}",
            r"\xé",
        ] {
            assert!(Text::parse(word).is_err(), "{word}");
        }
    }

    #[test]
    fn what_is_written_is_read() {
        for text in [
            &b""[..],
            b"table",
            b"a b",
            b"#",
            b"\\",
            b"\xff\xfe",
            b"\0",
            b"->",
            b"=>",
            b"\"\"",
            "é\u{301}".as_bytes(),
            b"\x1b[2J",
            "\u{202e}".as_bytes(),
            b"->x",
        ] {
            let word = written(text);
            assert_eq!(bytes(&word), text, "{word}");
            assert!(!word.contains(['#', ' ']) && !word.chars().any(char::is_control));
        }
        assert_eq!(written(b"a b"), r"a\x20b");
        assert_eq!(written(b"->"), r"\x2d\x3e");
    }
}
