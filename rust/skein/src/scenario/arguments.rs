//! The words of a line, taken one after another.
use super::names::{is_name, Declared, Operand, Space};
use super::poke::Poked;
use super::text::Text;
use super::Bad;
use crate::words::one_of;
use skeinrabbit::{parse_number, Kind, ParseError, PortRights, QueuePart, Rights, Scopes, Table};
use std::str::FromStr;

/// The words of a call that were not yet taken.
pub struct Arguments<'a> {
    words: std::slice::Iter<'a, &'a str>,
    declared: &'a Declared,
    /// The call's arguments as `--help` has them, for messages.
    usage: &'static str,
}

impl<'a> Arguments<'a> {
    pub fn new(words: &'a [&'a str], declared: &'a Declared) -> Self {
        Self {
            words: words.iter(),
            declared,
            usage: "a call",
        }
    }

    pub fn set_usage(&mut self, usage: &'static str) {
        self.usage = usage;
    }

    /// The next word, if there is one.
    pub fn next(&mut self) -> Option<&'a str> {
        self.words.next().copied()
    }

    /// The next word.
    pub fn word(&mut self) -> Result<&'a str, Bad> {
        let word = self.next();
        word.ok_or_else(|| self.too_few())
    }

    /// That words are missing.
    pub fn too_few(&self) -> Bad {
        Bad::new("too few words", format!("`{}`", self.usage))
    }

    /// That no word is left.
    pub fn end(&mut self) -> Result<(), Bad> {
        match self.next() {
            Some(word) => Err(Bad::word(word, format!("no more than `{}`", self.usage))),
            None => Ok(()),
        }
    }

    pub fn number(&mut self, what: &str) -> Result<u64, Bad> {
        number(self.word()?, what)
    }

    /// A number, or 0 where no word is left.
    pub fn flags(&mut self) -> Result<u64, Bad> {
        self.next().map_or(Ok(0), |word| number(word, "flags"))
    }

    /// Something that is written by name.
    pub fn value<T: Named>(&mut self) -> Result<T, Bad> {
        value(self.word()?)
    }

    pub fn entry(&mut self) -> Result<Operand, Bad> {
        let word = self.word()?;
        self.entry_of(word)
    }

    /// An entry by its number, by a name or by its path.
    pub fn entry_of(&self, word: &str) -> Result<Operand, Bad> {
        if is_path(word) {
            return Text::parse(word).map(Operand::Path);
        }
        self.operand(Space::Entry, word)
    }

    /// A name or a path, with its escapes.
    pub fn text(&mut self) -> Result<Text, Bad> {
        Text::parse(self.word()?)
    }

    pub fn ruleset(&mut self) -> Result<Operand, Bad> {
        let word = self.word()?;
        self.operand(Space::Ruleset, word)
    }

    pub fn thread(&mut self) -> Result<Operand, Bad> {
        let word = self.word()?;
        self.operand(Space::Thread, word)
    }

    fn operand(&self, space: Space, word: &str) -> Result<Operand, Bad> {
        if let Some(number) = parse_number(word) {
            return Ok(Operand::Number(number));
        }
        if self.declared.has(space, word) {
            return Ok(Operand::Name(word.to_owned()));
        }
        let expected = if is_name(word) {
            let what = format!(
                "{}, or a label that a line above binds to one",
                space.given()
            );
            one_of(&what, word, &self.declared.names(space))
        } else {
            format!("{}, or its label", space.given())
        };
        Err(Bad::word(word, expected))
    }
}

/// Whether a word that stands for an entry is a path; it may start with an escape.
pub fn is_path(word: &str) -> bool {
    word.starts_with(['/', '\\'])
}

/// A word as a number.
pub fn number(word: &str, what: &str) -> Result<u64, Bad> {
    parse_number(word).ok_or_else(|| {
        let expected = format!("{what}: a number, decimal or hexadecimal (0x1f), below 2^64");
        Bad::word(word, expected)
    })
}

/// What is written by name.
pub trait Named: FromStr<Err = ParseError> {
    /// What is expected where no name is found.
    const WHAT: &'static str;

    fn names() -> Vec<String>;
}

impl Named for Rights {
    const WHAT: &'static str = "a number, none, or rights at files joined by +";

    fn names() -> Vec<String> {
        Rights::ALL.iter().map(|right| right.to_string()).collect()
    }
}

impl Named for PortRights {
    const WHAT: &'static str = "a number, none, or rights at ports joined by +";

    fn names() -> Vec<String> {
        let rights = PortRights::ALL.iter();
        rights.map(|right| right.to_string()).collect()
    }
}

impl Named for Scopes {
    const WHAT: &'static str = "a number, none, or scopes joined by +";

    fn names() -> Vec<String> {
        Scopes::ALL.iter().map(|scope| scope.to_string()).collect()
    }
}

impl Named for Kind {
    const WHAT: &'static str = "a number or a kind";

    fn names() -> Vec<String> {
        let names = (1..=7).filter_map(|number| Kind::new(number).name());
        names.map(str::to_owned).collect()
    }
}

impl Named for Poked {
    const WHAT: &'static str = "a table or a part of the queue";

    fn names() -> Vec<String> {
        let tables = Table::ALL.into_iter().map(Table::name);
        let names = tables.chain(QueuePart::ALL.into_iter().map(QueuePart::name));
        names.map(str::to_owned).collect()
    }
}

/// A word as something that is written by name.
pub fn value<T: Named>(word: &str) -> Result<T, Bad> {
    word.parse().map_err(|_| {
        let names = T::names();
        let names: Vec<&str> = names.iter().map(String::as_str).collect();
        let known = |part: &&str| names.iter().any(|name| name.eq_ignore_ascii_case(part));
        // Of joined names, the one that is not known.
        let mut parts = word.split('+').filter(|part| !part.is_empty());
        let unknown = parts.find(|part| !known(part)).unwrap_or(word);
        Bad::word(unknown, one_of(T::WHAT, unknown, &names))
    })
}
