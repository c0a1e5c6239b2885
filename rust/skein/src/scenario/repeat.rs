//! The words `repeat N` before a call.
use super::Bad;
use skeinrabbit::parse_number;

/// The most rounds of a line.
const MOST_ROUNDS: u64 = 100_000;

/// The rounds that a line asks for, and the words of its call.
pub fn rounds<'a, 'w>(words: &'a [&'w str]) -> Result<(Option<u64>, &'a [&'w str]), Bad> {
    let expected = || format!("a number of rounds from 1 to {MOST_ROUNDS} after `repeat`");
    match words {
        ["repeat"] => Err(Bad::new("too few words", expected())),
        ["repeat", _] => Err(Bad::new("too few words", "a call after `repeat N`")),
        ["repeat", _, "repeat", ..] => Err(Bad::word("repeat", "a call after `repeat N`")),
        ["repeat", word, call @ ..] => match parse_number(word) {
            Some(rounds @ 1..=MOST_ROUNDS) => Ok((Some(rounds), call)),
            _ => Err(Bad::word(word, expected())),
        },
        call => Ok((None, call)),
    }
}
