//! Words in output and messages: escaped, cut, and beside the known ones that may be meant.

/// The widest that a word is shown in a message.
pub const WIDEST: usize = 60;
/// The most words that are listed.
const MOST: usize = 24;

/// Text with what is not printable escaped, so that it cannot steer a terminal.
pub fn escaped(text: &str) -> String {
    shown(text, usize::MAX)
}

/// Text escaped, and cut where it is wider than `widest`.
pub fn shown(text: &str, widest: usize) -> String {
    let mut shown = String::new();
    let mut wide = 0;
    // What is left when one column is kept for the mark of a cut.
    let mut kept = 0;
    for c in text.chars() {
        let from = shown.len();
        match c {
            // A backslash is part of names and paths.
            '"' | '\'' | '\\' => shown.push(c),
            // Letters that join the one before are printable too.
            c if c.is_alphanumeric() => shown.push(c),
            c => shown.extend(c.escape_debug()),
        }
        wide += shown.get(from..).map_or(0, |part| part.chars().count());
        if wide > widest {
            shown.truncate(kept);
            shown.push('…');
            break;
        }
        if wide < widest {
            kept = shown.len();
        }
    }
    shown
}

/// A word that is printable as it is, cut where it is wider than `widest`.
pub fn cut(word: &str, widest: usize) -> String {
    if word.chars().count() <= widest {
        return word.to_owned();
    }
    let kept = word.chars().take(widest.saturating_sub(1));
    kept.chain(['…']).collect()
}

/// A word in quotes, escaped, and cut where it is very long.
pub fn quoted(word: &str) -> String {
    format!("`{}`", shown(word, WIDEST))
}

/// What was expected in place of a word: the known word that it is most like, or else the known ones.
pub fn one_of(what: &str, word: &str, known: &[&str]) -> String {
    if known.is_empty() {
        return what.to_owned();
    }
    if let Some(near) = nearest(word, known) {
        return format!("{what}: perhaps {}", quoted(near));
    }
    let listed: Vec<String> = known
        .iter()
        .take(MOST)
        .map(|word| shown(word, WIDEST))
        .collect();
    let more = if known.len() > MOST { ", …" } else { "" };
    format!("{what}: {}{more}", listed.join(", "))
}

/// The known word that is most like a word, if it is like enough: one slip in three letters, in any letter case.
fn nearest<'k>(word: &str, known: &[&'k str]) -> Option<&'k str> {
    let letters = |word: &str| -> Vec<char> { word.chars().flat_map(char::to_lowercase).collect() };
    // Nothing that long is a slip of something known, and comparing would take long.
    if word.len() > WIDEST {
        return None;
    }
    let written = letters(word);
    let slips = known
        .iter()
        .filter(|known| known.len() <= 2 * WIDEST)
        .map(|known| (distance(&written, &letters(known)), *known));
    slips
        .filter(|(slips, _)| *slips <= written.len() / 3)
        .min_by_key(|(slips, _)| *slips)
        .map(|(_, known)| known)
}

/// How many letters must be put in, left out or changed to make one word of another.
fn distance(from: &[char], to: &[char]) -> usize {
    let mut above: Vec<usize> = (0..=to.len()).collect();
    for (row, a) in from.iter().enumerate() {
        let mut left = row + 1;
        let mut below = vec![left];
        for ((b, diagonal), up) in to.iter().zip(&above).zip(above.iter().skip(1)) {
            left = (diagonal + usize::from(a != b)).min(up + 1).min(left + 1);
            below.push(left);
        }
        above = below;
    }
    above.last().copied().unwrap_or(0)
}

#[cfg(test)]
mod tests {
    use super::*;

    #[test]
    fn control_characters_are_escaped() {
        assert_eq!(
            escaped("a\u{1b}[2J\n\r\t\0\u{202e}é\"'"),
            "a\\u{1b}[2J\\n\\r\\t\\0\\u{202e}é\"'"
        );
        assert_eq!(quoted("a\\b"), "`a\\b`");
        assert_eq!(
            escaped("\u{915}\u{941} e\u{301}"),
            "\u{915}\u{941} e\\u{301}"
        );
    }

    #[test]
    fn text_is_cut_to_its_width() {
        assert_eq!(shown("abcd", 4), "abcd");
        assert_eq!(shown("abcde", 4), "abc…");
        assert_eq!(shown("éééé", 3), "éé…");
        assert_eq!(shown("ab\u{1b}", 6), "ab…");
        assert_eq!(shown("ab\u{1b}", 8), "ab\\u{1b}");
        assert_eq!(shown("", 0), "");
        assert_eq!(quoted(&"x".repeat(100_000)).chars().count(), 62);
        assert_eq!(
            quoted(&"\u{1b}".repeat(100_000)).chars().count(),
            2 + 9 * "\\u{1b}".len() + 1
        );
    }

    #[test]
    fn slips_are_told_from_other_words() {
        let known = ["access", "clone", "create", "port", "EACCES"];
        let near = |word| nearest(word, &known);
        assert_eq!(near("acess"), Some("access"));
        assert_eq!(near("Clone"), Some("clone"));
        assert_eq!(near("pot"), Some("port"));
        assert_eq!(near("creaet"), Some("create"));
        assert_eq!(near("eaccess"), Some("access"));
        for other in ["walk", "", "x", "po", "clonedclone"] {
            assert_eq!(near(other), None, "{other}");
        }
        assert_eq!(near(&"clone".repeat(20_000)), None);
    }

    #[test]
    fn the_nearest_or_all_are_named() {
        let known = ["run", "explain"];
        assert_eq!(
            one_of("a command", "explian", &known),
            "a command: perhaps `explain`"
        );
        assert_eq!(
            one_of("a command", "walk", &known),
            "a command: run, explain"
        );
        assert_eq!(one_of("a name", "walk", &[]), "a name");
        let many = vec!["known"; 25];
        assert!(one_of("a name", "walk", &many).ends_with(", known, …"));
    }

    #[test]
    fn distances_are_as_counted_by_hand() {
        for (from, to, slips) in [
            ("", "", 0),
            ("", "abc", 3),
            ("abc", "", 3),
            ("abc", "abd", 1),
            ("abc", "bc", 1),
            ("kitten", "sitting", 3),
        ] {
            let [from, to]: [Vec<char>; 2] = [from, to].map(|word| word.chars().collect());
            assert_eq!(distance(&from, &to), slips);
        }
    }
}
