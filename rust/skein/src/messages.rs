//! Messages about the lines of a file.
use crate::play::Play;
use crate::scenario::BadLine;
use crate::transcript::{counted, reason, verdict};
use crate::words::{escaped, quoted};

/// Messages about lines of a file, the first ones where there are many.
fn about<L>(
    name: &str,
    lines: impl ExactSizeIterator<Item = L>,
    kind: &str,
    message: impl Fn(L) -> (usize, String),
) -> String {
    const MOST: usize = 20;
    let name = escaped(name);
    let more = lines.len().saturating_sub(MOST);
    let mut messages = String::new();
    for (line, message) in lines.take(MOST).map(message) {
        messages.push_str(&format!("{name}:{line}: {message}\n"));
    }
    if more > 0 {
        let more = counted(more, &format!("more {kind}"));
        messages.push_str(&format!("{name}: {more}\n"));
    }
    messages
}

/// The lines that are not as the format asks.
pub fn bad_lines(name: &str, lines: &[BadLine]) -> String {
    about(name, lines.iter(), "bad line", |BadLine { line, bad }| {
        let message = format!("found {}; expected {}", bad.found, bad.expected);
        (*line, message)
    })
}

/// The lines whose answer differs, with what they expect.
pub fn differing_lines(name: &str, play: &Play) -> String {
    let lines: Vec<_> = play.differing().collect();
    about(name, lines.into_iter(), "differing line", |played| {
        let call = quoted(&played.statement.text);
        let answer = reason(played).unwrap_or_else(|| played.answer.to_string());
        let verdict = verdict(played);
        let message = format!("{call} {verdict}, but answered {answer}");
        (played.statement.line, message)
    })
}

/// What is wrong with a play that is not as its file is written: a line that stopped it, and those whose answer differs.
pub fn not_as_written(name: &str, play: &Play) -> Option<String> {
    if play.is_as_expected() {
        return None;
    }
    let mut messages = differing_lines(name, play);
    messages.push_str(&bad_lines(name, play.stopped.as_slice()));
    Some(messages)
}

/// What `explain` says where an answer differs.
pub fn not_drawn(name: &str) -> String {
    let why = "nothing is drawn, as not every call answered as its line says";
    let remedy = "`=> any` lets a call answer anything";
    format!("skein: {}: {why}; {remedy}\n", escaped(name))
}

/// What `policy export` says where an answer differs.
pub fn not_written(name: &str) -> String {
    let why = "nothing is written, as not every call answered as its line says";
    let remedy = "`=> any` lets a call answer anything";
    format!("skein: {}: {why}; {remedy}\n", escaped(name))
}

/// What is in the way of an import, the first ones where there are many.
pub fn no_room(name: &str, lines: &[String]) -> String {
    const MOST: usize = 20;
    let shown = lines.iter().take(MOST);
    let mut messages: String = shown
        .map(|line| format!("skein: {}: {line}\n", escaped(name)))
        .collect();
    if lines.len() > MOST {
        let more = counted(lines.len() - MOST, "more thing");
        messages.push_str(&format!("skein: {}: {more} in the way\n", escaped(name)));
    }
    messages
}
