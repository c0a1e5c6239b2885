//! What a word of the command line stands for in a play: a thread, a ruleset or an entry.
use crate::play::Player;
use crate::scenario::{Space, Text};
use crate::words::{one_of, quoted};
use skeinrabbit::{parse_number, Entry, Ruleset, Thread};

/// The live threads of these words, each a label or a number, in the order of their numbers.
pub fn threads(player: &Player, words: &[String]) -> Result<Vec<Thread>, String> {
    let found = words.iter().map(|word| {
        let number = number(player, Space::Thread, word).map(Thread::new);
        let live = number.filter(|thread| player.tables.thread(*thread).is_some());
        live.ok_or_else(|| {
            let live = player.tables.threads();
            none(
                word,
                "thread",
                live.map(|row| thread_name(player, row.thread)),
            )
        })
    });
    let mut threads: Vec<Thread> = found.collect::<Result<_, _>>()?;
    threads.sort();
    threads.dedup();
    Ok(threads)
}

/// The live entries of these words, each a path, a label or a number.
pub fn entries(player: &Player, words: &[String]) -> Result<Vec<Entry>, String> {
    let found = words.iter().map(|word| {
        let entry = if word.starts_with(['/', '\\']) {
            let path = Text::parse(word).ok();
            path.and_then(|path| player.tables.lookup(path.bytes(1)).ok())
        } else {
            number(player, Space::Entry, word).map(Entry::new)
        };
        let live = entry.filter(|entry| player.tables.entry(*entry).is_some());
        live.ok_or_else(|| {
            let paths = player
                .tables
                .entries()
                .map(|row| path_of(player, row.entry));
            none(word, "entry", paths)
        })
    });
    found.collect()
}

/// The ruleset of a word: any number, or the label of one that is open.
pub fn ruleset(player: &Player, word: &str) -> Result<Ruleset, String> {
    let number = number(player, Space::Ruleset, word).map(Ruleset::new);
    number.ok_or_else(|| {
        let open = player.tables.open_rulesets();
        none(
            word,
            "ruleset",
            open.map(|row| ruleset_name(player, row.ruleset)),
        )
    })
}

/// The number that a word stands for in a space.
fn number(player: &Player, space: Space, word: &str) -> Option<u64> {
    parse_number(word).or_else(|| player.names.number(space, word))
}

fn none(word: &str, what: &str, known: impl Iterator<Item = String>) -> String {
    let known: Vec<String> = known.collect();
    let known: Vec<&str> = known.iter().map(String::as_str).collect();
    let expected = one_of("expected one", word, &known);
    format!("there is no {what} {} at the end; {expected}", quoted(word))
}

/// A thread's label, or else its number.
pub fn thread_name(player: &Player, thread: Thread) -> String {
    let name = player.names.name(Space::Thread, thread.number());
    name.map_or_else(|| thread.to_string(), str::to_owned)
}

/// A ruleset's label, or else its number.
fn ruleset_name(player: &Player, ruleset: Ruleset) -> String {
    let name = player.names.name(Space::Ruleset, ruleset.number());
    name.map_or_else(|| ruleset.to_string(), str::to_owned)
}

/// An entry's path as a scenario writes it.
pub fn path_of(player: &Player, entry: Entry) -> String {
    let path = player.tables.path(entry).unwrap_or_default();
    crate::scenario::written(&path)
}
