//! `skein search`: whether threads, together, can come to a right that each of them lacked.
mod goal;
mod states;
mod step;
#[cfg(test)]
mod tests;

use crate::json::Json;
use crate::lines::broken;
use crate::messages::not_as_written;
use crate::named::{entries, thread_name, threads};
use crate::outcome::{Outcome, View, BAD_INPUT, FOUND, UNDECIDED};
use crate::play::{Play, Player};
use crate::transcript::counted;
use goal::{Gain, Goal};
use skeinrabbit::{Layer, Rights, Tables, Thread};
use states::{Ended, States};
use std::collections::BTreeSet;
use step::{word, Step};

/// What is looked for, and how far.
#[derive(Debug, PartialEq, Eq)]
pub struct Question {
    pub threads: Vec<String>,
    pub entries: Vec<String>,
    pub rights: Rights,
    pub depth: usize,
    pub states: usize,
}

impl Default for Question {
    fn default() -> Self {
        Question {
            threads: Vec::new(),
            entries: Vec::new(),
            rights: Rights::ALL,
            depth: 4,
            states: 100_000,
        }
    }
}

/// What a search came to.
struct Searched {
    threads: Vec<String>,
    depth: usize,
    states: usize,
    ended: Ended,
    /// What is found and the lines that lead there, where there is such.
    found: Option<Found>,
    /// Whether the threads are one sandbox, which the theorem speaks of.
    one_sandbox: bool,
}

struct Found {
    thread: String,
    right: Rights,
    /// Where the entry was at the start.
    path: String,
    /// The calls alone, and the whole scenario with the requests around them.
    calls: Vec<String>,
    scenario: Vec<String>,
}

pub fn search(view: &View, name: &str, play: &Play, question: &Question) -> Outcome {
    if let Some(messages) = not_as_written(name, play) {
        return Outcome::refused(messages, BAD_INPUT);
    }
    let searched = match Searched::of(&play.player, question) {
        Ok(searched) => searched,
        Err(message) => return Outcome::bad_file(name, message),
    };
    let output = if view.json {
        format!("{}\n", searched.json(name))
    } else {
        searched.text(name, view.width)
    };
    let code = match searched.ended {
        Ended::Found(_) => FOUND,
        Ended::Undecided { .. } => UNDECIDED,
        Ended::None { .. } | Ended::Exhausted { .. } => 0,
    };
    Outcome::output(output).with_code(code)
}

impl Searched {
    fn of(player: &Player, question: &Question) -> Result<Searched, String> {
        let tables = &player.tables;
        if !tables.is_sound() {
            return Err("the tables are not sound: every call answers EIO".to_owned());
        }
        let threads = match question.threads.as_slice() {
            [] => sandboxed(tables),
            words => threads(player, words)?,
        };
        if threads.is_empty() {
            return Err("no thread has a layer; --thread names others".to_owned());
        }
        let entries = entries(player, &question.entries)?;
        let goal = Goal::of(tables, &threads, &entries, question.rights);
        let mut states = States::new(tables, &threads);
        let ended = states.search(&goal, question.depth, question.states);
        let found = match &ended {
            Ended::Found(steps) => Found::of(player, &threads, &goal, steps),
            _ => None,
        };
        Ok(Searched {
            threads: threads
                .iter()
                .map(|thread| thread_name(player, *thread))
                .collect(),
            depth: question.depth,
            states: states.count(),
            found,
            ended,
            one_sandbox: is_one_sandbox(tables, &threads),
        })
    }
}

/// The threads with a layer.
fn sandboxed(tables: &Tables) -> Vec<Thread> {
    let with_layer = tables.threads().filter(|row| row.youngest.is_some());
    with_layer.map(|row| row.thread).collect()
}

/// Whether the domain of one of the threads is that of every other or what it is grown from: what this one lacks no other comes
/// to, as every change of the tree comes from its sandbox.
fn is_one_sandbox(tables: &Tables, threads: &[Thread]) -> bool {
    let domain = |thread: &Thread| -> BTreeSet<Layer> {
        tables.domain(*thread).map(|row| row.layer).collect()
    };
    let domains: Vec<BTreeSet<Layer>> = threads.iter().map(domain).collect();
    let first = domains.iter().min_by_key(|domain| domain.len());
    first.is_some_and(|first| domains.iter().all(|domain| first.is_subset(domain)))
}

impl Found {
    /// What is found, in words.
    fn said(&self, threads: &[String]) -> String {
        let Found {
            thread,
            right,
            path,
            calls,
            ..
        } = self;
        let lacked = match threads {
            [_] => "it lacked".to_owned(),
            threads => format!("none of {} had", listed(threads)),
        };
        let calls = counted(calls.len(), "call");
        format!("Found with {calls}: {thread} comes to {right} at {path}, which {lacked}.")
    }

    /// Makes the steps again, and writes them down.
    fn of(player: &Player, threads: &[Thread], goal: &Goal, steps: &[Step]) -> Option<Found> {
        let mut tables = player.tables.clone();
        let mut calls = Vec::new();
        for step in steps {
            calls.push(step.text(&tables, &thread_name(player, step.thread)));
            step.make(&mut tables).ok()?;
        }
        let gain = *goal.gains(&tables).first()?;
        let mut scenario = lacking(player, threads, gain);
        let made = calls.iter();
        scenario.extend(made.map(|call| (call.clone(), "ok")));
        let thread = thread_name(player, gain.thread);
        let request = format!(
            "access {thread} {} {}",
            word(&tables, gain.entry),
            gain.right
        );
        scenario.push((request, "0"));
        Some(Found {
            thread,
            right: gain.right,
            path: first_path(&player.tables, gain.object),
            calls,
            scenario: aligned(&scenario),
        })
    }
}

/// The requests at the start that show that no thread has the right.
fn lacking(player: &Player, threads: &[Thread], gain: Gain) -> Vec<(String, &'static str)> {
    let tables = &player.tables;
    let entries = tables.entries().filter(|row| row.object == gain.object);
    let mut lines = Vec::new();
    for row in entries {
        for thread in threads {
            let (thread, entry) = (thread_name(player, *thread), word(tables, row.entry));
            lines.push((format!("access {thread} {entry} {}", gain.right), "EACCES"));
        }
    }
    lines
}

fn first_path(tables: &Tables, object: u64) -> String {
    let mut entries = tables.entries();
    let first = entries.find(|row| row.object == object);
    first.map_or_else(String::new, |row| word(tables, row.entry))
}

/// Calls with their answers below each other.
fn aligned(lines: &[(String, &'static str)]) -> Vec<String> {
    let widths = lines.iter().map(|(call, _)| call.chars().count());
    let width = widths.max().unwrap_or(0);
    let line = |(call, answer): &(String, &str)| format!("{call:<width$}  => {answer}");
    lines.iter().map(line).collect()
}

const THEOREM: &str = "docs/THEOREMS.md, `A sandbox cannot widen itself`";

impl Searched {
    /// A scenario to be played behind the file, where something is found; else what was looked at.
    fn text(&self, name: &str, width: usize) -> String {
        let states = counted(self.states, "state");
        let mut said = match &self.found {
            Some(found) => vec![
                found.said(&self.threads),
                format!("{states} looked at. To be played behind {name}:"),
            ],
            None => vec![self.none(), format!("{states} looked at.")],
        };
        if self.one_sandbox {
            let who = match self.threads.len() {
                1 => "That is",
                _ => "They are",
            };
            let theorem = "so it is a theorem, for any number of calls";
            said.push(format!("{who} one sandbox, {theorem} ({THEOREM})."));
        }
        let said = said
            .iter()
            .map(|line| broken(line, 0, width.saturating_sub(2)));
        let said: String = said.collect();
        let mut out: String = said.lines().map(|line| format!("# {line}\n")).collect();
        for line in self.found.iter().flat_map(|found| &found.scenario) {
            out.push_str(&format!("{line}\n"));
        }
        out
    }

    /// That nothing was found, and how far was looked.
    fn none(&self) -> String {
        let nothing = match self.threads.as_slice() {
            [one] => format!("{one} comes to no right that it lacked"),
            threads => {
                let threads = listed(threads);
                format!("{threads} together come to no right that each of them lacked")
            }
        };
        let within = |depth: usize| {
            let calls = counted(depth, "call");
            format!("None to depth {depth}: {nothing}, by at most {calls}.")
        };
        match self.ended {
            Ended::Exhausted { .. } => format!("None: {nothing}, by any number of calls."),
            Ended::Undecided { depth } => {
                let more = "there are more states than may be looked at (--states)";
                format!("{} Before depth {} {more}.", within(depth), self.depth)
            }
            _ => within(self.depth),
        }
    }

    fn json(&self, name: &str) -> Json {
        let (answer, depth) = match self.ended {
            Ended::Found(ref steps) => ("found", steps.len()),
            Ended::None { depth } => ("none", depth),
            Ended::Exhausted { depth } => ("exhausted", depth),
            Ended::Undecided { depth } => ("undecided", depth),
        };
        Json::Object(vec![
            ("command", Json::text("search")),
            ("file", Json::text(name)),
            ("threads", Json::list(&self.threads, Json::text)),
            ("answer", Json::text(answer)),
            ("depth", Json::count(depth)),
            ("states", Json::count(self.states)),
            ("one_sandbox", Json::Bool(self.one_sandbox)),
            ("found", Json::option(self.found.as_ref(), found_json)),
        ])
    }
}

fn found_json(found: &Found) -> Json {
    Json::Object(vec![
        ("thread", Json::text(&found.thread)),
        ("right", Json::text(found.right.to_string())),
        ("path", Json::text(&found.path)),
        ("calls", Json::list(&found.calls, Json::text)),
        ("scenario", Json::list(&found.scenario, Json::text)),
    ])
}

/// Words with commas between them, and `and` before the last.
fn listed(words: &[String]) -> String {
    match words {
        [] => String::new(),
        [one] => one.clone(),
        [first @ .., last] => format!("{} and {last}", first.join(", ")),
    }
}
