//! Plays scenarios on the broker and shows what each thread may do.
#![forbid(unsafe_code)]
#![cfg_attr(
    not(test),
    deny(
        clippy::expect_used,
        clippy::indexing_slicing,
        clippy::panic,
        clippy::unwrap_used
    )
)]

mod args;
#[cfg(test)]
mod brute;
mod demo;
mod diff;
#[cfg(test)]
mod fuzz;
mod help;
mod import;
mod json;
mod least;
mod lines;
mod log;
mod messages;
mod named;
mod outcome;
mod paint;
mod picture;
mod play;
mod policy;
mod remedy;
mod request;
mod scenario;
mod search;
mod transcript;
mod why;
mod words;

use args::{Command, Options};
use demo::Demo;
use import::NoImport;
use messages::{bad_lines, differing_lines, no_room};
use outcome::{Outcome, View, BAD_INPUT, DIFFERS, UNREADABLE, WRONG_USAGE};
use paint::Paint;
use play::{play, Play};
use scenario::Scenario;
use std::ffi::OsStr;
use std::io::{ErrorKind, Read, Write};
use std::path::Path;
use std::process::ExitCode;

fn main() -> ExitCode {
    let outcome = match args::parse(std::env::args_os().skip(1)) {
        Ok(options) => perform(&options),
        Err(wrong) => Outcome::refused(format!("skein: {wrong}\n{}", help::USAGE), WRONG_USAGE),
    };
    show(outcome)
}

/// Writes output and messages. A reader that stops early is no failure.
fn show(outcome: Outcome) -> ExitCode {
    let mut code = outcome.code;
    let mut stdout = std::io::stdout().lock();
    let written = stdout
        .write_all(outcome.output.as_bytes())
        .and_then(|()| stdout.flush());
    let mut messages = outcome.messages;
    if let Err(error) = written {
        if error.kind() != ErrorKind::BrokenPipe {
            messages.push_str(&format!("skein: the output cannot be written: {error}\n"));
            code = UNREADABLE;
        }
    }
    let mut stderr = std::io::stderr().lock();
    let width = lines::width(&stderr);
    for line in messages.lines() {
        // Where messages cannot be written there is nowhere left to say so.
        let _ = stderr.write_all(lines::broken(line, 4, width).as_bytes());
    }
    ExitCode::from(code)
}

fn perform(options: &Options) -> Outcome {
    let view = View {
        json: options.json,
        all_rights: options.all_rights,
        verbose: options.verbose,
        width: lines::width(&std::io::stdout()),
        paint: Paint {
            on: options.color.wanted(),
        },
    };
    match &options.command {
        Command::Help(of) => Outcome::output(help::text(*of)),
        Command::Version => Outcome::output(help::VERSION),
        Command::Run(file) => with_play(file, |name, play| view.run(name, play)),
        Command::Explain(file, chosen) => with_play(file, |name, play| {
            picture::explain(&view, name, play, chosen)
        }),
        Command::Why(file, line) => with_scenario(file, |name, scenario| {
            why::why(&view, name, scenario, *line)
        }),
        Command::Search(file, question) => with_play(file, |name, play| {
            search::search(&view, name, &play, question)
        }),
        Command::Diff(a, b) => with_play(a, |a, old| {
            with_play(b, |b, new| diff::diff(&view, [(a, old), (b, new)]))
        }),
        Command::DiffPolicies(files, level) => diff::policies(&view, files, *level),
        Command::Least(file, traced) => with_scenario(file, |name, scenario| {
            least::least(&view, name, scenario, traced)
        }),
        Command::Demo => view.demo(),
        Command::Import(directory) => import_tree(directory),
        Command::Policy(command) => policy::perform(command),
    }
}

/// The tree of a directory as a scenario, or what is in the way.
fn import_tree(directory: &OsStr) -> Outcome {
    let name = directory.to_string_lossy();
    match import::scenario(directory.as_ref()) {
        Ok(output) => Outcome::output(output),
        Err(NoImport::Unreadable(path, error)) => Outcome::unreadable(path.as_os_str(), &error),
        Err(NoImport::NoRoom(lines)) => Outcome::refused(no_room(&name, &lines), BAD_INPUT),
    }
}

/// Reads a file, and gives its scenario to `show`.
fn with_scenario(file: &OsStr, show: impl FnOnce(&str, &Scenario) -> Outcome) -> Outcome {
    match read(file) {
        Ok(bytes) => {
            let folder = Path::new(file).parent().unwrap_or(Path::new(""));
            with_bytes(&file.to_string_lossy(), folder, &bytes, show)
        }
        Err(error) => Outcome::unreadable(file, &error),
    }
}

/// Reads the bytes of a file that stands in a folder, and gives their scenario to `show`.
fn with_bytes(
    name: &str,
    folder: &Path,
    bytes: &[u8],
    show: impl FnOnce(&str, &Scenario) -> Outcome,
) -> Outcome {
    match scenario::parse(bytes) {
        Ok(mut scenario) => {
            scenario.folder = folder.to_owned();
            show(name, &scenario)
        }
        Err(lines) => Outcome::bad_lines(name, &lines),
    }
}

/// Reads and plays a file, and gives the play to `show`.
fn with_play(file: &OsStr, show: impl FnOnce(&str, Play) -> Outcome) -> Outcome {
    with_scenario(file, |name, scenario| show(name, play(scenario)))
}

fn read(file: &OsStr) -> std::io::Result<Vec<u8>> {
    if file != "-" {
        return std::fs::read(file);
    }
    let mut bytes = Vec::new();
    std::io::stdin().lock().read_to_end(&mut bytes)?;
    Ok(bytes)
}

impl View {
    fn run(&self, name: &str, play: Play) -> Outcome {
        // A document is written whole or not at all, but what was played shows why a line is bad.
        let output = match (self.json, &play.stopped) {
            (true, Some(_)) => String::new(),
            (true, None) => format!("{}\n", transcript::json(name, &play)),
            (false, _) => transcript::text(&play, self.width, self.verbose, self.paint),
        };
        Outcome {
            output,
            messages: bad_lines(name, play.stopped.as_slice()),
            code: code(&play),
        }
    }

    fn demo(&self) -> Outcome {
        let demo = match Demo::new() {
            Ok(demo) => demo,
            Err(lines) => return Outcome::bad_lines(demo::TREE_FILE, &lines),
        };
        let shown = demo.play(self.all_rights);
        let output = if self.json {
            format!("{}\n", shown.json())
        } else {
            shown.text(self.width, self.paint)
        };
        Outcome {
            output,
            messages: differing_lines(demo::TREE_FILE, &shown.tree),
            code: code(&shown.tree).max(code(&shown.cases)),
        }
    }
}

fn code(play: &Play) -> u8 {
    match &play.stopped {
        Some(_) => BAD_INPUT,
        None if play.is_as_expected() => 0,
        None => DIFFERS,
    }
}
