//! What is gained and lost at a place, and the lines that say so.
use crate::json::Json;
use crate::lines::broken;
use crate::outcome::{Outcome, View, FOUND};
use crate::transcript::rights_json;
use crate::words::{escaped, shown};
use std::fmt::Display;
use std::ops::Sub;

/// The widest path that is shown whole.
pub const WIDEST: usize = 60;

/// What is gained and lost at a place.
pub struct Change<P, R> {
    pub place: P,
    pub gained: R,
    pub lost: R,
}

/// A set of rights or scopes, which are written by their names.
pub trait RightSet: Copy + Default + PartialEq + Display + Sub<Output = Self> {}

impl<R: Copy + Default + PartialEq + Display + Sub<Output = R>> RightSet for R {}

impl<P, R: RightSet> Change<P, R> {
    /// What changes from one set to another; none where they are the same.
    pub fn of(place: P, old: R, new: R) -> Option<Change<P, R>> {
        (old != new).then(|| Change {
            place,
            gained: new - old,
            lost: old - new,
        })
    }

    pub fn line(&self, about: String) -> Line {
        Line {
            about,
            gained: named(self.gained),
            lost: named(self.lost),
        }
    }

    pub fn json(&self, key: &'static str, place: Json) -> Json {
        let [gained, lost] = [self.gained, self.lost].map(|rights| {
            let names = named(rights);
            rights_json(names.split('+').filter(|name| !name.is_empty()))
        });
        changed(key, place, gained, lost)
    }
}

pub fn changed(key: &'static str, place: Json, gained: Json, lost: Json) -> Json {
    Json::Object(vec![(key, place), ("gained", gained), ("lost", lost)])
}

/// The names joined by `+`; nothing where there are none.
fn named<R: RightSet>(rights: R) -> String {
    if rights == R::default() {
        String::new()
    } else {
        rights.to_string()
    }
}

/// What a port is called; none stands for every other.
pub fn port_name(port: Option<u64>) -> String {
    match port {
        Some(port) => format!("port {port}"),
        None => "other ports".to_owned(),
    }
}

/// A line of a difference: what it is about, and what is gained and lost there.
pub struct Line {
    pub about: String,
    pub gained: String,
    pub lost: String,
}

impl Line {
    /// `+` before what is gained, `-` before what is lost, each in a line of its own.
    fn text(&self, width: usize, view: &View) -> String {
        let mut out = String::new();
        let mut about = self.about.as_str();
        for (sign, rights) in [('+', &self.gained), ('-', &self.lost)] {
            if rights.is_empty() {
                continue;
            }
            let line = format!("  {about:<width$}  {sign} {rights}");
            let lines = broken(&line, width + 6, view.width);
            out.push_str(&match sign {
                '+' => painted(&lines, |line| view.paint.granted(line)),
                _ => painted(&lines, |line| view.paint.denied(line)),
            });
            about = "";
        }
        out
    }
}

fn painted(lines: &str, paint: impl Fn(&str) -> String) -> String {
    lines
        .lines()
        .map(|line| format!("{}\n", paint(line)))
        .collect()
}

/// The lines about something, below its name.
pub fn block(kind: &str, name: &str, lines: &[Line], view: &View) -> String {
    let widths = lines.iter().map(|line| line.about.chars().count());
    let width = widths
        .filter(|width| *width <= view.width / 2)
        .max()
        .unwrap_or(0);
    let heading = format!("{kind} {}", shown(name, WIDEST));
    let lines = lines.iter().map(|line| line.text(width, view));
    format!(
        "{}\n{}",
        view.paint.heading(&heading),
        lines.collect::<String>()
    )
}

/// What a file alone has of a kind.
pub fn only_in(file: &str, kind: &str, names: &[String], view: &View) -> String {
    let lines = names.iter().map(|name| {
        let line = format!("only in {}: {kind} {}", escaped(file), shown(name, WIDEST));
        broken(&line, 4, view.width)
    });
    lines.collect()
}

/// What one file alone has, then the blocks, with a blank line before each that is not the first.
pub fn joined(only: String, blocks: impl Iterator<Item = String>) -> String {
    let mut out = only;
    for block in blocks {
        if !out.is_empty() {
            out.push('\n');
        }
        out.push_str(&block);
    }
    out
}

/// A difference as it is to look.
pub fn outcome(
    view: &View,
    same: bool,
    json: impl FnOnce() -> Json,
    text: impl FnOnce() -> String,
) -> Outcome {
    let output = if view.json {
        format!("{}\n", json())
    } else {
        text()
    };
    Outcome::output(output).with_code(if same { 0 } else { FOUND })
}
