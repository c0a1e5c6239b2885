//! `skein diff`: the rights that threads have at paths and ports, and the threads that they reach, in one play and in another.
mod change;
mod rulesets;

pub use rulesets::policies;

use crate::json::Json;
use crate::messages::not_as_written;
use crate::outcome::{Outcome, View, BAD_INPUT};
use crate::picture::{is_above, Held, Picture};
use crate::play::{reach, Play};
use crate::words::shown;
use change::{block, changed, joined, only_in, outcome, port_name, Change, Line, WIDEST};
use skeinrabbit::{PortRights, Rights, Scopes};
use std::collections::{BTreeMap, BTreeSet};

/// What each thread, by its name, has and reaches.
struct Policy {
    /// Paths, each directory before what is in it.
    paths: Vec<String>,
    threads: BTreeMap<String, Rows>,
}

#[derive(Default)]
struct Rows {
    entries: BTreeMap<String, Rights>,
    /// Ports that a rule of either policy may name; none stands for every other.
    ports: BTreeMap<Option<u64>, PortRights>,
    /// The names of the threads that it reaches, by scope.
    reached: BTreeMap<Scopes, BTreeSet<String>>,
}

impl Policy {
    /// What a play leaves.
    fn of(play: &mut Play) -> Policy {
        let picture = Picture::ask(&mut play.player, true);
        let paths: Vec<String> = picture.nodes.iter().map(|node| node.path.clone()).collect();
        let threads = picture.threads.iter().map(|view| {
            let reached = Scopes::ALL.iter().map(|scope| {
                let to = picture.threads.iter();
                let reached = to.filter(|to| {
                    let [from, to] = [view, to].map(|view| view.row.thread);
                    reach(&play.player.tables, scope, from, to).is_ok()
                });
                (scope, reached.map(|to| to.label()).collect())
            });
            let rows = Rows {
                entries: paths.iter().cloned().zip(granted(&view.entries)).collect(),
                ports: view
                    .ports
                    .iter()
                    .map(|at| (at.port, at.held.granted))
                    .collect(),
                reached: reached.collect(),
            };
            (view.label(), rows)
        });
        Policy {
            threads: threads.collect(),
            paths,
        }
    }
}

fn granted(held: &[Held<Rights>]) -> impl Iterator<Item = Rights> + '_ {
    held.iter().map(|held| held.granted)
}

/// What differs between two policies.
struct Difference {
    /// The threads and paths that only one of them has.
    only: [Only; 2],
    threads: Vec<ThreadDifference>,
}

#[derive(Default)]
struct Only {
    threads: Vec<String>,
    paths: Vec<String>,
}

struct ThreadDifference {
    thread: String,
    entries: Vec<Change<String, Rights>>,
    ports: Vec<Change<Option<u64>, PortRights>>,
    /// For each scope the threads that it newly reaches, and those that it no longer does.
    reached: Vec<Change<Scopes, Vec<String>>>,
}

pub fn diff(view: &View, mut plays: [(&str, Play); 2]) -> Outcome {
    let wrong = plays
        .iter()
        .filter_map(|(name, play)| not_as_written(name, play));
    let wrong: String = wrong.collect();
    if !wrong.is_empty() {
        return Outcome::refused(wrong, BAD_INPUT);
    }
    for (name, play) in &plays {
        if !play.player.tables.is_sound() {
            return Outcome::bad_file(name, "the tables are not sound: every call answers EIO");
        }
    }
    let names = [0, 1].map(|place| plays.get(place).map_or("", |(name, _)| *name));
    let [old, new] = plays.each_mut().map(|(_, play)| Policy::of(play));
    let difference = Difference::of(&old, &new);
    outcome(
        view,
        difference.is_empty(),
        || difference.json(names),
        || difference.text(names, view),
    )
}

impl Difference {
    fn of(old: &Policy, new: &Policy) -> Difference {
        let names: Vec<&String> = new.threads.keys().collect();
        let names: Vec<&String> = names
            .into_iter()
            .filter(|name| old.threads.contains_key(*name))
            .collect();
        let both = names.iter().filter_map(|name| {
            let (before, now) = (old.threads.get(*name)?, new.threads.get(*name)?);
            Some(ThreadDifference {
                thread: (*name).clone(),
                entries: entries(&new.paths, before, now),
                ports: ports(before, now),
                reached: reached(&names, before, now),
            })
        });
        Difference {
            only: [Only::of(old, new), Only::of(new, old)],
            threads: both.filter(|thread| !thread.is_empty()).collect(),
        }
    }

    fn is_empty(&self) -> bool {
        let same = |only: &Only| only.threads.is_empty() && only.paths.is_empty();
        self.threads.is_empty() && self.only.iter().all(same)
    }
}

impl Only {
    /// What the first has and the second has not.
    fn of(one: &Policy, two: &Policy) -> Only {
        let there: BTreeSet<&String> = two.paths.iter().collect();
        let threads = one.threads.keys();
        let threads = threads.filter(|name| !two.threads.contains_key(*name));
        let paths = one.paths.iter().filter(|path| !there.contains(path));
        Only {
            threads: threads.cloned().collect(),
            paths: paths.cloned().collect(),
        }
    }
}

/// What is gained and lost at the paths that both policies have.
fn entries(paths: &[String], old: &Rows, new: &Rows) -> Vec<Change<String, Rights>> {
    let changes = paths.iter().filter_map(|path| {
        let (before, now) = (*old.entries.get(path)?, *new.entries.get(path)?);
        Change::of(path.clone(), before, now)
    });
    changes.collect()
}

/// What is gained and lost at the ports that a rule of either policy names, and at every other.
fn ports(old: &Rows, new: &Rows) -> Vec<Change<Option<u64>, PortRights>> {
    let ports: BTreeSet<Option<u64>> = old.ports.keys().chain(new.ports.keys()).copied().collect();
    let changes = ports
        .into_iter()
        .filter_map(|port| Change::of(port, at_port(old, port), at_port(new, port)));
    changes.collect()
}

impl ThreadDifference {
    fn is_empty(&self) -> bool {
        self.entries.is_empty() && self.ports.is_empty() && self.reached.is_empty()
    }
}

/// The rights at a port, which are those of every other port where no rule names it.
fn at_port(rows: &Rows, port: Option<u64>) -> PortRights {
    let other = rows.ports.get(&None).copied().unwrap_or_default();
    rows.ports.get(&port).copied().unwrap_or(other)
}

/// The threads that are newly reached and those that no longer are, of the threads that both policies have.
fn reached(both: &[&String], old: &Rows, new: &Rows) -> Vec<Change<Scopes, Vec<String>>> {
    let changes = new.reached.iter().map(|(scope, now)| {
        let before = old.reached.get(scope).cloned().unwrap_or_default();
        let only = |one: &BTreeSet<String>, two: &BTreeSet<String>| -> Vec<String> {
            let only = one.difference(two).filter(|name| both.contains(name));
            only.cloned().collect()
        };
        Change {
            place: *scope,
            gained: only(now, &before),
            lost: only(&before, now),
        }
    });
    let some = |change: &Change<_, Vec<_>>| !change.gained.is_empty() || !change.lost.is_empty();
    changes.filter(some).collect()
}

impl Difference {
    fn text(&self, names: [&str; 2], view: &View) -> String {
        if self.is_empty() {
            return "No difference: the same rights for every thread.\n".to_owned();
        }
        let only = names.iter().zip(&self.only).map(|(file, only)| {
            let threads = only_in(file, "thread", &only.threads, view);
            threads + &only_in(file, "entry", &only.paths, view)
        });
        let threads = self.threads.iter();
        joined(
            only.collect(),
            threads.map(|thread| block("thread", &thread.thread, &thread.lines(), view)),
        )
    }

    fn json(&self, [old, new]: [&str; 2]) -> Json {
        let only = |only: &Only| {
            Json::Object(vec![
                ("threads", Json::list(&only.threads, Json::text)),
                ("entries", Json::list(&only.paths, Json::text)),
            ])
        };
        let [only_old, only_new] = &self.only;
        Json::Object(vec![
            ("command", Json::text("diff")),
            ("old", Json::text(old)),
            ("new", Json::text(new)),
            ("only_old", only(only_old)),
            ("only_new", only(only_new)),
            ("threads", Json::list(&self.threads, ThreadDifference::json)),
        ])
    }
}

impl ThreadDifference {
    fn lines(&self) -> Vec<Line> {
        let entries = folded(&self.entries);
        let entries = entries.into_iter().map(|(change, below)| {
            let path = shown(&change.place, WIDEST);
            change.line(match below {
                0 => path,
                _ => format!("{path} and {below} below"),
            })
        });
        let ports = self.ports.iter();
        let ports = ports.map(|change| change.line(port_name(change.place)));
        let reached = self.reached.iter().map(|change| Line {
            about: change.place.to_string(),
            gained: targets(&change.gained),
            lost: targets(&change.lost),
        });
        entries.chain(ports).chain(reached).collect()
    }

    fn json(&self) -> Json {
        let entry =
            |change: &Change<String, Rights>| change.json("path", Json::text(&change.place));
        let port = |change: &Change<Option<u64>, PortRights>| {
            change.json("port", Json::option(change.place, Json::Number))
        };
        let scope = |change: &Change<Scopes, Vec<String>>| {
            let threads = [&change.gained, &change.lost];
            let [gained, lost] = threads.map(|threads| Json::list(threads, Json::text));
            changed("scope", Json::text(change.place.to_string()), gained, lost)
        };
        Json::Object(vec![
            ("thread", Json::text(&self.thread)),
            ("entries", Json::list(&self.entries, entry)),
            ("ports", Json::list(&self.ports, port)),
            ("scopes", Json::list(&self.reached, scope)),
        ])
    }
}

/// The changes but those that are the same as one above, as far as their kind has the rights; and how many these are.
fn folded(changes: &[Change<String, Rights>]) -> Vec<(&Change<String, Rights>, usize)> {
    let mut folded: Vec<(&Change<String, Rights>, usize)> = Vec::new();
    let both = |change: &Change<String, Rights>, kept| (change.gained & kept, change.lost & kept);
    for change in changes {
        let mut above = folded.iter_mut().rev();
        let above = above.find(|(above, _)| is_above(&above.place, &change.place));
        let same = |above: &Change<String, Rights>| {
            let mut kinds = [Rights::ALL, Rights::FILE_SET].into_iter();
            kinds.any(|kept| both(above, kept) == both(change, Rights::ALL))
        };
        match above {
            Some((above, below)) if same(above) => *below += 1,
            _ => folded.push((change, 0)),
        }
    }
    folded
}

fn targets(threads: &[String]) -> String {
    let names: Vec<String> = threads.iter().map(|name| shown(name, WIDEST)).collect();
    names.join(", ")
}
