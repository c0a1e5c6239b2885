//! What a scenario leaves: what each thread may do at each entry and port, asked of the core.
mod detail;
mod html;
mod json;
mod letters;
mod text;
mod tree;

pub use json::json;
pub use text::{heading, text};
pub use tree::{is_above, Node};

use crate::messages::{not_as_written, not_drawn};
use crate::named::{entries, threads};
use crate::outcome::{Outcome, View, BAD_INPUT, DIFFERS, UNREADABLE};
use crate::play::{reach, Play, Player};
use crate::scenario::Space;
use crate::words::escaped;
use skeinrabbit::{
    EntryRow, Layer, LayerRow, Level, PortRights, Refusal, Rights, Rule, Scopes, Tables, Thread,
    ThreadRow,
};
use std::collections::{BTreeMap, BTreeSet};
use std::ffi::{OsStr, OsString};
use std::ops::BitOrAssign;

/// What is asked about beside the whole: threads and entries in detail, or a page.
#[derive(Debug, Default, PartialEq, Eq)]
pub struct Chosen {
    pub threads: Vec<String>,
    pub entries: Vec<String>,
    pub html: Option<OsString>,
}

/// Draws what a play leaves, or says why not.
pub fn explain(view: &View, name: &str, mut play: Play, chosen: &Chosen) -> Outcome {
    let mut explained = Explained::of(&mut play, view.all_rights);
    let in_detail = match explained.choose(&play.player, chosen) {
        Ok(in_detail) => in_detail,
        Err(message) => return Outcome::bad_file(name, message),
    };
    if play.stopped.is_none() {
        if let Some(file) = &chosen.html {
            return page(file, name, &play, &explained);
        }
    }
    let output = match (view.json, &play.stopped) {
        (_, Some(_)) => String::new(),
        (true, None) => format!("{}\n", json(name, &play, &explained)),
        (false, None) if in_detail => detail::text(&explained, chosen, view),
        (false, None) => text(&explained, view.width, view.paint),
    };
    not_drawn_outcome(name, &play)
        .unwrap_or_default()
        .with_output(output)
}

/// What is said of a play that is not as it is written.
fn not_drawn_outcome(name: &str, play: &Play) -> Option<Outcome> {
    let mut messages = not_as_written(name, play)?;
    if play.stopped.is_some() {
        return Some(Outcome::refused(messages, BAD_INPUT));
    }
    messages.push_str(&not_drawn(name));
    Some(Outcome::refused(messages, DIFFERS))
}

/// Writes the page, to standard output where the file is a dash.
fn page(file: &OsStr, name: &str, play: &Play, explained: &Explained) -> Outcome {
    if let Some(outcome) = not_drawn_outcome(name, play) {
        return outcome;
    }
    let page = html::page(name, explained);
    if file == "-" {
        return Outcome::output(page);
    }
    match std::fs::write(file, page) {
        Ok(()) => Outcome::default(),
        Err(error) => {
            let file = escaped(&file.to_string_lossy());
            Outcome::refused(format!("skein: {file}: {error}\n"), UNREADABLE)
        }
    }
}

/// What a scenario leaves, as far as it may be shown.
pub struct Explained {
    pub level: Level,
    /// Whether the tables are sound.
    pub sound: bool,
    /// None where the tables are not sound, and where an answer differs: the policy is then not the one that was written.
    pub picture: Option<Picture>,
}

impl Explained {
    /// Asks the core. Shows all 16 rights, or those that some layer handles.
    pub fn of(play: &mut Play, all_rights: bool) -> Explained {
        let as_expected = play.is_as_expected();
        let player = &mut play.player;
        let sound = player.tables.is_sound();
        Explained {
            level: player.tables.level(),
            sound,
            picture: (sound && as_expected).then(|| Picture::ask(player, all_rights)),
        }
    }

    /// Keeps the threads and entries that are asked about; answers whether some are.
    fn choose(&mut self, player: &Player, chosen: &Chosen) -> Result<bool, String> {
        let Some(picture) = &mut self.picture else {
            return Ok(false);
        };
        let threads = threads(player, &chosen.threads)?;
        let entries = entries(player, &chosen.entries)?;
        if !threads.is_empty() {
            picture.keep_threads(|view| threads.contains(&view.row.thread));
        }
        if !entries.is_empty() {
            picture.keep_entries(|node| entries.contains(&node.row.entry));
        }
        Ok(!threads.is_empty() || !entries.is_empty())
    }
}

/// The tree and what each thread may do with it.
pub struct Picture {
    /// The rights that are shown.
    pub columns: Rights,
    /// The entries, each directory before what is in it.
    pub nodes: Vec<Node>,
    pub threads: Vec<ThreadView>,
    /// The layers in use, lowest number first.
    pub layers: Vec<LayerView>,
    /// The scopes that some layer handles.
    pub scopes: Vec<ScopeView>,
}

/// What a thread may do.
pub struct ThreadView {
    pub row: ThreadRow,
    pub name: Option<String>,
    /// Its domain, oldest layer first.
    pub layers: Vec<Layer>,
    /// For each node, in the same order.
    pub entries: Vec<Held<Rights>>,
    pub ports: Vec<PortView>,
}

/// A layer, and who holds it.
pub struct LayerView {
    pub row: LayerRow,
    /// The threads whose youngest layer it is.
    pub threads: Vec<Thread>,
    /// The layers whose parent it is.
    pub children: Vec<Layer>,
    pub rules: Vec<RuleView>,
}

/// A rule of a layer, with the paths of the entries of its object; there are none where all are gone, or at a port.
pub struct RuleView {
    pub rule: Rule,
    pub paths: Vec<String>,
}

impl LayerView {
    /// The rights at entries that it handles, asked or not.
    pub fn handled(&self) -> Rights {
        match self.row.attribute.fs {
            Rights::NONE => Rights::NONE,
            asked => asked | Rights::REFER,
        }
    }
}

/// Which threads reach which, by a scope.
pub struct ScopeView {
    pub scope: Scopes,
    /// For each thread whether it reaches each one, both in the order of the threads.
    pub reached: Vec<Vec<bool>>,
}

/// What is granted and what is denied, of what was asked.
#[derive(Default)]
pub struct Held<R> {
    pub granted: R,
    pub denied: R,
    /// Who denies it: for each right the youngest layer that does.
    pub by: BTreeMap<Layer, R>,
}

impl ThreadView {
    /// Its name, or else its number.
    pub fn label(&self) -> String {
        let number = || self.row.thread.to_string();
        self.name.clone().unwrap_or_else(number)
    }
}

impl<R: BitOrAssign + Copy + Default> Held<R> {
    /// Adds a right with what was answered about it.
    fn add(&mut self, right: R, answer: Result<(), Refusal<R>>) {
        match answer {
            Ok(()) => self.granted |= right,
            Err(refusal) => {
                self.denied |= right;
                if let Refusal::Denied { layer, rights } = refusal {
                    *self.by.entry(layer).or_default() |= rights;
                }
            }
        }
    }
}

/// What a thread may do at a port, or at any port that no rule names.
pub struct PortView {
    pub port: Option<u64>,
    pub held: Held<PortRights>,
}

impl Picture {
    /// Asks the core for everything.
    pub fn ask(player: &mut Player, all_rights: bool) -> Picture {
        let columns = if all_rights {
            Rights::ALL
        } else {
            handled(&player.tables)
        };
        let nodes = tree::nodes(&player.tables, &player.names);
        let ports = named_ports(&mut player.tables);
        let rows: Vec<ThreadRow> = player.tables.threads().collect();
        let threads = rows.into_iter().map(|row| ThreadView {
            row,
            name: player
                .names
                .name(Space::Thread, row.thread.number())
                .map(str::to_owned),
            layers: domain(&player.tables, row.thread),
            entries: nodes
                .iter()
                .map(|node| held_at(&mut player.tables, row.thread, node.row, columns))
                .collect(),
            ports: port_views(&mut player.tables, row.thread, &ports),
        });
        let threads = threads.collect();
        Picture {
            columns,
            threads,
            layers: layer_views(&player.tables, &nodes),
            scopes: scope_views(&player.tables),
            nodes,
        }
    }

    fn keep_threads(&mut self, keep: impl Fn(&ThreadView) -> bool) {
        let kept: Vec<bool> = self.threads.iter().map(keep).collect();
        retain(&mut self.threads, &kept);
        for scope in &mut self.scopes {
            retain(&mut scope.reached, &kept);
            scope.reached.iter_mut().for_each(|row| retain(row, &kept));
        }
    }

    fn keep_entries(&mut self, keep: impl Fn(&Node) -> bool) {
        let kept: Vec<bool> = self.nodes.iter().map(keep).collect();
        retain(&mut self.nodes, &kept);
        for view in &mut self.threads {
            retain(&mut view.entries, &kept);
        }
    }
}

/// Keeps the values that are marked.
fn retain<T>(values: &mut Vec<T>, kept: &[bool]) {
    let mut kept = kept.iter();
    values.retain(|_| kept.next().copied().unwrap_or(false));
}

/// The rights that some layer handles, REFER among them where there is a layer.
fn handled(tables: &Tables) -> Rights {
    tables
        .layers()
        .map(|row| row.attribute.fs)
        .filter(|fs| !fs.is_empty())
        .fold(Rights::NONE, |rights, fs| rights | fs | Rights::REFER)
}

fn domain(tables: &Tables, thread: Thread) -> Vec<Layer> {
    let mut layers: Vec<Layer> = tables.domain(thread).map(|row| row.layer).collect();
    layers.reverse();
    layers
}

fn layer_views(tables: &Tables, nodes: &[Node]) -> Vec<LayerView> {
    let rules = |layer| {
        let rules = tables.layer_rules(layer).into_iter().flatten();
        rules.map(|rule| rule_view(rule, nodes)).collect()
    };
    let views = tables.layers().map(|row| {
        let held = Some(row.layer);
        let threads = tables.threads().filter(|thread| thread.youngest == held);
        let children = tables.layers().filter(|layer| layer.parent == held);
        LayerView {
            row,
            threads: threads.map(|thread| thread.thread).collect(),
            children: children.map(|layer| layer.layer).collect(),
            rules: rules(row.layer),
        }
    });
    views.collect()
}

fn rule_view(rule: Rule, nodes: &[Node]) -> RuleView {
    let at = |node: &&Node| matches!(rule, Rule::Path { object, .. } if object == node.row.object);
    let paths = nodes.iter().filter(at).map(|node| node.path.clone());
    RuleView {
        rule,
        paths: paths.collect(),
    }
}

/// Every thread asked for every thread, by each scope that some layer handles.
fn scope_views(tables: &Tables) -> Vec<ScopeView> {
    let scopes = tables.layers().map(|row| row.attribute.scope);
    let handled = scopes.fold(Scopes::NONE, |all, scopes| all | scopes);
    let reached_from = |scope, from: ThreadRow| -> Vec<bool> {
        let reached = |to: ThreadRow| reach(tables, scope, from.thread, to.thread).is_ok();
        tables.threads().map(reached).collect()
    };
    let view = |scope| ScopeView {
        scope,
        reached: tables
            .threads()
            .map(|from| reached_from(scope, from))
            .collect(),
    };
    handled.iter().map(view).collect()
}

/// The rights that a thread has at an entry. They are asked one by one only where not all are granted.
fn held_at(tables: &mut Tables, thread: Thread, row: EntryRow, columns: Rights) -> Held<Rights> {
    let asked = columns & row.kind.rights();
    let mut held = Held::default();
    if tables.access(thread, row.entry, asked).is_ok() {
        held.granted = asked;
        return held;
    }
    for right in asked.iter() {
        held.add(right, tables.access(thread, row.entry, right));
    }
    held
}

/// The ports that a layer's rule names.
fn named_ports(tables: &mut Tables) -> BTreeSet<u64> {
    let layers: Vec<Layer> = tables.layers().map(|row| row.layer).collect();
    let mut ports = BTreeSet::new();
    for layer in layers {
        for rule in tables.layer_rules(layer).into_iter().flatten() {
            if let Rule::Port { port, .. } = rule {
                ports.insert(port);
            }
        }
    }
    ports
}

fn port_views(tables: &mut Tables, thread: Thread, named: &BTreeSet<u64>) -> Vec<PortView> {
    let other = (0..=65_535).find(|port| !named.contains(port));
    let named = named.iter().map(|port| (Some(*port), *port));
    named
        .chain(other.map(|port| (None, port)))
        .map(|(shown, port)| PortView {
            port: shown,
            held: held_at_port(tables, thread, port),
        })
        .collect()
}

fn held_at_port(tables: &mut Tables, thread: Thread, port: u64) -> Held<PortRights> {
    let mut held = Held::default();
    for right in PortRights::ALL.iter() {
        held.add(right, tables.port(thread, port, right));
    }
    held
}
