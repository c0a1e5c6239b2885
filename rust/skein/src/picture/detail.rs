//! Threads and entries in detail: every right by its name, and which layer denies it.
use super::text::{domain, entry_label, heading, is_drawn, push_trimmed, stairs};
use super::tree::is_above;
use super::{Chosen, Explained, Held, Node, Picture, ThreadView};
use crate::lines::broken;
use crate::outcome::View;
use crate::paint::Paint;
use crate::words::shown;
use skeinrabbit::{Layer, Rights};
use std::collections::BTreeMap;
use std::fmt::Display;

/// The widest name of a thread or a path.
const WIDEST: usize = 60;

/// The tree of each thread that is asked about; each entry that is asked about with the threads, or the threads asked about.
pub fn text(explained: &Explained, chosen: &Chosen, view: &View) -> String {
    let Some(picture) = &explained.picture else {
        return String::new();
    };
    let parts: Vec<String> = if chosen.entries.is_empty() {
        let threads = picture.threads.iter();
        threads.map(|thread| tree(picture, thread, view)).collect()
    } else {
        let nodes = picture.nodes.iter().enumerate();
        nodes
            .map(|(place, node)| entry(picture, place, node, view))
            .collect()
    };
    parts.join("\n")
}

/// What each thread may do at an entry, and who denies the rest.
fn entry(picture: &Picture, place: usize, node: &Node, view: &View) -> String {
    let row = node.row;
    let title = format!(
        "{}: entry {}, {}, object {}",
        shown(&node.path, WIDEST),
        row.entry,
        row.kind,
        object_label(node)
    );
    let mut out = heading(&title, view.width, view.paint);
    for thread in &picture.threads {
        let name = shown(&thread.label(), WIDEST);
        let held = thread.entries.get(place);
        let (granted, by) = held.map_or((Rights::NONE, String::new()), |held| {
            (held.granted, denied_by(&held.by))
        });
        out.push_str(&broken(
            &format!("  thread {name}: layers {}", domain(thread)),
            6,
            view.width,
        ));
        out.push_str(&broken(&format!("    may {granted}{by}"), 6, view.width));
    }
    let rules = rules_above(picture, node);
    for line in &rules {
        out.push_str(&broken(line, 6, view.width));
    }
    if rules.is_empty() {
        out.push_str("  no layer has a rule from here up\n");
    }
    out
}

/// Which layer denies which rights, in words.
pub fn denied_by<R: Display>(by: &BTreeMap<Layer, R>) -> String {
    by.iter()
        .map(|(layer, rights)| format!("; layer {layer} denies {rights}"))
        .collect()
}

/// The rules of the layers at an entry and at those above it.
fn rules_above(picture: &Picture, node: &Node) -> Vec<String> {
    let mut lines = Vec::new();
    for layer in &picture.layers {
        for rule in &layer.rules {
            let above = rule.paths.iter().find(|path| is_above(path, &node.path));
            if let Some(path) = above {
                let rights = super::text::rights(&rule.rule);
                let (number, path) = (layer.row.layer, shown(path, WIDEST));
                lines.push(format!("  layer {number}: rule at {path} grants {rights}"));
            }
        }
    }
    lines
}

fn object_label(node: &Node) -> String {
    match node.links {
        1 => node.row.object.to_string(),
        links => format!("{} ×{links}", node.row.object),
    }
}

/// The tree with a column for each right, then the ports.
fn tree(picture: &Picture, thread: &ThreadView, view: &View) -> String {
    let left = Left::of(picture, view.width);
    let name = shown(&thread.label(), WIDEST);
    let title = format!("thread {name}: layers {}", domain(thread));
    let mut out = heading(&title, view.width, view.paint);
    if picture.columns.is_empty() {
        out.push_str(
            "No layer handles a right at entries: every thread may do everything there.\n",
        );
        return out;
    }
    out.push_str(&left.matrix(picture, thread, view.paint));
    out.push_str("\n+ granted   - denied   blank: not a right of this kind of entry\n");
    if picture.nodes.iter().any(|node| node.links > 1) {
        out.push_str("×N: an object with N entries (hard links)\n");
    }
    if picture.nodes.iter().any(|node| !is_drawn(node, left.tree)) {
        out.push_str("…N: an entry with N directories above it, too deep to be drawn\n");
    }
    out.push_str(&ports(thread, view.paint));
    out
}

/// The ports that a rule names, and all others as one.
fn ports(thread: &ThreadView, paint: Paint) -> String {
    let mut out = format!("\n{}\n", paint.heading("port   may"));
    for at in &thread.ports {
        let port = at.port.map_or("other".to_owned(), |port| port.to_string());
        let by = denied_by(&at.held.by);
        out.push_str(&format!("{port:<5}  {}{by}\n", at.held.granted));
    }
    out
}

/// The widths of the columns left of the matrix.
struct Left {
    tree: usize,
    object: usize,
}

impl Left {
    fn of(picture: &Picture, width: usize) -> Left {
        let widest = |widths: &mut dyn Iterator<Item = usize>| widths.max().unwrap_or(0);
        let mut objects = picture
            .nodes
            .iter()
            .map(|node| object_label(node).chars().count());
        let object = widest(&mut objects).max("object".len());
        let stairs = picture.columns.iter().enumerate();
        let matrix = widest(&mut stairs.map(|(place, right)| 2 * place + right.to_string().len()));
        // What a line leaves for the tree, between number, kind and the blanks.
        let without_tree = Left { tree: 0, object }
            .line("", "", "", "")
            .chars()
            .count()
            + 2
            + matrix;
        let room = width.saturating_sub(without_tree);
        let mut trees = picture
            .nodes
            .iter()
            .map(|node| entry_label(node, room).chars().count());
        let tree = widest(&mut trees).max("entry".len());
        Left { tree, object }
    }

    fn line(&self, entry: &str, number: &str, kind: &str, object: &str) -> String {
        let (tree, width) = (self.tree, self.object);
        format!("{entry:<tree$}  {number:>4}  {kind:<9}  {object:<width$}")
    }

    /// The names of the rights as stairs, then a line for each entry.
    fn matrix(&self, picture: &Picture, thread: &ThreadView, paint: Paint) -> String {
        let rights: Vec<Rights> = picture.columns.iter().collect();
        let blank = self.line("", "", "", "");
        let heading = self.line("entry", "no", "kind", "object");
        let mut out = stairs(&blank, &heading, &rights);
        for (node, held) in picture.nodes.iter().zip(&thread.entries) {
            let number = node.row.entry.to_string();
            let kind = node.row.kind.to_string();
            let label = entry_label(node, self.tree);
            let entry = self.line(&label, &number, &kind, &object_label(node));
            let marks: Vec<String> = rights
                .iter()
                .map(|right| mark(held, *right, paint))
                .collect();
            push_trimmed(&mut out, &format!("{entry}  {}", marks.join(" ")));
        }
        out
    }
}

fn mark(held: &Held<Rights>, right: Rights, paint: Paint) -> String {
    if held.granted.contains(right) {
        paint.granted("+")
    } else if held.denied.contains(right) {
        paint.denied("-")
    } else {
        " ".to_owned()
    }
}
