//! The picture at a glance: what each thread may do where, a letter for each right; then the layers and the scopes.
use super::letters::{at_entry, at_port, of_files, of_ports, Mark};
use super::{Explained, LayerView, Node, Picture, RuleView, ScopeView, ThreadView};
use crate::lines::broken;
use crate::paint::Paint;
use crate::words::{cut, shown};
use skeinrabbit::Rule;
use std::fmt::Display;

/// The widest name of a thread above a column.
const WIDEST_COLUMN: usize = 16;
/// The widest name of a thread elsewhere.
const WIDEST_THREAD: usize = 40;
/// The same where names stand at two sides of a matrix.
const WIDEST_REACHED: usize = 30;

/// The picture, or why there is none. Where an answer differs, messages say so.
pub fn text(explained: &Explained, width: usize, paint: Paint) -> String {
    match &explained.picture {
        Some(picture) => picture_text(picture, width, paint),
        None if explained.sound => String::new(),
        None => "The tables are not sound: every call answers EIO.\n".to_owned(),
    }
}

fn picture_text(picture: &Picture, width: usize, paint: Paint) -> String {
    let mut out = entries(picture, width, paint);
    out.push_str(&ports(picture, width, paint));
    out.push_str(&threads(picture, width, paint));
    for view in &picture.layers {
        out.push_str(&layer(view, &picture.threads, width, paint));
    }
    for view in &picture.scopes {
        out.push_str(&scope(view, &picture.threads, width, paint));
    }
    out
}

/// Rows by threads, with marks for the rights.
struct Matrix {
    /// What the rows are.
    title: &'static str,
    rows: Vec<String>,
    columns: Vec<String>,
    /// For each column the marks of each row.
    cells: Vec<Vec<Vec<Mark>>>,
}

impl Matrix {
    /// The matrix in as many parts as the width asks for.
    fn text(&self, width: usize, paint: Paint) -> String {
        let widest = |texts: &mut dyn Iterator<Item = usize>| texts.max().unwrap_or(0);
        let rights = self.cells.iter().flatten().map(Vec::len).max().unwrap_or(0);
        let room = rights.max(WIDEST_COLUMN);
        let names: Vec<String> = self.columns.iter().map(|name| shown(name, room)).collect();
        let column = widest(&mut names.iter().map(|name| name.chars().count())).max(rights);
        let rows = widest(&mut self.rows.iter().map(|row| row.chars().count()));
        // Long paths leave room for all columns, or for some of them.
        let room = width.saturating_sub(names.len() * (column + 2));
        let left = rows.max(self.title.len()).min(room.max(width * 2 / 5));
        let fit = (width.saturating_sub(left) / (column + 2)).max(1);
        let parts = names.chunks(fit).zip(self.cells.chunks(fit));
        let parts = parts.map(|(names, cells)| {
            let names: Vec<String> = names
                .iter()
                .map(|name| format!("{name:<column$}"))
                .collect();
            let heading = format!("{:<left$}  {}", self.title, names.join("  "));
            let mut part = format!("{}\n", paint.heading(heading.trim_end()));
            for (place, row) in self.rows.iter().enumerate() {
                let cells = cells
                    .iter()
                    .map(|cells| cell(cells.get(place), column, paint));
                let cells: Vec<String> = cells.collect();
                let line = format!("{:<left$}  {}", tail(row, left), cells.join("  "));
                push_trimmed(&mut part, &line);
            }
            part
        });
        parts.collect::<Vec<String>>().join("\n")
    }
}

fn cell(marks: Option<&Vec<Mark>>, width: usize, paint: Paint) -> String {
    let marks = marks.map_or(&[][..], Vec::as_slice);
    let letters = marks.iter().map(|mark| {
        let letter = mark.letter().to_string();
        match mark {
            Mark::Granted(_) => paint.granted(&letter),
            Mark::Denied(_) => paint.denied(&letter),
            Mark::Other => letter,
        }
    });
    let blanks = " ".repeat(width.saturating_sub(marks.len()));
    letters.chain([blanks]).collect()
}

/// The end of a word that is too wide, behind a mark.
fn tail(word: &str, widest: usize) -> String {
    let wide = word.chars().count();
    if wide <= widest {
        return word.to_owned();
    }
    let dropped = wide + 1 - widest;
    ['…']
        .into_iter()
        .chain(word.chars().skip(dropped))
        .collect()
}

/// An entry's path, and how many entries its object has.
fn path(node: &Node) -> String {
    match node.links {
        1 => node.path.clone(),
        links => format!("{} ×{links}", node.path),
    }
}

fn entries(picture: &Picture, width: usize, paint: Paint) -> String {
    let views = picture.threads.iter();
    let marks = |view: &ThreadView| {
        let held = view.entries.iter();
        held.map(|held| at_entry(picture.columns, held)).collect()
    };
    let handled = !picture.columns.is_empty();
    let matrix = Matrix {
        title: "entry",
        rows: picture.nodes.iter().map(path).collect(),
        columns: views
            .clone()
            .filter(|_| handled)
            .map(ThreadView::label)
            .collect(),
        cells: views.filter(|_| handled).map(marks).collect(),
    };
    let mut out = String::new();
    if handled {
        out.push_str(&matrix.text(width, paint));
        let letters = legend(&of_files(picture.columns), width);
        out.push_str(&format!("\n{letters}"));
        out.push_str("- denied  . not a right of this kind of entry\n");
    } else {
        let paths = matrix.rows.iter();
        let paths = paths.map(|row| format!("{}\n", tail(row, width)));
        out.extend(
            [format!("{}\n", paint.heading("entry"))]
                .into_iter()
                .chain(paths),
        );
        out.push_str(
            "\nNo layer handles a right at entries: every thread may do everything there.\n",
        );
    }
    if picture.nodes.iter().any(|node| node.links > 1) {
        out.push_str("×N: an object with N entries (hard links)\n");
    }
    out
}

/// Letters with the names of their rights; no line is broken between the two.
fn legend(letters: &[(char, String)], width: usize) -> String {
    const TIED: char = '\u{a0}';
    let named = letters
        .iter()
        .map(|(letter, name)| format!("{letter}{TIED}{name}"));
    let line = named.collect::<Vec<String>>().join("  ");
    broken(&line, 0, width).replace(TIED, " ")
}

fn ports(picture: &Picture, width: usize, paint: Paint) -> String {
    let mut layers = picture.layers.iter();
    if !layers.any(|view| !view.row.attribute.net.is_empty()) {
        return "\nNo layer handles a right at ports: every thread may use every port.\n"
            .to_owned();
    }
    let views = picture.threads.iter();
    let first = picture.threads.first().map_or(&[][..], |view| &view.ports);
    let port = |port: Option<u64>| port.map_or("other".to_owned(), |port| port.to_string());
    let matrix = Matrix {
        title: "port",
        rows: first.iter().map(|at| port(at.port)).collect(),
        columns: views.clone().map(ThreadView::label).collect(),
        cells: views
            .map(|view| view.ports.iter().map(|at| at_port(&at.held)).collect())
            .collect(),
    };
    let letters = legend(&of_ports(), width);
    format!("\n{}\n{letters}", matrix.text(width, paint))
}

/// The threads with their layers and marks.
fn threads(picture: &Picture, width: usize, paint: Paint) -> String {
    let names = picture.threads.iter();
    let names = names.map(|view| shown(&view.label(), WIDEST_THREAD).chars().count());
    let left = names.max().unwrap_or(0).max("thread".len());
    let heading = format!("{:<left$}  layers, oldest first", "thread");
    let mut out = format!("\n{}\n", paint.heading(&heading));
    for view in &picture.threads {
        let name = shown(&view.label(), WIDEST_THREAD);
        let line = format!("{name:<left$}  {}", domain(view));
        out.push_str(&broken(&line, left + 2, width));
    }
    out
}

/// A thread's layers and marks.
pub fn domain(view: &ThreadView) -> String {
    let layers: Vec<String> = view.layers.iter().map(ToString::to_string).collect();
    let mut text = match layers.len() {
        0 => "none".to_owned(),
        _ => layers.join(" "),
    };
    for (set, mark) in [
        (view.row.no_new_privs, "no_new_privs"),
        (view.row.admin, "admin"),
    ] {
        if set {
            text.push_str(&format!("; {mark}"));
        }
    }
    text
}

/// What a layer handles and grants, and who holds it.
fn layer(view: &LayerView, threads: &[ThreadView], width: usize, paint: Paint) -> String {
    let above = match view.row.parent {
        Some(parent) => format!(" below layer {parent}"),
        None => String::new(),
    };
    let title = format!(
        "layer {}{above}, held by {}",
        view.row.layer,
        holders(view, threads)
    );
    let mut out = format!("\n{}", heading(&title, width, paint));
    out.push_str(&broken(&format!("  handles {}", handled(view)), 4, width));
    let places: Vec<String> = view.rules.iter().map(place).collect();
    let widths = places.iter().map(|place| place.chars().count());
    let left = widths.filter(|wide| *wide <= width / 2).max().unwrap_or(0);
    for (place, rule) in places.iter().zip(&view.rules) {
        let place = tail(place, width.saturating_sub(8));
        let line = format!("  {place:<left$}  {}", rights(&rule.rule));
        out.push_str(&broken(&line, 6, width));
    }
    if view.rules.is_empty() {
        out.push_str("  no rules\n");
    }
    out
}

/// What a layer handles, in words.
pub fn handled(view: &LayerView) -> String {
    let attribute = view.row.attribute;
    let unasked = view.handled() - attribute.fs;
    let parts = [
        (!attribute.fs.is_empty()).then(|| attribute.fs.to_string()),
        (!unasked.is_empty()).then(|| format!("{unasked} unasked")),
        (!attribute.net.is_empty()).then(|| attribute.net.to_string()),
        (!attribute.scope.is_empty()).then(|| format!("scope {}", attribute.scope)),
    ];
    parts
        .into_iter()
        .flatten()
        .collect::<Vec<String>>()
        .join("; ")
}

/// Where a rule is.
pub fn place(view: &RuleView) -> String {
    match (&view.rule, view.paths.as_slice()) {
        (Rule::Port { port, .. }, _) => format!("port {port}"),
        (Rule::Path { object, .. }, []) => format!("object {object}, with no entry left"),
        (Rule::Path { .. }, paths) => paths.join(" = "),
    }
}

pub fn rights(rule: &Rule) -> String {
    match rule {
        Rule::Path { rights, .. } => rights.to_string(),
        Rule::Port { rights, .. } => rights.to_string(),
    }
}

pub fn holders(view: &LayerView, threads: &[ThreadView]) -> String {
    let label = |number| {
        let view = threads.iter().find(|view| view.row.thread == number);
        let label = view.map_or_else(|| number.to_string(), ThreadView::label);
        format!("thread {}", shown(&label, WIDEST_THREAD))
    };
    let threads = view.threads.iter().map(|number| label(*number));
    let children = view.children.iter().map(|layer| format!("layer {layer}"));
    threads.chain(children).collect::<Vec<String>>().join(", ")
}

/// A heading, broken where it is too wide.
pub fn heading(text: &str, width: usize, paint: Paint) -> String {
    let lines = broken(text, 2, width);
    let painted = lines
        .lines()
        .map(|line| format!("{}\n", paint.heading(line)));
    painted.collect()
}

/// The names of a matrix's columns, one below the other, then the heading of what stands left of it.
pub fn stairs(blank: &str, heading: &str, names: &[impl Display]) -> String {
    let mut out = String::new();
    for (place, name) in names.iter().enumerate() {
        out.push_str(&format!("{blank}  {}{name}\n", "│ ".repeat(place)));
    }
    let columns = "│ ".repeat(names.len());
    push_trimmed(&mut out, &format!("{heading}  {columns}"));
    out
}

pub fn push_trimmed(out: &mut String, line: &str) {
    out.push_str(line.trim_end());
    out.push('\n');
}

/// A line for each thread with what it reaches by a scope, a column for each thread.
fn scope(view: &ScopeView, threads: &[ThreadView], width: usize, paint: Paint) -> String {
    let names = threads.iter();
    let names: Vec<String> = names.map(|to| shown(&to.label(), WIDEST_REACHED)).collect();
    let widths = names.iter().map(|name| name.chars().count());
    let left = widths.max().unwrap_or(0).max("thread".len());
    let title = format!("{}: which thread (row) reaches which (column)", view.scope);
    let mut out = format!("\n{}", heading(&title, width, paint));
    let [blank, first] = ["", "thread"].map(|text| format!("{text:<left$}"));
    out.push_str(&stairs(&blank, &first, &names));
    for (name, reached) in names.iter().zip(&view.reached) {
        let signs: Vec<String> = reached.iter().map(|to| sign(*to, paint)).collect();
        out.push_str(&format!("{name:<left$}  {}\n", signs.join(" ")));
    }
    out
}

fn sign(granted: bool, paint: Paint) -> String {
    if granted {
        paint.granted("+")
    } else {
        paint.denied("-")
    }
}

/// An entry's name, behind the lines that lead to it or, where these are too long, its depth.
pub fn entry_label(node: &Node, widest: usize) -> String {
    let name = node.name.as_str();
    if is_drawn(node, widest) {
        let room = widest.saturating_sub(node.branch.chars().count());
        format!("{}{}", node.branch, cut(name, room))
    } else {
        cut(&format!("…{} {name}", node.depth), widest)
    }
}

/// Whether the lines that lead to an entry leave room for its name, or for the beginning of a long one.
pub fn is_drawn(node: &Node, widest: usize) -> bool {
    let beginning = node.name.chars().count().min(6);
    node.branch.chars().count() + beginning <= widest
}
