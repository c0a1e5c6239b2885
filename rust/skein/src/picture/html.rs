//! The picture as a page of its own: tree and matrix, ports, threads, layers and scopes.
use super::detail::denied_by;
use super::letters::{at_entry, at_port, of_files, of_ports, Mark};
use super::text::{holders, place, rights};
use super::{Explained, Held, LayerView, Node, Picture, RuleView, ScopeView, ThreadView};
use skeinrabbit::{Kind, Layer};
use std::fmt::Display;

const STYLE: &str = include_str!("page.css");
const SCRIPT: &str = include_str!("page.js");

/// The whole page. It needs nothing from elsewhere.
pub fn page(name: &str, explained: &Explained) -> String {
    let title = escaped(name);
    let level = explained.level;
    let body = match &explained.picture {
        Some(picture) => sections(picture),
        None => "<p>The tables are not sound: every call answers EIO.</p>\n".to_owned(),
    };
    format!(
        "<!doctype html>\n<html lang=\"en\">\n<head>\n<meta charset=\"utf-8\">\n\
         <meta name=\"viewport\" content=\"width=device-width, initial-scale=1\">\n\
         <title>{title}: who may do what</title>\n<style>\n{STYLE}</style>\n</head>\n<body>\n\
         <h1>{title}</h1>\n<p class=\"meta\">What each thread may do where, at level {level}.</p>\n\
         {body}<script>\n{SCRIPT}</script>\n</body>\n</html>\n"
    )
}

/// Text with the characters that have a meaning in HTML escaped.
fn escaped(text: impl Display) -> String {
    let mut out = String::new();
    for c in text.to_string().chars() {
        match c {
            '&' => out.push_str("&amp;"),
            '<' => out.push_str("&lt;"),
            '>' => out.push_str("&gt;"),
            '"' => out.push_str("&quot;"),
            c if c.is_control() => out.extend(c.escape_default()),
            c => out.push(c),
        }
    }
    out
}

fn sections(picture: &Picture) -> String {
    let mut out = entries(picture);
    out.push_str(&ports(picture));
    out.push_str(&threads(&picture.threads));
    out.push_str(&layers(picture));
    for view in &picture.scopes {
        out.push_str(&scope(view, &picture.threads));
    }
    out
}

/// A table with a head; what scrolls stays inside.
fn table(head: &[String], rows: &str) -> String {
    let head: String = head.iter().map(|name| format!("<th>{name}</th>")).collect();
    format!(
        "<div class=\"scroll\"><table>\n<thead><tr>{head}</tr></thead>\n<tbody>\n{rows}</tbody>\n</table></div>\n"
    )
}

/// The tree with a column for each thread.
fn entries(picture: &Picture) -> String {
    let names = picture.threads.iter().map(|view| escaped(view.label()));
    let head = ["entry", "kind", "object"].map(str::to_owned);
    let head: Vec<String> = head.into_iter().chain(names).collect();
    let rows: String = picture
        .nodes
        .iter()
        .enumerate()
        .map(|(place, node)| entry(picture, place, node))
        .collect();
    let mut out = "<h2>Entries</h2>\n".to_owned();
    if picture.columns.is_empty() {
        out.push_str(
            "<p>No layer handles a right at entries: every thread may do everything there.</p>\n",
        );
    }
    out.push_str("<input id=\"filter\" type=\"search\" placeholder=\"Show paths with\" aria-label=\"Show paths with\">\n");
    out.push_str(&table(&head, &rows));
    out.push_str(&legend(
        &of_files(picture.columns),
        "- denied, . not a right of this kind of entry",
    ));
    out
}

fn entry(picture: &Picture, place: usize, node: &Node) -> String {
    let path = escaped(&node.path);
    let indent = format!("{:.1}em", 0.7 + 1.3 * node.depth as f64);
    let fold = match node.row.kind {
        Kind::DIRECTORY => "<button class=\"fold\" aria-expanded=\"true\">\u{25be}</button>",
        _ => "<span class=\"leaf\"></span>",
    };
    let links = match node.links {
        1 => String::new(),
        links => format!(" <span class=\"dim\">\u{d7}{links}</span>"),
    };
    let cells: String = picture
        .threads
        .iter()
        .map(|view| match view.entries.get(place) {
            Some(held) => cell(&at_entry(picture.columns, held), held),
            None => "<td></td>".to_owned(),
        })
        .collect();
    format!(
        "<tr data-path=\"{path}\"><td class=\"path\" style=\"padding-left:{indent}\" title=\"{path}\">{fold}{}</td>\
         <td class=\"dim\">{}</td><td class=\"dim\">{}{links}</td>{cells}</tr>\n",
        escaped(&node.name),
        node.row.kind,
        node.row.object,
    )
}

/// Letters for what is granted; who denies the rest is said where the pointer rests.
fn cell<R: Display>(marks: &[Mark], held: &Held<R>) -> String {
    let letters: String = marks
        .iter()
        .map(|mark| match mark {
            Mark::Granted(letter) => format!("<b>{letter}</b>"),
            other => format!("<i>{}</i>", other.letter()),
        })
        .collect();
    let title = escaped(format!("granted: {}{}", held.granted, denied_by(&held.by)));
    format!("<td class=\"cell\" title=\"{title}\">{letters}</td>")
}

fn legend(letters: &[(char, String)], rest: &str) -> String {
    let items: String = letters
        .iter()
        .map(|(letter, name)| format!("<li><span class=\"letter\">{letter}</span> {name}</li>"))
        .collect();
    match letters {
        [] => String::new(),
        _ => format!("<ul class=\"legend\">{items}<li class=\"dim\">{rest}</li></ul>\n"),
    }
}

/// The ports that a rule names, and every other as one, with a column for each thread.
fn ports(picture: &Picture) -> String {
    let mut layers = picture.layers.iter();
    if !layers.any(|view| !view.row.attribute.net.is_empty()) {
        let none = "No layer handles a right at ports: every thread may use every port.";
        return format!("<h2>Ports</h2>\n<p>{none}</p>\n");
    }
    let names = picture.threads.iter().map(|view| escaped(view.label()));
    let head: Vec<String> = ["port".to_owned()].into_iter().chain(names).collect();
    let first = picture.threads.first().map_or(&[][..], |view| &view.ports);
    let row = |(place, port): (usize, Option<u64>)| {
        let port = port.map_or("other".to_owned(), |port| port.to_string());
        let views = picture.threads.iter();
        let held = views.filter_map(|view| view.ports.get(place));
        let cells: String = held.map(|at| cell(&at_port(&at.held), &at.held)).collect();
        format!("<tr><td>{port}</td>{cells}</tr>\n")
    };
    let numbers = first.iter().map(|at| at.port).enumerate();
    let rows: String = numbers.map(row).collect();
    let legend = legend(&of_ports(), "- denied");
    format!("<h2>Ports</h2>\n{}{legend}", table(&head, &rows))
}

fn threads(threads: &[ThreadView]) -> String {
    let row = |view: &ThreadView| {
        let chip =
            |layer: &Layer| format!("<a class=\"chip\" href=\"#layer-{layer}\">layer {layer}</a>");
        let layers: String = match view.layers.len() {
            0 => "<span class=\"dim\">none</span>".to_owned(),
            _ => view.layers.iter().map(chip).collect(),
        };
        let marks = [
            (view.row.no_new_privs, "no_new_privs"),
            (view.row.admin, "admin"),
        ];
        let marks = marks.into_iter().filter(|(set, _)| *set);
        let marks: String = marks
            .map(|(_, mark)| format!("<span class=\"chip\">{mark}</span>"))
            .collect();
        let (name, number) = (escaped(view.label()), view.row.thread);
        format!("<tr><td>{name}</td><td>{number}</td><td>{layers}</td><td>{marks}</td></tr>\n")
    };
    let rows: String = threads.iter().map(row).collect();
    let head = ["thread", "number", "layers, oldest first", "marks"].map(str::to_owned);
    format!("<h2>Threads</h2>\n{}", table(&head, &rows))
}

fn layers(picture: &Picture) -> String {
    let cards: String = picture
        .layers
        .iter()
        .map(|view| layer(view, &picture.threads))
        .collect();
    match picture.layers.len() {
        0 => String::new(),
        _ => format!("<h2>Layers</h2>\n<div class=\"cards\">\n{cards}</div>\n"),
    }
}

/// A card: what a layer handles, its rules, and who holds it.
fn layer(view: &LayerView, threads: &[ThreadView]) -> String {
    let number = view.row.layer;
    let parent = match view.row.parent {
        Some(parent) => format!("<a class=\"chip\" href=\"#layer-{parent}\">layer {parent}</a>"),
        None => "<span class=\"dim\">none</span>".to_owned(),
    };
    format!(
        "<article class=\"card\" id=\"layer-{number}\"><h3>Layer {number}</h3>\n<dl><dt>parent</dt><dd>{parent}</dd>\
         <dt>held by</dt><dd>{}</dd>{}</dl>\n<h3 class=\"rules\">Rules</h3>\n{}</article>\n",
        escaped(holders(view, threads)),
        handled(view),
        rules(view)
    )
}

/// What a layer handles: rights at entries and ports, and scopes.
fn handled(view: &LayerView) -> String {
    let chips = |names: &mut dyn Iterator<Item = String>| -> String {
        names
            .map(|name| format!("<span class=\"chip\">{name}</span>"))
            .collect()
    };
    let attribute = view.row.attribute;
    let unasked = view.handled() - attribute.fs;
    let asked = attribute.fs.iter().map(|right| right.to_string());
    let unasked = unasked.iter().map(|right| format!("{right} (unasked)"));
    let net = attribute.net.iter().map(|right| right.to_string());
    let rights = chips(&mut asked.chain(unasked).chain(net));
    let scopes = chips(&mut attribute.scope.iter().map(|scope| scope.to_string()));
    let parts = [("handles", rights), ("scopes", scopes)];
    let parts = parts.into_iter().filter(|(_, chips)| !chips.is_empty());
    parts
        .map(|(what, chips)| format!("<dt>{what}</dt><dd>{chips}</dd>"))
        .collect()
}

/// The rules of a layer: where, and what they grant.
fn rules(view: &LayerView) -> String {
    let rule = |rule: &RuleView| {
        let (place, rights) = (escaped(place(rule)), rights(&rule.rule));
        let rights = rights.replace('+', ", ");
        format!("<dt class=\"path\">{place}</dt><dd>{rights}</dd>")
    };
    let rules: String = view.rules.iter().map(rule).collect();
    match view.rules.len() {
        0 => "<p class=\"dim\">No rules: what it handles of entries and ports is denied everywhere.</p>".to_owned(),
        _ => format!("<dl>{rules}</dl>"),
    }
}

/// A table of threads by threads.
fn scope(view: &ScopeView, threads: &[ThreadView]) -> String {
    let names: Vec<String> = threads.iter().map(|view| escaped(view.label())).collect();
    let head: Vec<String> = ["from \\ to".to_owned()]
        .into_iter()
        .chain(names.iter().cloned())
        .collect();
    let row = |(name, reached): (&String, &Vec<bool>)| {
        let cells: String = reached
            .iter()
            .map(|to| match to {
                true => "<td class=\"reach yes\">reaches</td>",
                false => "<td class=\"reach no\">\u{2013}</td>",
            })
            .collect();
        format!("<tr><td>{name}</td>{cells}</tr>\n")
    };
    let rows: String = names.iter().zip(&view.reached).map(row).collect();
    format!("<h2>Scope: {}</h2>\n{}", view.scope, table(&head, &rows))
}

#[cfg(test)]
mod tests {
    use super::*;

    #[test]
    fn text_cannot_leave_its_place() {
        assert_eq!(
            escaped("<b a=\"1\">&\u{1}"),
            "&lt;b a=&quot;1&quot;&gt;&amp;\\u{1}"
        );
    }
}
