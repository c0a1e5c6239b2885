//! The picture as JSON.
use super::{Explained, Held, LayerView, Node, PortView, RuleView, ScopeView, ThreadView};
use crate::json::Json;
use crate::play::Play;
use crate::transcript::{call_json, rights_json, rule_members};
use skeinrabbit::{Entry, Layer};

/// The members of the JSON document of `skein explain`; its lists are empty where there is no picture.
pub fn json(file: &str, play: &Play, explained: &Explained) -> Json {
    let picture = explained.picture.as_ref();
    let nodes = picture.map_or(&[][..], |picture| &picture.nodes);
    let threads = picture.map_or(&[][..], |picture| &picture.threads);
    let layers = picture.map_or(&[][..], |picture| &picture.layers);
    let scopes = picture.map_or(&[][..], |picture| &picture.scopes);
    let columns = picture.map(|picture| picture.columns).unwrap_or_default();
    Json::Object(vec![
        ("command", Json::text("explain")),
        ("file", Json::text(file)),
        ("differing", Json::list(play.differing(), call_json)),
        ("sound", Json::Bool(explained.sound)),
        ("level", Json::Number(explained.level.number())),
        ("rights", rights_json(columns.iter())),
        ("entries", Json::list(nodes, node_json)),
        (
            "threads",
            Json::list(threads, |view| thread_json(view, nodes)),
        ),
        ("layers", Json::list(layers, layer_json)),
        (
            "scopes",
            Json::list(scopes, |view| scope_json(view, threads)),
        ),
    ])
}

fn name_json(name: &Option<String>) -> Json {
    Json::option(name.as_ref(), Json::text)
}

fn node_json(node: &Node) -> Json {
    let above = (node.row.entry != Entry::ROOT).then_some(node.row.parent);
    Json::Object(vec![
        ("entry", Json::Number(node.row.entry.number())),
        ("name", Json::option(above, |_| Json::text(&node.name))),
        ("path", Json::text(&node.path)),
        ("label", name_json(&node.label)),
        ("kind", Json::text(node.row.kind.to_string())),
        (
            "parent",
            Json::option(above, |parent| Json::Number(parent.number())),
        ),
        ("object", Json::Number(node.row.object)),
        ("links", Json::count(node.links)),
    ])
}

fn thread_json(view: &ThreadView, nodes: &[Node]) -> Json {
    let entries = nodes.iter().zip(&view.entries);
    Json::Object(vec![
        ("thread", Json::Number(view.row.thread.number())),
        ("name", name_json(&view.name)),
        (
            "layers",
            Json::list(&view.layers, |layer| Json::Number(layer.number())),
        ),
        ("no_new_privs", Json::Bool(view.row.no_new_privs)),
        ("admin", Json::Bool(view.row.admin)),
        (
            "access",
            Json::list(entries, |(node, held)| {
                let entry = Json::Number(node.row.entry.number());
                held_json("entry", entry, held, |rights| rights_json(rights.iter()))
            }),
        ),
        ("ports", Json::list(&view.ports, port_json)),
    ])
}

fn layer_json(view: &LayerView) -> Json {
    Json::Object(vec![
        ("layer", Json::Number(view.row.layer.number())),
        (
            "parent",
            Json::option(view.row.parent, |parent| Json::Number(parent.number())),
        ),
        ("holders", Json::Number(view.row.holders)),
        (
            "threads",
            Json::list(&view.threads, |thread| Json::Number(thread.number())),
        ),
        (
            "children",
            Json::list(&view.children, |layer| Json::Number(layer.number())),
        ),
        ("fs", rights_json(view.row.attribute.fs.iter())),
        ("net", rights_json(view.row.attribute.net.iter())),
        ("scope", rights_json(view.row.attribute.scope.iter())),
        ("rules", Json::list(&view.rules, rule_view_json)),
    ])
}

fn rule_view_json(view: &RuleView) -> Json {
    let (place, rights) = rule_members(&view.rule);
    let paths = Json::list(&view.paths, Json::text);
    Json::Object(vec![place, ("paths", paths), ("rights", rights)])
}

fn scope_json(view: &ScopeView, threads: &[ThreadView]) -> Json {
    let rows = threads.iter().zip(&view.reached);
    Json::Object(vec![
        ("scope", Json::text(view.scope.to_string())),
        (
            "threads",
            Json::list(rows, |(from, reached)| reached_json(from, reached, threads)),
        ),
    ])
}

/// The threads that one reaches, and those that it doesn't.
fn reached_json(from: &ThreadView, reached: &[bool], threads: &[ThreadView]) -> Json {
    let number = |view: &ThreadView| Json::Number(view.row.thread.number());
    let which = |granted: bool| {
        let targets = threads.iter().zip(reached);
        let targets = targets.filter(|(_, reached)| **reached == granted);
        Json::list(targets, |(target, _)| number(target))
    };
    Json::Object(vec![
        ("thread", number(from)),
        ("granted", which(true)),
        ("denied", which(false)),
    ])
}

fn port_json(at: &PortView) -> Json {
    let port = Json::option(at.port, Json::Number);
    held_json("port", port, &at.held, |rights| rights_json(rights.iter()))
}

/// What is granted and denied at something, and by whom.
fn held_json<R: Copy>(
    key: &'static str,
    number: Json,
    held: &Held<R>,
    names: impl Fn(R) -> Json,
) -> Json {
    let by = |(layer, rights): (&Layer, &R)| {
        let layer = Json::Number(layer.number());
        Json::Object(vec![("layer", layer), ("rights", names(*rights))])
    };
    Json::Object(vec![
        (key, number),
        ("granted", names(held.granted)),
        ("denied", names(held.denied)),
        ("by", Json::list(&held.by, by)),
    ])
}
