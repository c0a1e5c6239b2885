//! The worked cases of document 01, with the answer that request W3 amends; each entry keeps its name.

use model::refusal::Errno::{self, *};
use model::refusal::{Answer, Refusal};
use model::state::Model;

const READ: u64 = 4;
const WRITE: u64 = 2;
const EXECUTE: u64 = 1;
const REGULAR: u64 = 1;
const DIRECTORY: u64 = 2;
const HANDLED: u64 = 8486;

/// The worked tree: 1 /cal, 2 /import, 3 /cal/table, 4 /import/feed.
fn tree() -> Model {
    let mut model = Model::fresh(6);
    assert_eq!(model.create(0, 0, DIRECTORY, b"cal"), Ok(1));
    assert_eq!(model.create(0, 0, DIRECTORY, b"import"), Ok(2));
    assert_eq!(model.create(0, 1, REGULAR, b"table"), Ok(3));
    assert_eq!(model.create(0, 2, REGULAR, b"feed"), Ok(4));
    assert_eq!(model.set_no_new_privs(0), Ok(0));
    model
}

fn attribute(fs: u64, net: u64) -> Vec<u8> {
    [fs, net, 0]
        .into_iter()
        .flat_map(u64::to_le_bytes)
        .collect()
}

/// Gives thread 0 a layer with the rules, each an entry and its rights.
fn layer(model: &mut Model, fs: u64, net: u64, rules: &[(u64, u64)]) {
    let ruleset = model.create_ruleset(&attribute(fs, net), 0).unwrap();
    for (entry, rights) in rules {
        assert_eq!(model.add_path_rule(ruleset, *entry, *rights, 0), Ok(0));
    }
    assert_eq!(model.restrict(0, ruleset, 0), Ok(0));
    assert_eq!(model.close_ruleset(ruleset), Ok(0));
}

/// The worked tree under a layer that gives /cal the rights.
fn with_cal(rights: u64) -> Model {
    let mut model = tree();
    layer(&mut model, HANDLED, 0, &[(1, rights), (2, HANDLED)]);
    model
}

fn a() -> Model {
    with_cal(4)
}

fn b() -> Model {
    with_cal(8452)
}

fn c() -> Model {
    with_cal(8484)
}

fn number(answer: Answer) -> Result<u64, Errno> {
    answer.map_err(Refusal::errno)
}

/// Request W1: "01's cases keep each entry's name."
fn kept(model: &mut Model, source: u64, directory: u64) -> Answer {
    let name = model.names.of(source).to_vec();
    model.rename(0, source, directory, &name)
}

#[test]
fn access_under_a() {
    assert_eq!(number(a().access(0, 3, READ)), Ok(0));
    assert_eq!(number(a().access(0, 3, WRITE)), Err(EACCES));
    assert_eq!(number(a().access(0, 4, WRITE)), Ok(0));
    assert_eq!(number(a().access(0, 3, EXECUTE)), Ok(0));
}

#[test]
fn renames_under_a_and_b() {
    assert_eq!(number(kept(&mut a(), 4, 1)), Err(EACCES));
    let mut under_b = b();
    assert_eq!(number(kept(&mut under_b, 4, 1)), Ok(0));
    assert_eq!(under_b.lookup(b"/cal/feed"), Ok(4));
    assert_eq!(number(under_b.access(0, 4, WRITE)), Err(EACCES));
    assert_eq!(number(kept(&mut b(), 3, 2)), Err(EACCES));
}

#[test]
fn renames_under_c() {
    assert_eq!(number(kept(&mut c(), 3, 2)), Err(EXDEV));
    let mut model = tree();
    let rules = [(1, 8484), (2, HANDLED), (3, WRITE)];
    layer(&mut model, HANDLED, 0, &rules);
    assert_eq!(number(kept(&mut model, 3, 2)), Ok(0));
}

#[test]
fn link_under_b() {
    let mut model = b();
    assert_eq!(number(model.link(0, 4, 1, b"feed")), Ok(5));
    assert_eq!(number(model.access(0, 5, WRITE)), Err(EACCES));
    assert_eq!(number(model.access(0, 4, WRITE)), Ok(0));
}

#[test]
fn second_layer_that_handles_write() {
    let mut model = b();
    layer(&mut model, WRITE, 0, &[]);
    assert_eq!(number(model.access(0, 4, READ)), Ok(0));
    assert_eq!(number(model.access(0, 4, WRITE)), Err(EACCES));
    assert_eq!(number(kept(&mut model.clone(), 4, 1)), Err(EXDEV));
    assert_eq!(number(kept(&mut model, 4, 2)), Ok(0));
}

/// Document 01 has EXDEV here; request W3: "The BIND_TCP case in 01 becomes 0".
#[test]
fn second_layer_that_handles_ports() {
    let mut model = b();
    layer(&mut model, 0, 1, &[]);
    assert_eq!(number(kept(&mut model, 4, 1)), Ok(0));
}

#[test]
fn attributes() {
    let mut model = Model::fresh(6);
    assert_eq!(number(model.create_ruleset(&[1; 7], 0)), Err(EINVAL));
    assert_eq!(number(model.create_ruleset(&[0; 4097], 0)), Err(E2BIG));
    assert_eq!(number(model.create_ruleset(&[0; 8], 0)), Err(ENOMSG));
    let refer = attribute(1 << 13, 0);
    let mut first = Model::fresh(1);
    assert_eq!(number(first.create_ruleset(&refer[..8], 0)), Err(EINVAL));
    let network = attribute(1, 1);
    let mut third = Model::fresh(3);
    assert_eq!(number(third.create_ruleset(&network[..16], 0)), Err(E2BIG));
}

/// Request W5: "The 17th layer is now fine and the 65th is E2BIG."
#[test]
fn sixty_four_layers() {
    let mut model = tree();
    for _ in 0..64 {
        layer(&mut model, WRITE, 0, &[]);
    }
    let ruleset = model.create_ruleset(&attribute(WRITE, 0), 0).unwrap();
    assert_eq!(number(model.restrict(0, ruleset, 0)), Err(E2BIG));
}
