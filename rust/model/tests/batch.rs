//! Request W9: batches. The values are written down from the papers; the model and the proved core must both answer so.

use model::batch::{Batch, ANSWER, REQUEST};
use model::call::Broker;
use model::names::LONGEST_NAME;
use model::proved::Both;
use model::refusal::Errno::{self, *};
use model::state::{Model, MAX_ENTRIES};
use model::tables::{encode, Table, Tables};

const WRITE: u64 = 1 << 1;
const READ: u64 = 1 << 2;
const REMOVE_FILE: u64 = 1 << 5;
const MAKE_REG: u64 = 1 << 8;
const REFER: u64 = 1 << 13;
const BIND: u64 = 1 << 0;
const CONNECT: u64 = 1 << 1;
const REGULAR: u64 = 1;
const DIRECTORY: u64 = 2;
/// What document 01's layers handle.
const HANDLED: u64 = 8486;
/// What stands in cells that no sort of request uses.
const UNUSED: u64 = 0xdead;

/// A request without its name, and the name.
type Asked<'a> = ([u64; 5], &'a [u8]);

fn access(thread: u64, entry: u64, rights: u64) -> Asked<'static> {
    ([1, thread, entry, rights, UNUSED], b"")
}

fn port(thread: u64, port: u64, rights: u64) -> Asked<'static> {
    ([2, thread, port, rights, UNUSED], b"")
}

fn link(thread: u64, source: u64, directory: u64, name: &[u8]) -> Asked<'_> {
    ([3, thread, source, directory, UNUSED], name)
}

fn rename(thread: u64, source: u64, directory: u64, name: &[u8]) -> Asked<'_> {
    ([4, thread, source, directory, UNUSED], name)
}

fn exchange(thread: u64, source: u64, directory: u64, entry: u64) -> Asked<'static> {
    ([5, thread, source, directory, entry], b"")
}

/// A batch of requests with just enough room for its answers.
fn batch(asked: &[Asked]) -> Batch {
    let mut batch = Batch::default();
    for (cells, name) in asked {
        let part = [batch.names.len() as u64, name.len() as u64];
        batch.requests.extend(cells);
        batch.requests.extend(part);
        batch.names.extend_from_slice(name);
    }
    batch.answers = vec![7; ANSWER * asked.len()];
    batch
}

/// Both sides answer the requests so.
fn answers(model: &Model, expected: &[(Asked, [u64; ANSWER])]) {
    let asked: Vec<Asked> = expected.iter().map(|(asked, _)| *asked).collect();
    let reply = Both.batch(&mut encode(model), &batch(&asked));
    assert_eq!(reply.number, 0);
    for (answer, (asked, expected)) in reply.report.chunks_exact(ANSWER).zip(expected) {
        assert_eq!(answer, expected, "{asked:?}");
    }
}

/// Both sides refuse a batch with EINVAL and write nothing.
fn refused(tables: &mut Tables, batch: &Batch) {
    let reply = Both.batch(tables, batch);
    assert_eq!(reply.number, EINVAL.returned());
    assert_eq!(reply.report, batch.answers);
}

const GRANTED: [u64; ANSWER] = [0; ANSWER];

/// A refusal that no layer is named for.
fn plain(errno: Errno) -> [u64; ANSWER] {
    [errno as u64, 0, 0]
}

/// Document 01's tree: 1 /cal, 2 /import, 3 /cal/table, 4 /import/feed; thread 0 may restrict itself, thread 1 keeps no layer.
fn tree() -> Model {
    let mut model = Model::fresh(6);
    let entries: [(u64, u64, &[u8]); 4] = [
        (0, DIRECTORY, b"cal"),
        (0, DIRECTORY, b"import"),
        (1, REGULAR, b"table"),
        (2, REGULAR, b"feed"),
    ];
    for (directory, kind, name) in entries {
        model.create(0, directory, kind, name).unwrap();
    }
    assert_eq!(model.clone_thread(0), Ok(1));
    model.set_no_new_privs(0).unwrap();
    model
}

/// Gives thread 0 a layer with rules, each an entry and its rights.
fn restrict(model: &mut Model, fs: u64, net: u64, rules: &[(u64, u64)]) {
    let bytes: Vec<u8> = [fs, net].into_iter().flat_map(u64::to_le_bytes).collect();
    let ruleset = model.create_ruleset(&bytes, 0).unwrap();
    for (entry, rights) in rules {
        model.add_path_rule(ruleset, *entry, *rights, 0).unwrap();
    }
    model.restrict(0, ruleset, 0).unwrap();
    model.close_ruleset(ruleset).unwrap();
}

/// The worked tree under a layer that gives /cal the rights.
fn with_cal(rights: u64) -> Model {
    let mut model = tree();
    restrict(&mut model, HANDLED, 0, &[(1, rights), (2, HANDLED)]);
    model
}

#[test]
fn the_worked_cases() {
    answers(
        &with_cal(4),
        &[
            (access(0, 3, READ), GRANTED),
            (access(0, 3, WRITE), [EACCES as u64, 1, WRITE]),
            (access(0, 4, WRITE), GRANTED),
            (access(0, 3, 1), GRANTED),
            (rename(0, 4, 1, b"feed"), [EACCES as u64, 1, MAKE_REG]),
            (access(1, 3, WRITE), GRANTED),
        ],
    );
    answers(
        &with_cal(8452),
        &[
            (rename(0, 4, 1, b"feed"), GRANTED),
            // The rename was not made.
            (access(0, 4, WRITE), GRANTED),
            (rename(0, 3, 2, b"table"), [EACCES as u64, 1, REMOVE_FILE]),
            (link(0, 4, 1, b"feed"), GRANTED),
            (rename(0, 4, 1, b"feed"), GRANTED),
        ],
    );
    answers(
        &with_cal(8484),
        &[(rename(0, 3, 2, b"table"), [EXDEV as u64, 1, WRITE])],
    );
    let mut two = with_cal(8452);
    restrict(&mut two, WRITE, 0, &[]);
    answers(
        &two,
        &[
            (access(0, 4, READ), GRANTED),
            (access(0, 4, WRITE), [EACCES as u64, 2, WRITE]),
            (rename(0, 4, 1, b"feed"), [EXDEV as u64, 2, REFER]),
            (rename(0, 4, 2, b"other"), GRANTED),
        ],
    );
}

#[test]
fn ports_and_layers_of_many_requests() {
    let mut model = tree();
    restrict(&mut model, 0, BIND | CONNECT, &[]);
    restrict(&mut model, READ, CONNECT, &[]);
    let denied = [EACCES as u64, 2, CONNECT];
    answers(
        &model,
        &[
            (port(0, 80, BIND | CONNECT), denied),
            (port(0, 80, BIND), [EACCES as u64, 1, BIND]),
            (port(1, 80, BIND), GRANTED),
            (access(0, 3, WRITE), GRANTED),
            (access(0, 3, READ), [EACCES as u64, 2, READ]),
            (port(0, 65_536, BIND), plain(EINVAL)),
            (port(2, 65_536, 0), plain(ESRCH)),
            (port(0, 80, 0), plain(EINVAL)),
            (port(0, 80, 4), plain(EINVAL)),
            (port(0, 65_535, CONNECT), denied),
        ],
    );
}

/// What is checked before the verdict, in its order; several faults at once answer the first.
#[test]
fn the_order_up_to_the_verdict() {
    let long = [b'n'; LONGEST_NAME + 1];
    answers(
        &tree(),
        &[
            (access(9, 9, 0), plain(ESRCH)),
            (access(0, 9, 0), plain(ENOENT)),
            (access(0, 3, 0), plain(EINVAL)),
            (access(0, 3, 1 << 16), plain(EINVAL)),
            (access(0, 3, 1 << 3), plain(EINVAL)),
            (link(9, 0, 9, b""), plain(ESRCH)),
            (link(0, 0, 9, b""), plain(ENOENT)),
            (link(0, 0, 3, b""), plain(EBUSY)),
            (link(0, 4, 3, b""), plain(ENOTDIR)),
            (link(0, 4, 1, &long), plain(ENAMETOOLONG)),
            (link(0, 4, 1, b""), plain(EINVAL)),
            (link(0, 2, 1, b"table"), plain(EEXIST)),
            (link(0, 2, 1, b"new"), plain(EPERM)),
            (rename(9, 0, 9, b""), plain(ESRCH)),
            (rename(0, 0, 9, b""), plain(ENOENT)),
            (rename(0, 0, 3, b""), plain(EBUSY)),
            (rename(0, 1, 3, b""), plain(ENOTDIR)),
            (rename(0, 1, 1, &long), plain(ENAMETOOLONG)),
            (rename(0, 1, 1, b"."), plain(EINVAL)),
            (rename(0, 1, 1, b"new"), plain(EINVAL)),
            (rename(0, 4, 1, b"table"), GRANTED),
            (exchange(9, 0, 9, 9), plain(ESRCH)),
            (exchange(0, 0, 3, 9), plain(ENOENT)),
            (exchange(0, 3, 4, 0), plain(EBUSY)),
            (exchange(0, 3, 4, 4), plain(ENOTDIR)),
            (exchange(0, 3, 1, 4), plain(EINVAL)),
            (exchange(0, 1, 1, 3), plain(EINVAL)),
            (exchange(0, 3, 0, 1), plain(EINVAL)),
            (exchange(0, 3, 2, 4), GRANTED),
        ],
    );
}

/// What is checked after the verdict is not answered: ENOTDIR, EISDIR, ENOTEMPTY and ENOSPC.
#[test]
fn later_refusals_are_0() {
    let mut model = tree();
    answers(
        &model,
        &[
            (rename(0, 2, 1, b"table"), GRANTED),
            (rename(0, 4, 0, b"cal"), GRANTED),
            (rename(0, 2, 0, b"cal"), GRANTED),
            (rename(0, 3, 1, b"table"), GRANTED),
        ],
    );
    assert_eq!(
        model.rename(0, 2, 1, b"table").err().unwrap().errno(),
        ENOTDIR
    );
    assert_eq!(model.rename(0, 4, 0, b"cal").err().unwrap().errno(), EISDIR);
    assert_eq!(
        model.rename(0, 2, 0, b"cal").err().unwrap().errno(),
        ENOTEMPTY
    );
    while (model.entries.len() as u64) < MAX_ENTRIES {
        let name = model.entries.len().to_string();
        model.create(0, 2, REGULAR, name.as_bytes()).unwrap();
    }
    answers(&model, &[(link(0, 3, 2, b"new"), GRANTED)]);
    assert_eq!(model.link(0, 3, 2, b"new").err().unwrap().errno(), ENOSPC);
    // The verdict is, before them.
    let mut model = with_cal(8452);
    restrict(&mut model, MAKE_REG, 0, &[]);
    answers(
        &model,
        &[(rename(0, 4, 0, b"cal"), [EACCES as u64, 2, MAKE_REG])],
    );
}

/// Link requests of entry 4 with a part of the names each.
fn linked(names: &[u8], parts: &[(u64, u64)]) -> Batch {
    let requests = parts.iter();
    let requests = requests.flat_map(|(start, length)| [3, 0, 4, 1, UNUSED, *start, *length]);
    Batch {
        requests: requests.collect(),
        names: names.to_vec(),
        answers: vec![7; ANSWER * parts.len()],
    }
}

#[test]
fn names_are_parts_of_the_names() {
    let mut tables = encode(&tree());
    let names = [b"xtable", &[b'n'; LONGEST_NAME + 1][..]].concat();
    let all = names.len() as u64;
    let (table, long) = ((1, 5), (6, LONGEST_NAME as u64 + 1));
    for (part, errno) in [
        (table, Some(EEXIST)),
        ((0, 5), None),
        ((2, 4), None),
        ((1, 6), None),
        (long, Some(ENAMETOOLONG)),
        ((0, all), Some(ENAMETOOLONG)),
        ((7, LONGEST_NAME as u64), None),
        // No part of the names: EINVAL, however long it is.
        ((all, 1), Some(EINVAL)),
        ((all - 1, 2), Some(EINVAL)),
        ((all + 1, 0), Some(EINVAL)),
        ((0, all + 1), Some(EINVAL)),
        ((1, u64::MAX), Some(EINVAL)),
        ((u64::MAX, 2), Some(EINVAL)),
        ((u64::MAX, u64::MAX), Some(EINVAL)),
        ((1 << 63, 1 << 63), Some(EINVAL)),
        ((1 << 32, 1), Some(EINVAL)),
        // The empty name.
        ((0, 0), Some(EINVAL)),
        ((all, 0), Some(EINVAL)),
    ] {
        let reply = Both.batch(&mut tables, &linked(&names, &[table, part]));
        let expected = [plain(EEXIST), errno.map_or(GRANTED, plain)].concat();
        assert_eq!(reply.report, expected, "{part:?}");
    }
    // At the name's place in the order.
    let mut outside = linked(b"", &[(0, 1); 3]);
    outside.requests[1] = 9;
    outside.requests[REQUEST + 2] = 0;
    outside.requests[2 * REQUEST + 3] = 3;
    let reply = Both.batch(&mut tables, &outside);
    assert_eq!(reply.report, [ESRCH, EBUSY, ENOTDIR].map(plain).concat());
}

#[test]
fn refused_batches_write_nothing() {
    let mut tables = encode(&tree());
    let right = batch(&[access(0, 3, READ), port(9, 80, BIND), link(0, 4, 1, b"new")]);
    for sort in [0, 6, 7, 255, 257, 1 << 32, (1 << 32) + 1, u64::MAX] {
        for request in 0..3 {
            let mut wrong = right.clone();
            wrong.requests[REQUEST * request] = sort;
            refused(&mut tables, &wrong);
        }
    }
    for length in (0..3 * REQUEST).filter(|length| length % REQUEST != 0) {
        let mut ragged = right.clone();
        ragged.requests.truncate(length);
        refused(&mut tables, &ragged);
    }
    for room in 0..3 * ANSWER {
        let mut narrow = right.clone();
        narrow.answers.truncate(room);
        refused(&mut tables, &narrow);
        // Unsound tables are no answer before EINVAL.
        let mut damaged = tables.clone();
        damaged.poke(Table::System, 0, 7);
        refused(&mut damaged, &narrow);
    }
}

#[test]
fn cells_past_the_answers_stay() {
    let mut tables = encode(&tree());
    for more in 0..8 {
        let mut longer = batch(&[access(0, 9, READ)]);
        longer.answers.extend((0..more).map(|cell| 90 + cell));
        let reply = Both.batch(&mut tables, &longer);
        let past = (0..more).map(|cell| 90 + cell);
        let expected = plain(ENOENT).into_iter().chain(past);
        assert_eq!(reply.report, expected.collect::<Vec<u64>>());
        longer.requests.clear();
        let reply = Both.batch(&mut tables, &longer);
        assert_eq!((reply.number, reply.report), (0, longer.answers));
    }
}

#[test]
fn unsound_tables_are_every_answer() {
    let right = batch(&[access(0, 3, READ), port(9, 80, BIND), link(0, 4, 1, b"")]);
    let expected = [plain(EIO); 3].concat();
    for table in Table::ALL {
        let mut short = encode(&tree());
        short.resize(table, table.length() - 1);
        let reply = Both.batch(&mut short, &right);
        assert_eq!((reply.number, &reply.report), (0, &expected));
    }
    let mut damaged = encode(&tree());
    damaged.poke(Table::Names, 0, 1);
    let reply = Both.batch(&mut damaged, &right);
    assert_eq!((reply.number, &reply.report), (0, &expected));
}

/// Every entry and every pair of a tree, asked at once.
#[test]
fn a_long_batch() {
    let model = with_cal(8484);
    let asked: Vec<Asked> = (0..6)
        .flat_map(|a| (0..6).map(move |b| (a, b)))
        .flat_map(|(a, b)| {
            let moves = [link(0, a, b, b"table"), rename(0, a, b, b"feed")];
            let exchanges = (0..6).map(move |entry| exchange(0, a, b, entry));
            let rights = (0..16).map(move |bit| access(0, a, 1 << bit | 1 << b));
            moves.into_iter().chain(exchanges).chain(rights)
        })
        .collect();
    let reply = Both.batch(&mut encode(&model), &batch(&asked));
    assert_eq!(reply.number, 0);
}
