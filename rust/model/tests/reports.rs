//! Requests W8 and W2: the layer that a refused verdict names, and its set; how many entries' rules an
//! access reads. The values are written down from the papers; the model and the proved core must both
//! report them.

use model::call::{Broker, Call, UNWRITTEN};
use model::proved::Both;
use model::refusal::Errno::{self, *};
use model::state::Model;
use model::tables::encode;

const EXECUTE: u64 = 1 << 0;
const WRITE: u64 = 1 << 1;
const READ: u64 = 1 << 2;
const REMOVE_DIR: u64 = 1 << 4;
const REMOVE_FILE: u64 = 1 << 5;
const MAKE_DIR: u64 = 1 << 7;
const MAKE_REG: u64 = 1 << 8;
const REFER: u64 = 1 << 13;
const BIND: u64 = 1 << 0;
const CONNECT: u64 = 1 << 1;
const REGULAR: u64 = 1;
const DIRECTORY: u64 = 2;
/// What document 01's layers A, B and C handle.
const HANDLED: u64 = 8486;

/// Document 01's tree: 1 /cal, 2 /import, 3 /cal/table, 4 /import/feed; thread 0 may restrict itself.
fn tree() -> Model {
    let mut model = Model::fresh(6);
    let entries: [(u64, u64, &[u8]); 4] = [
        (0, DIRECTORY, b"cal"),
        (0, DIRECTORY, b"import"),
        (1, REGULAR, b"table"),
        (2, REGULAR, b"feed"),
    ];
    for (directory, kind, name) in entries {
        model.create(0, directory, kind, name).unwrap();
    }
    model.set_no_new_privs(0).unwrap();
    model
}

/// Gives a thread a layer with rules, each an entry and its rights.
fn restrict(model: &mut Model, thread: u64, fs: u64, net: u64, rules: &[(u64, u64)]) {
    let bytes: Vec<u8> = [fs, net].into_iter().flat_map(u64::to_le_bytes).collect();
    let ruleset = model.create_ruleset(&bytes, 0).unwrap();
    for (entry, rights) in rules {
        model.add_path_rule(ruleset, *entry, *rights, 0).unwrap();
    }
    model.restrict(thread, ruleset, 0).unwrap();
    model.close_ruleset(ruleset).unwrap();
}

/// Layers of thread 0, the oldest first: what each handles, and its rules.
fn under(layers: &[(u64, &[(u64, u64)])]) -> Model {
    let mut model = tree();
    for (fs, rules) in layers {
        restrict(&mut model, 0, *fs, 0, rules);
    }
    model
}

/// Document 01's tree under a layer that gives /cal the rights.
fn with_cal(rights: u64) -> Model {
    under(&[(HANDLED, &[(1, rights), (2, HANDLED)])])
}

const REPORT: u64 = 5;

fn access(entry: u64, rights: u64) -> Call {
    Call::Access {
        thread: 0,
        entry,
        rights,
        report: REPORT,
    }
}

fn port(port: u64, rights: u64) -> Call {
    Call::Port {
        thread: 0,
        port,
        rights,
        report: REPORT,
    }
}

fn create(directory: u64, kind: u64) -> Call {
    Call::Create {
        name: b"new".to_vec(),
        thread: 0,
        directory,
        kind,
        report: REPORT,
    }
}

fn remove(entry: u64) -> Call {
    Call::Remove {
        thread: 0,
        entry,
        report: REPORT,
    }
}

fn link(source: u64, directory: u64) -> Call {
    Call::Link {
        name: b"new".to_vec(),
        thread: 0,
        source,
        directory,
        report: REPORT,
    }
}

/// Renames to the name of an entry, or to a free one.
fn rename(source: u64, directory: u64, replaced: Option<&str>) -> Call {
    Call::Rename {
        name: replaced.unwrap_or("new").as_bytes().to_vec(),
        thread: 0,
        source,
        directory,
        report: REPORT,
    }
}

fn exchange(source: u64, directory: u64, entry: u64) -> Call {
    Call::Exchange {
        thread: 0,
        source,
        directory,
        entry,
        report: REPORT,
    }
}

/// A verdict refuses: the layer and its set are reported, the cells past them stay.
fn refused(model: &Model, call: Call, errno: Errno, layer: u64, rights: u64) {
    let reply = Both.answer(&mut encode(model), &call);
    assert_eq!(reply.number, errno.returned(), "{call:?}");
    let said = [layer + 1, rights];
    assert_eq!(reply.report[..2], said, "{call:?}");
    let past = &reply.report[call.reported_cells() as usize..];
    assert!(past.iter().all(|cell| *cell == UNWRITTEN), "{call:?}");
}

/// Any other answer reports zeros.
fn unnamed(model: &Model, call: Call, number: u64) {
    let reply = Both.answer(&mut encode(model), &call);
    assert_eq!(reply.number, number, "{call:?}");
    assert_eq!(reply.report[..2], [0, 0], "{call:?}");
}

#[test]
fn the_worked_cases_of_document_01() {
    let [a, b, c] = [4, 8452, 8484].map(with_cal);
    unnamed(&a, access(3, READ), 0);
    refused(&a, access(3, WRITE), EACCES, 0, WRITE);
    unnamed(&a, access(4, WRITE), 0);
    unnamed(&a, access(3, EXECUTE), 0);
    refused(&a, rename(4, 1, None), EACCES, 0, MAKE_REG);
    unnamed(&b, rename(4, 1, None), 0);
    refused(&b, rename(3, 2, None), EACCES, 0, REMOVE_FILE);
    refused(&c, rename(3, 2, None), EXDEV, 0, WRITE);
    unnamed(&b, link(4, 1), 5);

    let mut moved = b.clone();
    moved.rename(0, 4, 1, b"feed").unwrap();
    refused(&moved, access(4, WRITE), EACCES, 0, WRITE);
    let mut linked = b.clone();
    linked.link(0, 4, 1, b"feed").unwrap();
    refused(&linked, access(5, WRITE), EACCES, 0, WRITE);
    unnamed(&linked, access(4, WRITE), 0);

    let mut second = b.clone();
    restrict(&mut second, 0, WRITE, 0, &[]);
    unnamed(&second, access(4, READ), 0);
    refused(&second, access(4, WRITE), EACCES, 1, WRITE);
    refused(&second, rename(4, 1, None), EXDEV, 1, REFER);
    unnamed(&second, rename(4, 2, None), 0);
    let mut ports = b.clone();
    restrict(&mut ports, 0, 0, BIND, &[]);
    unnamed(&ports, rename(4, 1, None), 0);
    refused(&ports, rename(3, 2, None), EACCES, 0, REMOVE_FILE);
}

#[test]
fn all_rights_asked_for_that_the_layer_denies() {
    let a = with_cal(READ);
    refused(&a, access(1, 0xffff), EACCES, 0, HANDLED - READ);
    refused(&a, access(1, REFER | EXECUTE), EACCES, 0, REFER);
    refused(&a, access(0, HANDLED), EACCES, 0, HANDLED);
    let mut ports = a.clone();
    restrict(&mut ports, 0, 0, BIND | CONNECT, &[]);
    refused(&ports, port(80, BIND | CONNECT), EACCES, 1, BIND | CONNECT);
    refused(&ports, port(80, CONNECT), EACCES, 1, CONNECT);
    unnamed(&a, port(80, BIND), 0);
}

#[test]
fn the_needs_of_both_directories_without_refer() {
    let deny = under(&[(HANDLED | MAKE_DIR | REMOVE_DIR, &[])]);
    refused(&deny, create(1, REGULAR), EACCES, 0, MAKE_REG);
    refused(&deny, create(0, DIRECTORY), EACCES, 0, MAKE_DIR);
    refused(&deny, remove(3), EACCES, 0, REMOVE_FILE);
    refused(&deny, remove(1), EACCES, 0, REMOVE_DIR);
    refused(&deny, link(3, 2), EACCES, 0, MAKE_REG);
    refused(&deny, rename(3, 2, None), EACCES, 0, REMOVE_FILE | MAKE_REG);
    refused(&deny, rename(1, 2, None), EACCES, 0, REMOVE_DIR | MAKE_DIR);
    let mixed = REMOVE_DIR | MAKE_DIR | REMOVE_FILE;
    refused(&deny, rename(1, 2, Some("feed")), EACCES, 0, mixed);
    let all = REMOVE_FILE | MAKE_REG | REMOVE_DIR | MAKE_DIR;
    refused(&deny, exchange(3, 0, 2), EACCES, 0, all);
    // Removing is denied at the one, making at the other.
    let split = under(&[(REMOVE_FILE | MAKE_REG, &[(1, MAKE_REG), (2, REMOVE_FILE)])]);
    let both = REMOVE_FILE | MAKE_REG;
    refused(&split, rename(3, 2, None), EACCES, 0, both);
    refused(&split, rename(4, 1, None), EXDEV, 0, REFER);
    refused(&split, exchange(3, 2, 4), EACCES, 0, both);
}

#[test]
fn the_youngest_layer_whose_set_is_not_empty() {
    let wide = WRITE | READ | EXECUTE;
    let model = under(&[(wide, &[]), (READ, &[])]);
    refused(&model, access(3, WRITE | READ), EACCES, 1, READ);
    refused(
        &model,
        access(3, WRITE | EXECUTE),
        EACCES,
        0,
        WRITE | EXECUTE,
    );
    // Of three the one between has a set.
    let model = under(&[(WRITE, &[]), (WRITE | READ, &[(1, READ)]), (EXECUTE, &[])]);
    refused(&model, access(3, WRITE | READ), EACCES, 1, WRITE);
    // A denied REFER is no reason for EACCES, so an older layer is named.
    let model = under(&[(MAKE_REG, &[]), (EXECUTE, &[])]);
    refused(&model, rename(3, 2, None), EACCES, 0, MAKE_REG);
}

#[test]
fn the_youngest_by_the_chain_of_parents() {
    let mut model = tree();
    let [first, second] = [(); 2].map(|()| model.clone_thread(0).unwrap());
    restrict(&mut model, first, EXECUTE, 0, &[]);
    restrict(&mut model, second, WRITE | READ, 0, &[]);
    model.end_thread(first).unwrap();
    restrict(&mut model, second, READ, BIND, &[]);
    assert_eq!(model.domain(model.threads[&second].youngest), [0, 1]);
    model.end_thread(0).unwrap();
    assert_eq!(model.clone_thread(second), Ok(0));
    refused(&model, access(3, WRITE | READ), EACCES, 0, READ);
    refused(&model, access(3, WRITE), EACCES, 1, WRITE);
    refused(&model, port(80, BIND | CONNECT), EACCES, 0, BIND);
    refused(&model, link(3, 2), EXDEV, 0, REFER);
}

#[test]
fn refer_or_what_fails_containment() {
    let c: &[(u64, u64)] = &[(1, HANDLED - WRITE), (2, HANDLED)];
    let refer_above = under(&[(HANDLED, c), (EXECUTE, &[])]);
    refused(&refer_above, rename(3, 2, None), EXDEV, 1, REFER);
    let refer_below = under(&[(EXECUTE, &[]), (HANDLED, c)]);
    refused(&refer_below, rename(3, 2, None), EXDEV, 1, WRITE);
    refused(&refer_below, link(3, 2), EXDEV, 1, WRITE);
    refused(&refer_below, rename(4, 1, None), EXDEV, 0, REFER);
    // One layer denies REFER and containment fails in it: REFER alone.
    let both = under(&[(EXECUTE | WRITE, &[(2, WRITE)])]);
    refused(&both, rename(3, 2, None), EXDEV, 0, REFER);
    // REFER denied at one of the two directories is enough.
    let [at_source, at_target] = [1, 2]
        .map(|directory| under(&[(REFER | WRITE, &[(directory, REFER), (3 - directory, WRITE)])]));
    refused(&at_source, rename(3, 2, None), EXDEV, 0, REFER);
    refused(&at_target, rename(3, 2, None), EXDEV, 0, REFER);
    // A rule on the moved file itself takes a right out of the set.
    let own = under(&[(
        REFER | WRITE | READ,
        &[(1, REFER), (2, REFER | WRITE | READ), (3, WRITE)],
    )]);
    refused(&own, rename(3, 2, None), EXDEV, 0, READ);
    // Of a directory all rights count, of a file the file set.
    let wide = REFER | MAKE_DIR | WRITE;
    let held = under(&[(wide, &[(1, wide), (2, REFER | MAKE_DIR)])]);
    refused(&held, rename(4, 1, None), EXDEV, 0, WRITE);
}

#[test]
fn a_moved_directory_may_gain_any_right() {
    let mut model = tree();
    assert_eq!(model.create(0, 2, DIRECTORY, b"held"), Ok(5));
    let all = REFER | MAKE_DIR | REMOVE_DIR | READ | WRITE;
    let some = REFER | REMOVE_DIR | READ;
    restrict(&mut model, 0, all, 0, &[(1, all), (2, some)]);
    refused(&model, rename(5, 1, None), EXDEV, 0, MAKE_DIR | WRITE);
}

#[test]
fn both_moves_of_an_exchange() {
    let one = under(&[(HANDLED, &[(1, HANDLED - READ), (2, HANDLED - WRITE)])]);
    refused(&one, exchange(3, 2, 4), EXDEV, 0, READ | WRITE);
    refused(&one, rename(3, 2, None), EXDEV, 0, READ);
    refused(&one, rename(4, 1, None), EXDEV, 0, WRITE);
    // Each way in another layer.
    let two = under(&[
        (HANDLED, &[(1, HANDLED - READ), (2, HANDLED)]),
        (HANDLED, &[(1, HANDLED), (2, HANDLED - WRITE)]),
    ]);
    refused(&two, exchange(3, 2, 4), EXDEV, 1, WRITE);
    refused(&two, rename(3, 2, None), EXDEV, 0, READ);
    // The second way alone.
    let back = under(&[(HANDLED, &[(1, HANDLED), (2, HANDLED - WRITE)])]);
    refused(&back, exchange(3, 2, 4), EXDEV, 0, WRITE);
    unnamed(&back, rename(3, 2, None), 0);
}

#[test]
fn other_refusals_name_no_layer() {
    let deny = under(&[(0xffff, &[])]);
    let returned = Errno::returned;
    unnamed(&deny, access(9, READ), returned(ENOENT));
    unnamed(&deny, access(3, 0), returned(EINVAL));
    unnamed(&deny, port(65_536, BIND), returned(EINVAL));
    unnamed(&deny, create(3, REGULAR), returned(ENOTDIR));
    unnamed(&deny, remove(0), returned(EBUSY));
    unnamed(&deny, link(1, 2), returned(EPERM));
    unnamed(&deny, rename(1, 1, None), returned(EINVAL));
    unnamed(&deny, exchange(3, 2, 3), returned(EINVAL));
    // After the verdict.
    let grant = under(&[(EXECUTE, &[])]);
    unnamed(&grant, remove(1), returned(ENOTEMPTY));
    unnamed(&grant, rename(1, 0, Some("import")), returned(ENOTEMPTY));
    let mut unsound = encode(&deny);
    unsound.cells[0][0] = 7;
    for call in [access(3, READ), port(80, BIND), exchange(3, 2, 4)] {
        let reply = Both.answer(&mut unsound, &call);
        assert_eq!(reply.number, returned(EIO));
        assert_eq!(reply.report[..2], [0, 0]);
    }
}

/// How many entries' rules an access reads that is answered so.
fn reads(model: &Model, call: Call, number: u64, count: u64) {
    let reply = Both.answer(&mut encode(model), &call);
    assert_eq!(reply.number, number, "{call:?}");
    assert_eq!(reply.report[2..], [count, UNWRITTEN, UNWRITTEN], "{call:?}");
}

/// Directories 1 to 4, each in the one before, and a file 5 in the last: six entries with the root.
fn deep() -> Model {
    let mut model = Model::fresh(6);
    for directory in 0..4 {
        model.create(0, directory, DIRECTORY, b"below").unwrap();
    }
    model.create(0, 4, REGULAR, b"page").unwrap();
    model.set_no_new_privs(0).unwrap();
    model
}

#[test]
fn the_fewest_entries_that_leave_nothing_missing() {
    let mut model = deep();
    reads(&model, access(5, READ | WRITE), 0, 0);
    let rules = [(0, EXECUTE), (2, READ), (4, WRITE), (5, READ)];
    restrict(&mut model, 0, EXECUTE | WRITE | READ, 0, &rules);
    reads(&model, access(5, READ), 0, 1);
    reads(&model, access(5, WRITE), 0, 2);
    reads(&model, access(5, READ | WRITE), 0, 2);
    reads(&model, access(5, EXECUTE), 0, 6);
    reads(&model, access(5, READ | WRITE | EXECUTE), 0, 6);
    reads(&model, access(4, READ), 0, 3);
    reads(&model, access(2, READ), 0, 1);
    reads(&model, access(0, EXECUTE), 0, 1);
    // What the layer does not handle is not missing.
    reads(&model, access(4, REMOVE_FILE), 0, 0);
    reads(&model, access(4, WRITE | REMOVE_FILE), 0, 1);
    // Refused: all, from the entry to the root.
    let denied = EACCES.returned();
    reads(&model, access(1, READ), denied, 2);
    reads(&model, access(0, WRITE), denied, 1);
    reads(&model, access(4, REFER), denied, 5);
    reads(&model, access(4, WRITE | REFER), denied, 5);
    // Refused before the verdict: none.
    reads(&model, access(6, READ), ENOENT.returned(), 0);
    reads(&model, access(5, 0), EINVAL.returned(), 0);
    reads(&model, access(5, REFER), EINVAL.returned(), 0);
}

#[test]
fn the_most_that_a_layer_needs() {
    let mut model = deep();
    restrict(&mut model, 0, WRITE | READ, 0, &[(4, READ), (3, WRITE)]);
    restrict(&mut model, 0, READ | EXECUTE, 0, &[(5, EXECUTE), (1, READ)]);
    restrict(&mut model, 0, 0, BIND, &[]);
    reads(&model, access(5, WRITE), 0, 3);
    reads(&model, access(5, EXECUTE), 0, 1);
    reads(&model, access(5, READ), 0, 5);
    reads(&model, access(5, READ | WRITE | EXECUTE), 0, 5);
    reads(&model, access(5, WRITE | EXECUTE), 0, 3);
    reads(&model, access(2, READ), EACCES.returned(), 3);
    let mut other = deep();
    restrict(&mut other, 0, READ, 0, &[(1, READ)]);
    restrict(&mut other, 0, READ, 0, &[(5, READ)]);
    reads(&other, access(5, READ), 0, 5);
    // A layer that denies a right reads all, whatever suffices for another one.
    restrict(&mut other, 0, WRITE, 0, &[]);
    reads(&other, access(5, READ | WRITE), EACCES.returned(), 6);
    reads(&other, access(5, READ), 0, 5);
}

#[test]
fn other_calls_report_no_count() {
    let a = with_cal(READ);
    let calls = [
        port(80, BIND),
        create(2, REGULAR),
        remove(4),
        link(4, 2),
        rename(4, 2, None),
        exchange(4, 2, 4),
    ];
    for call in calls {
        let reply = Both.answer(&mut encode(&a), &call);
        assert_eq!(reply.report[2..], [UNWRITTEN; 3], "{call:?}");
    }
    let mut unsound = encode(&a);
    unsound.cells[0][0] = 7;
    let reply = Both.answer(&mut unsound, &access(3, READ));
    assert_eq!(reply.report, [0, 0, 0, UNWRITTEN, UNWRITTEN]);
}

#[test]
fn reports_of_any_length() {
    let a = with_cal(READ);
    let calls = [
        (access(3, WRITE), WRITE),
        (create(1, REGULAR), MAKE_REG),
        (remove(3), REMOVE_FILE),
        (link(4, 1), MAKE_REG),
        (rename(3, 2, None), REMOVE_FILE),
        (exchange(3, 2, 4), REMOVE_FILE | MAKE_REG),
    ];
    for (call, rights) in calls {
        let report = |length| {
            let call = call.clone().with_report(length);
            Both.answer(&mut encode(&a), &call).report
        };
        assert_eq!(report(0), []);
        assert_eq!(report(1), [1]);
        assert_eq!(report(2), [1, rights]);
        assert_eq!(report(4).last(), Some(&UNWRITTEN));
    }
}
