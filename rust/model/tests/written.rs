//! Request W12: policy files that are written. The answers are written down from the papers; the model and the proved core must
//! both give them.

use model::call::Broker;
use model::policy::files::{opening, path_rule, port_rule, worked_tree};
use model::policy::trees;
use model::policy::write::{cells_of, Writing, UNWRITTEN_BYTE};
use model::policy::Wanted;
use model::proved::Both;
use model::refusal::Errno::{self, *};
use model::sound::decode;
use model::state::Model;
use model::tables::{encode, Table, Tables};
use random::Random;

const READ: u64 = 1 << 2;
const WRITE: u64 = 1 << 1;
const DIRECTORY: u64 = 2;
const REGULAR: u64 = 1;
const NAME: usize = 48;

fn asked(tables: &Tables, ruleset: u64, name: &[u8], room: usize) -> (u64, Vec<u64>) {
    let writing = Writing {
        ruleset,
        name: name.to_vec(),
        room,
    };
    let reply = Both.write_policy(&mut tables.clone(), &writing);
    (reply.number, reply.report)
}

/// Both sides write these bytes, and leave the output behind them.
fn writes(model: &Model, ruleset: u64, name: &[u8], file: &[u8]) {
    let tables = encode(model);
    let length = file.len();
    for room in [length, length + 1, length + 70] {
        let mut out = file.to_vec();
        out.resize(room, UNWRITTEN_BYTE);
        let written = asked(&tables, ruleset, name, room);
        assert_eq!(written, (length as u64, cells_of(&out)));
    }
    for room in [0, length / 2, length - 1] {
        let unwritten = cells_of(&vec![UNWRITTEN_BYTE; room]);
        let refused = asked(&tables, ruleset, name, room);
        assert_eq!(refused, (ENOSPC.returned(), unwritten));
    }
}

/// Both sides refuse, with much room and with none, and leave the output.
fn refuses(model: &Model, ruleset: u64, name: &[u8], errno: Errno) {
    refuses_of(&encode(model), ruleset, name, errno);
}

fn refuses_of(tables: &Tables, ruleset: u64, name: &[u8], errno: Errno) {
    for room in [0, 40_000] {
        let unwritten = cells_of(&vec![UNWRITTEN_BYTE; room]);
        let refused = asked(tables, ruleset, name, room);
        assert_eq!(refused, (errno.returned(), unwritten));
    }
}

fn open(model: &mut Model, fs: u64, net: u64) -> u64 {
    let attribute = [fs, net, 0].map(u64::to_le_bytes).concat();
    model.create_ruleset(&attribute, 0).unwrap()
}

/// Adds a rule on a path.
fn add(model: &mut Model, ruleset: u64, path: &[u8], rights: u64) {
    let entry = model.lookup(path).unwrap();
    model.add_path_rule(ruleset, entry, rights, 0).unwrap();
}

fn create(model: &mut Model, directory: u64, kind: u64, name: &[u8]) -> u64 {
    model.create(0, directory, kind, name).unwrap()
}

#[test]
fn ruleset_a_of_document_01() {
    let mut model = worked_tree(6);
    let a = open(&mut model, 8486, 0);
    add(&mut model, a, b"/import", 8486);
    add(&mut model, a, b"/cal", 4);
    let mut file = vec![0x01, 0x01, 0x00, 0x70, 0x02, 0x18, 0x00, 0x26, 0x21];
    file.extend([0; 22]);
    file.extend([0x03, 0x0c, 0x00, 0x04]);
    file.extend([0; 7]);
    file.extend(b"/cal");
    file.extend([0x03, 0x0f, 0x00, 0x26, 0x21]);
    file.extend([0; 6]);
    file.extend(b"/import");
    assert_eq!(file.len(), 64);
    writes(&model, a, b"p", &file);
    file.splice(1..4, [&[32, 0][..], &[b'n'; 32]].concat());
    writes(&model, a, &[b'n'; 32], &file);
}

#[test]
fn the_order_of_rules() {
    let mut model = Model::fresh(6);
    let a = create(&mut model, 0, DIRECTORY, b"a");
    create(&mut model, 0, DIRECTORY, b"a-b");
    create(&mut model, a, REGULAR, b"b");
    create(&mut model, 0, REGULAR, b"a0");
    create(&mut model, 0, REGULAR, b"\x80");
    let ruleset = open(&mut model, READ | WRITE, 3);
    for port in [443, 65_535, 256, 80, 0] {
        model.add_port_rule(ruleset, port, 1, 0).unwrap();
    }
    for path in [&b"/\x80"[..], b"/a0", b"/a/b", b"/a-b", b"/a", b"/"] {
        add(&mut model, ruleset, path, READ);
    }
    model.add_port_rule(ruleset, 80, 2, 0).unwrap();
    let paths = [&b"/"[..], b"/a", b"/a-b", b"/a/b", b"/a0", b"/\x80"];
    let paths = paths.map(|path| path_rule(READ, path)).concat();
    let ports = [(0, 1), (80, 3), (256, 1), (443, 1), (65_535, 1)];
    let ports = ports.map(|(port, rights)| port_rule(rights, port)).concat();
    let opening = opening(b"order", [READ | WRITE, 3, 0]);
    writes(&model, ruleset, b"order", &[opening, paths, ports].concat());
}

#[test]
fn the_first_path_of_several() {
    let mut model = worked_tree(6);
    let ruleset = open(&mut model, READ, 0);
    add(&mut model, ruleset, b"/cal/table", READ);
    let written = |path: &[u8]| [opening(b"p", [READ, 0, 0]), path_rule(READ, path)].concat();
    writes(&model, ruleset, b"p", &written(b"/cal/table"));
    model.link(0, 3, 0, b"z").unwrap();
    writes(&model, ruleset, b"p", &written(b"/cal/table"));
    // A longer one goes first.
    model.link(0, 3, 1, b"a-much-longer-name").unwrap();
    writes(&model, ruleset, b"p", &written(b"/cal/a-much-longer-name"));
    // Entries whose directory is moved, too.
    model.rename(0, 1, 0, b"zz").unwrap();
    writes(&model, ruleset, b"p", &written(b"/z"));
    for path in [&b"/z"[..], b"/zz/a-much-longer-name", b"/zz/table"] {
        let entry = model.lookup(path).unwrap();
        model.remove(0, entry).unwrap();
    }
    refuses(&model, ruleset, b"p", ENOENT);
}

/// Directories in one another with names of 48 bytes; the last one.
fn chain(model: &mut Model, depth: usize) -> u64 {
    let name = [b'd'; NAME];
    (0..depth).fold(0, |parent, _| create(model, parent, DIRECTORY, &name))
}

#[test]
fn paths_about_the_longest() {
    let mut model = Model::fresh(6);
    let bottom = chain(&mut model, 83);
    let ruleset = open(&mut model, READ, 0);
    let file = create(&mut model, bottom, REGULAR, &[b'f'; 27]);
    model.add_path_rule(ruleset, file, READ, 0).unwrap();
    let path = [[&b"/"[..], &[b'd'; NAME]].concat().repeat(83), vec![b'/']].concat();
    let path = [path, vec![b'f'; 27]].concat();
    assert_eq!(path.len(), 4095);
    let written = |path: &[u8]| [opening(b"p", [READ, 0, 0]), path_rule(READ, path)].concat();
    writes(&model, ruleset, b"p", &written(&path));
    model.rename(0, file, bottom, &[b'f'; 28]).unwrap();
    refuses(&model, ruleset, b"p", ENAMETOOLONG);
    // A shorter one that is not the first does not help, one that is does.
    model.link(0, file, 0, b"e").unwrap();
    refuses(&model, ruleset, b"p", ENAMETOOLONG);
    model.link(0, file, 0, b"c").unwrap();
    writes(&model, ruleset, b"p", &written(b"/c"));
}

#[test]
fn files_about_the_longest() {
    let mut model = Model::fresh(6);
    let bottom = chain(&mut model, 83);
    let ruleset = open(&mut model, READ, 0);
    let mut file = opening(b"p", [READ, 0, 0]);
    let above = [&b"/"[..], &[b'd'; NAME]].concat();
    for number in 0..7 {
        let name = [&[b'1' + number], &[b'f'; 26][..]].concat();
        let made = create(&mut model, bottom, REGULAR, &name);
        model.add_path_rule(ruleset, made, READ, 0).unwrap();
        let path = [above.repeat(83), [b"/", &name[..]].concat()].concat();
        file.extend(path_rule(READ, &path));
    }
    let upper = model.lookup(&above.repeat(81)).unwrap();
    let last = create(&mut model, upper, REGULAR, &[b'e'; 14]);
    model.add_path_rule(ruleset, last, READ, 0).unwrap();
    file.extend(path_rule(
        READ,
        &[above.repeat(81), [b"/", &[b'e'; 14][..]].concat()].concat(),
    ));
    assert_eq!(file.len(), 32_768);
    writes(&model, ruleset, b"p", &file);
    refuses(&model, ruleset, b"pp", E2BIG);
    model.rename(0, last, upper, &[b'e'; 15]).unwrap();
    refuses(&model, ruleset, b"p", E2BIG);
}

#[test]
fn refusals_in_the_papers_order() {
    let mut model = Model::fresh(6);
    let bottom = chain(&mut model, 84);
    let ruleset = open(&mut model, READ | WRITE, 0);
    // Files that make it too long for a file, one path that is too long, one object without an entry, and a root rule.
    let upper = model
        .lookup(&[&b"/"[..], &[b'd'; NAME]].concat().repeat(80))
        .unwrap();
    for number in 0..9 {
        let made = create(&mut model, upper, REGULAR, &[b'1' + number]);
        model.add_path_rule(ruleset, made, READ, 0).unwrap();
    }
    refuses(&model, ruleset, b"p", E2BIG);
    model.add_path_rule(ruleset, bottom, READ, 0).unwrap();
    refuses(&model, ruleset, b"p", ENAMETOOLONG);
    let gone = create(&mut model, 0, REGULAR, b"gone");
    model.add_path_rule(ruleset, gone, READ, 0).unwrap();
    model.remove(0, gone).unwrap();
    refuses(&model, ruleset, b"p", ENOENT);
    model.add_path_rule(ruleset, 0, READ, 0).unwrap();
    refuses(&model, ruleset, b"p", ENOENT);
    let mut tables = encode(&model);
    // Cells of the root's rule, the twelfth: type, object, rights.
    assert_eq!(tables.cell(Table::Rulesets, 4 + 3 * 11 + 1), 0);
    tables.poke(Table::Rulesets, 4 + 3 * 11 + 2, READ | WRITE);
    refuses_of(&tables, ruleset, b"p", EPERM);
    for name in [&b""[..], &[b'n'; 33], &[b'n'; 300]] {
        refuses_of(&tables, ruleset, name, EINVAL);
        for other in [1, 15, 16, u64::MAX] {
            refuses_of(&tables, other, name, EBADF);
        }
    }
    tables.poke(Table::System, 0, 7);
    refuses_of(&tables, 16, b"", EIO);
    refuses(&Model::fresh(0), 16, b"", EOPNOTSUPP);
}

#[test]
fn each_right_that_the_root_may_not_have() {
    for bit in 0..16 {
        let mut model = Model::fresh(6);
        let ruleset = open(&mut model, 0xffff, 0);
        model.add_path_rule(ruleset, 0, READ, 0).unwrap();
        let mut tables = encode(&model);
        tables.poke(Table::Rulesets, 6, 1 << bit);
        // EXECUTE, READ_FILE, READ_DIR and IOCTL_DEV.
        if [0, 2, 3, 15].contains(&bit) {
            let file = [opening(b"p", [0xffff, 0, 0]), path_rule(1 << bit, b"/")].concat();
            let written = asked(&tables, ruleset, b"p", file.len());
            assert_eq!(written, (file.len() as u64, cells_of(&file)));
        } else {
            refuses_of(&tables, ruleset, b"p", EPERM);
        }
    }
}

#[test]
fn what_is_written_gives_the_ruleset_again() {
    let mut random = Random::new(3);
    let mut again = 0;
    for _ in 0..60 {
        let model = trees::tables(&mut random);
        for number in model.rulesets.keys() {
            let (length, out) = asked(&encode(&model), *number, b"p", 32_768);
            if length > 32_768 {
                continue;
            }
            let file = out[..length as usize].iter().map(|cell| *cell as u8);
            let wanted = Wanted {
                files: [Vec::new(), file.collect()],
                name: b"p".to_vec(),
                report: 3,
            };
            let mut tables = encode(&model);
            let reply = Both.apply_policy(&mut tables, &wanted);
            assert_eq!(reply.report, [1, 0, length]);
            let after = decode(&tables).unwrap();
            let [one, two] = [*number, reply.number].map(|number| {
                let ruleset = &after.rulesets[&number];
                let mut rules: Vec<_> = ruleset.rules.iter().collect();
                rules.sort_by_key(|(key, _)| *key);
                (ruleset.masks, rules)
            });
            assert_eq!(one, two);
            let (_, bytes) = asked(&tables, reply.number, b"p", 32_768);
            assert!(bytes == out);
            again += 1;
        }
    }
    assert!(again > 60, "{again}");
}
