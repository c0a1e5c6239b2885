//! Tables at the limits: sound ones and what calls answer there, and ones just past a limit.

mod verdict;

use model::call::{Broker, Call, UNWRITTEN};
use model::proved::Both;
use model::refusal::Errno::{self, *};
use model::tables::Table::{self, *};
use model::tables::Tables;
use std::ops::Range;
use verdict::{fresh, sound, unsound};

const REGULAR: u64 = 1;
const DIRECTORY: u64 = 2;
/// The cells of a report, more than are said.
const REPORT: u64 = 5;
/// A rule's type.
const PORT: u64 = 2;
/// A mask or a rule's rights.
const BIND_TCP: u64 = 1;
const WRITE_FILE: u64 = 2;

/// Writes the first cells of rows.
fn write<const N: usize>(
    tables: &mut Tables,
    table: Table,
    rows: Range<u64>,
    row: impl Fn(u64) -> [u64; N],
) {
    for number in rows {
        let first = table.width() * number as usize;
        tables.of_mut(table)[first..first + N].copy_from_slice(&row(number));
    }
}

/// Tables with a cell written.
fn poked(mut tables: Tables, table: Table, row: usize, column: usize, value: u64) -> Tables {
    tables.of_mut(table)[table.width() * row + column] = value;
    tables
}

/// Both answer a call with a success.
fn succeeds(tables: &mut Tables, call: Call, number: u64) {
    assert_eq!(Both.answer(tables, &call).number, number, "{call:?}");
}

/// Both refuse a call and change no cell.
fn refused(tables: &Tables, call: Call, errno: Errno) {
    let number = Both::unchanging(tables, &call);
    assert_eq!(number, errno.returned(), "{call:?}");
}

/// Creates a file in the root.
fn create() -> Call {
    Call::Create {
        name: b"new".to_vec(),
        thread: 0,
        directory: 0,
        kind: REGULAR,
        report: REPORT,
    }
}

fn remove(entry: u64) -> Call {
    Call::Remove {
        thread: 0,
        entry,
        report: REPORT,
    }
}

/// Links an entry into the root.
fn link(source: u64) -> Call {
    Call::Link {
        name: b"new".to_vec(),
        thread: 0,
        source,
        directory: 0,
        report: REPORT,
    }
}

fn rename(source: u64, directory: u64) -> Call {
    Call::Rename {
        name: b"new".to_vec(),
        thread: 0,
        source,
        directory,
        report: REPORT,
    }
}

/// Opens a ruleset that handles BIND_TCP.
fn create_ruleset() -> Call {
    let bytes = [0, BIND_TCP].into_iter().flat_map(u64::to_le_bytes);
    Call::CreateRuleset {
        bytes: bytes.collect(),
        flags: 0,
    }
}

fn add_port_rule(ruleset: u64, port: u64) -> Call {
    Call::AddPortRule {
        ruleset,
        port,
        rights: BIND_TCP,
        flags: 0,
    }
}

fn restrict() -> Call {
    Call::Restrict {
        thread: 0,
        ruleset: 0,
        flags: 0,
    }
}

/// Lets thread 0 restrict itself, and opens ruleset 0.
fn ready_to_restrict(tables: &mut Tables) {
    succeeds(tables, Call::SetNoNewPrivs { thread: 0 }, 0);
    succeeds(tables, create_ruleset(), 0);
}

/// Writes an entry's name.
fn write_name(tables: &mut Tables, entry: u64, name: &[u8]) {
    let first = Names.width() * entry as usize;
    let row = &mut tables.names[first..first + Names.width()];
    row.fill(0);
    row[0] = name.len() as u8;
    row[1..=name.len()].copy_from_slice(name);
}

/// 1,023 entries beside the root, each named by its number, the counter after them.
fn full_tree(row: impl Fn(u64) -> [u64; 3]) -> Tables {
    let mut tables = poked(fresh(6), System, 0, 1, 1024);
    write(&mut tables, Entries, 1..1024, row);
    for entry in 1..1024 {
        write_name(&mut tables, entry, entry.to_string().as_bytes());
    }
    tables
}

#[test]
fn entries_1024() {
    let mut tables = full_tree(|number| [REGULAR, 0, number]);
    sound(&tables, "1,024 entries");
    refused(&tables, create(), ENOSPC);
    refused(&tables, link(1), ENOSPC);
    succeeds(&mut tables, remove(1023), 0);
    succeeds(&mut tables, create(), 1023);
    assert_eq!(tables.row(Entries, 1023), [REGULAR, 0, 1024]);
}

#[test]
fn hard_links_1023() {
    let linked = full_tree(|_| [REGULAR, 0, 1]);
    let counter = |value| poked(linked.clone(), System, 0, 1, value);
    unsound(&counter(1), "1,023 hard links, the counter at the object");
    let mut tables = counter(2);
    sound(&tables, "1,023 hard links");
    refused(&tables, link(1023), ENOSPC);
    succeeds(&mut tables, remove(1), 0);
    succeeds(&mut tables, link(1023), 1);
    assert_eq!(tables.row(Entries, 1), [REGULAR, 0, 1]);
}

#[test]
fn depth_1023() {
    let deep = full_tree(|number| [DIRECTORY, number - 1, number]);
    sound(&deep, "1,023 deep");
    refused(&deep, remove(1022), ENOTEMPTY);
    refused(&deep, rename(1, 1023), EINVAL);
    refused(&deep, rename(1023, 1023), EINVAL);
    let mut moved = deep.clone();
    succeeds(&mut moved, rename(1023, 0), 0);
    let mut expected = poked(deep.clone(), Entries, 1023, 1, 0);
    write_name(&mut expected, 1023, b"new");
    assert!(moved == expected);
    let ring = poked(deep.clone(), Entries, 1, 1, 1023);
    unsound(&ring, "a ring of 1,023");
    let linked = poked(deep, Entries, 1023, 2, 1);
    unsound(&linked, "the deepest entry of the first one's object");
}

/// A file, and the counter.
fn one_file(object: u64, counter: u64) -> Tables {
    let mut tables = poked(fresh(6), System, 0, 1, counter);
    write(&mut tables, Entries, 1..2, |_| [REGULAR, 0, object]);
    write_name(&mut tables, 1, b"one");
    tables
}

#[test]
fn object_numbers_end() {
    let end = 1 << 32;
    let mut tables = one_file(end - 1, end);
    sound(&tables, "object 4,294,967,295");
    refused(&tables, create(), ENOSPC);
    succeeds(&mut tables, link(1), 2);
    assert_eq!(tables.row(Entries, 2), [REGULAR, 0, end - 1]);
    unsound(&one_file(end, end), "object 4,294,967,296");
    unsound(&one_file(1, end + 1), "counter 4,294,967,297");
    let mut before = poked(fresh(6), System, 0, 1, end - 1);
    succeeds(&mut before, create(), 1);
    let mut expected = one_file(end - 1, end);
    write_name(&mut expected, 1, b"new");
    assert!(before == expected);
}

fn lookup(path: &[u8]) -> Call {
    let path = path.to_vec();
    Call::Lookup { path }
}

/// All of one name, each in the one before.
#[test]
fn paths_4095() {
    let mut deep = full_tree(|number| [DIRECTORY, number - 1, number]);
    (1..1024).for_each(|entry| write_name(&mut deep, entry, b"abc"));
    sound(&deep, "1,023 of one name, each in the one before");
    let path = b"/abc".repeat(1023);
    assert_eq!(Both::unchanging(&deep, &lookup(&path)), 1023);
    let longest = [&path[..], b"///"].concat();
    assert_eq!(longest.len(), 4095);
    assert_eq!(Both::unchanging(&deep, &lookup(&longest)), 1023);
    refused(&deep, lookup(&[&path[..], b"////"].concat()), ENAMETOOLONG);
    refused(&deep, lookup(&[&path[..], b"/ab"].concat()), ENOENT);
    refused(&deep, lookup(&[&path[..], b"/abc"].concat()), ENAMETOOLONG);
    refused(&deep, lookup(&longest[1..]), EINVAL);
    let up = [&path[..], b"/.."].concat();
    assert_eq!(Both::unchanging(&deep, &lookup(&up)), 1022);
    refused(&deep, lookup(&[b'a'; 4096]), ENAMETOOLONG);
    refused(&deep, lookup(&[0; 4096]), ENAMETOOLONG);
    refused(&deep, lookup(&[b'a'; 4095]), EINVAL);
    let zero_last = [&path[..], b"//\0"].concat();
    refused(&deep, lookup(&zero_last), EINVAL);
    assert_eq!(Both::unchanging(&deep, &lookup(&b"/..".repeat(1365))), 0);
}

/// All in the root, with names that differ in the last of 48 bytes.
#[test]
fn names_48() {
    let mut tables = full_tree(|number| [REGULAR, 0, number]);
    let name = |entry: u64| [&[b'n'; 44][..], format!("{entry:04}").as_bytes()].concat();
    (1..1024).for_each(|entry| write_name(&mut tables, entry, &name(entry)));
    sound(&tables, "1,023 names of 48 bytes");
    for entry in [1, 2, 512, 1023] {
        let path = [b"/", &name(entry)[..]].concat();
        assert_eq!(Both::unchanging(&tables, &lookup(&path)), entry);
        refused(&tables, lookup(&path[..48]), ENOENT);
        refused(&tables, lookup(&[&path[..], b"n"].concat()), ENAMETOOLONG);
        refused(&tables, lookup(&[&path[..], b"/"].concat()), ENOTDIR);
    }
    let to = |entry: u64| Call::Rename {
        name: name(entry),
        thread: 0,
        source: 1,
        directory: 0,
        report: REPORT,
    };
    assert_eq!(Both::unchanging(&tables, &to(1)), 0);
    succeeds(&mut tables, to(1023), 0);
    assert_eq!(tables.row(Entries, 1023), [0, 0, 0]);
    assert_eq!(tables.name_row(1023), [0; 49]);
    assert_eq!(tables.name_row(1)[1..], name(1023));
    write_name(&mut tables, 2, &name(3));
    unsound(&tables, "the second entry by the third one's name");
}

/// The names table of other lengths: without the length bytes, of longer names.
#[test]
fn names_of_another_length() {
    for length in [48 * 1024, 50 * 1024, 49 * 1023, 49 * 1025] {
        let mut tables = fresh(6);
        tables.resize(Names, length);
        unsound(&tables, "names of another length");
    }
}

#[test]
fn rulesets_16_the_last_of_64_rules() {
    let mut tables = fresh(6);
    write(&mut tables, Rulesets, 0..16, |_| [0, BIND_TCP]);
    tables = poked(tables, Rulesets, 15, 3, 64);
    let rules: Vec<u64> = (0..64).flat_map(|port| [PORT, port, BIND_TCP]).collect();
    tables.of_mut(Rulesets)[Rulesets.width() * 15 + 4..].copy_from_slice(&rules);
    sound(&tables, "16 rulesets, the last of 64 rules");
    refused(&tables, create_ruleset(), EMFILE);
    refused(&tables, add_port_rule(15, 64), E2BIG);
    assert_eq!(Both::unchanging(&tables, &add_port_rule(15, 63)), 0);
    let twice = poked(tables, Rulesets, 15, 4 + 3 * 63 + 1, 0);
    unsound(&twice, "the 64th rule for the first one's port");
}

/// Threads with chains of layers, given as the first record of each and the one after its last; the
/// last of a chain is its thread's youngest.
fn chains(chains: &[(u64, u64)]) -> Tables {
    let mut tables = fresh(6);
    for (thread, (first, end)) in (0..).zip(chains.iter().copied()) {
        let parent = |number| if number == first { 0 } else { number };
        write(&mut tables, Layers, first..end, |number| {
            [parent(number), WRITE_FILE, 0, 0, 0, 0, 1]
        });
        write(&mut tables, Threads, thread..thread + 1, |_| [1, end]);
        tables.of_mut(System)[2] += end - first;
    }
    tables
}

#[test]
fn layers_256() {
    let mut tables = chains(&[(0, 64), (64, 128), (128, 192), (192, 255)]);
    sound(&tables, "255 layers");
    let mut full = chains(&[(0, 63), (64, 128), (128, 192), (192, 256), (63, 64)]);
    sound(&full, "256 layers");
    for count in [255, 257] {
        let counted = poked(full.clone(), System, 0, 2, count);
        unsound(&counted, "256 layers, another number of them counted");
    }
    ready_to_restrict(&mut full);
    refused(&full, restrict(), ENOMEM);
    ready_to_restrict(&mut tables);
    refused(&tables, restrict(), E2BIG);
    succeeds(&mut tables, Call::End { thread: 1 }, 0);
    succeeds(&mut tables, Call::Clone { thread: 3 }, 1);
    let mut marked = poked(tables, Threads, 1, 2, 1);
    let restrict = Call::Restrict {
        thread: 1,
        ruleset: 0,
        flags: 0,
    };
    succeeds(&mut marked, restrict, 0);
    assert_eq!(marked.row(Threads, 1), [1, 65, 1, 0]);
    assert_eq!(marked.row(Layers, 64), [255, 0, BIND_TCP, 0, 0, 0, 1]);
    assert_eq!(marked.row(Layers, 254)[6], 2);
    assert_eq!(Both::unchanging(&marked, &rules_of(64)), 0);
    refused(&marked, rules_of(65), EBADF);
}

/// The last record free, and the first.
#[test]
fn the_only_free_record() {
    for free in [255, 0] {
        let other = 255 - free;
        let mut tables = chains(&[
            (1, 64),
            (64, 128),
            (128, 192),
            (192, 255),
            (other, other + 1),
        ]);
        ready_to_restrict(&mut tables);
        succeeds(&mut tables, restrict(), 0);
        assert_eq!(tables.row(Threads, 0), [1, free + 1, 1, 0]);
        assert_eq!(tables.of(System)[2], 256);
        let mut next = tables.clone();
        succeeds(&mut next, Call::End { thread: 4 }, 0);
        succeeds(&mut next, Call::Clone { thread: 0 }, 4);
        refused(&tables, restrict(), E2BIG);
        assert_eq!(next.row(Layers, free as usize)[6], 2);
    }
}

/// The layers table as it was before there were 256 layers.
#[test]
fn layers_of_the_old_length() {
    let mut tables = fresh(6);
    tables.of_mut(Layers).truncate(Layers.width() * 64);
    unsound(&tables, "64 layer records");
    tables.of_mut(Layers).resize(6 * 256, 0);
    unsound(&tables, "256 layer records of 6 cells");
}

fn rules_of(layer: u64) -> Call {
    Call::LayerRules { layer, report: 0 }
}

/// A domain of 16 layers of 64 rules, each rule for a port of its own.
fn full_pool() -> Tables {
    let mut tables = fresh(6);
    write(&mut tables, System, 0..1, |_| [6, 1, 16, 1024]);
    write(&mut tables, Layers, 0..16, |number| {
        [number, 0, BIND_TCP, 0, 64 * number, 64, 1]
    });
    write(&mut tables, Pool, 0..1024, |number| {
        [PORT, number, BIND_TCP]
    });
    poked(tables, Threads, 0, 1, 16)
}

#[test]
fn pool_full() {
    let mut tables = full_pool();
    sound(&tables, "a full pool");
    ready_to_restrict(&mut tables);
    let mut without_rules = tables.clone();
    succeeds(&mut without_rules, restrict(), 0);
    succeeds(&mut tables, add_port_rule(0, 80), 0);
    refused(&tables, restrict(), ENOMEM);
}

#[test]
fn reports_of_any_length() {
    let report = |layer, report| {
        let call = Call::LayerRules { layer, report };
        Both.answer(&mut full_pool(), &call).report
    };
    assert_eq!(report(15, 0), []);
    assert_eq!(report(15, 1), [3 * 960]);
    assert_eq!(report(15, 2), [3 * 960, 3 * 64]);
    assert_eq!(report(15, 3), [3 * 960, 3 * 64, UNWRITTEN]);
    assert_eq!(report(16, 1), [0]);
    assert_eq!(report(16, 4), [0, 0, UNWRITTEN, UNWRITTEN]);
}

#[test]
fn overlaps_at_the_end_of_the_pool() {
    let run = |layer, first| poked(full_pool(), Layers, layer, 4, first);
    unsound(&run(15, 959), "the last run one rule early");
    unsound(&run(15, 961), "the last run one rule late");
    unsound(&run(14, 897), "the run before the last one rule late");
    unsound(&run(0, 960), "the first run on the last one");
    let moved = run(15, 0);
    unsound(&moved, "the last run on the first one");
    sound(
        &poked(moved, Layers, 0, 4, 960),
        "the first run and the last one the other way round",
    );
    let short = poked(run(15, 1023), Layers, 15, 5, 1);
    unsound(&short, "a last run of the last rule alone");
}

/// The runs of a full pool are given back one after the other, the first ones first.
#[test]
fn a_full_pool_comes_back() {
    let mut tables = full_pool();
    ready_to_restrict(&mut tables);
    succeeds(&mut tables, add_port_rule(0, 80), 0);
    write(&mut tables, Threads, 1..2, |_| [1, 8, 1, 0]);
    tables = poked(tables, Layers, 7, 6, 2);
    refused(&tables, restrict(), ENOMEM);
    succeeds(&mut tables, Call::End { thread: 0 }, 0);
    assert_eq!(tables.of(System), [6, 1, 8, 512]);
    let on_1 = Call::Restrict {
        thread: 1,
        ruleset: 0,
        flags: 0,
    };
    for number in 8..64 {
        succeeds(&mut tables, on_1.clone(), 0);
        let row = [number, 0, BIND_TCP, 0, 504 + number, 1, 1];
        assert_eq!(tables.row(Layers, number as usize), row);
    }
    refused(&tables, on_1, E2BIG);
    assert_eq!(tables.of(System), [6, 1, 64, 568]);
}

#[test]
fn layers_to_a_domain() {
    let mut full = chains(&[(0, 64)]);
    sound(&full, "64 layers to a domain");
    unsound(&chains(&[(0, 65)]), "65 layers to a domain");
    ready_to_restrict(&mut full);
    refused(&full, restrict(), E2BIG);
    for layers in [15, 16, 62, 63] {
        let mut room = chains(&[(0, layers)]);
        ready_to_restrict(&mut room);
        succeeds(&mut room, restrict(), 0);
        assert_eq!(room.row(Threads, 0), [1, layers + 1, 1, 0]);
    }
}

/// A layer that is too deep on layers that are not.
#[test]
fn layers_below_a_domain() {
    let deep = poked(chains(&[(0, 64), (64, 80)]), Layers, 64, 0, 48);
    let deep = poked(deep, Layers, 47, 6, 2);
    sound(&deep, "48 layers and 16 on them");
    let deeper = poked(poked(deep, Layers, 47, 6, 1), Layers, 64, 0, 49);
    let deeper = poked(deeper, Layers, 48, 6, 2);
    unsound(&deeper, "49 layers and 16 on them");
}

#[test]
fn rings_of_layers() {
    let ring = poked(chains(&[(0, 4)]), Layers, 0, 0, 4);
    let ring = poked(ring, Layers, 3, 6, 2);
    unsound(&ring, "four layers in a ring, and a thread");
    let alone = poked(poked(ring, Layers, 3, 6, 1), Threads, 0, 1, 0);
    unsound(&alone, "four layers in a ring");
    let itself = poked(poked(chains(&[(0, 1)]), Layers, 0, 0, 1), Layers, 0, 6, 2);
    unsound(&itself, "a layer that is its own parent");
}
