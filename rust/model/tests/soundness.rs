//! Each clause of soundness broken alone in otherwise sound tables.

mod verdict;

use model::call::{Broker, Call};
use model::proved::Both;
use model::refusal::Errno;
use model::rights::Rights;
use model::sound::Unsound::{self, *};
use model::sound::{check, decode};
use model::start::start;
use model::state::{Layer, Model};
use model::tables::Table::{self, *};
use model::tables::{encode, Tables};
use random::Random;

/// The cells of a row.
const RULESET: usize = Rulesets.width();
const LAYER: usize = Layers.width();

/// Tables with two directories, a file of two links, rules, three layers and a thread with two.
fn sample() -> Tables {
    let mut model = Model::fresh(6);
    let longest = [b'n'; 48];
    let entries: [(u64, u64, &[u8]); 3] = [(0, 2, b"one"), (1, 2, &longest), (2, 1, b"file")];
    for (directory, kind, name) in entries {
        model.create(0, directory, kind, name).unwrap();
    }
    model.link(0, 3, 1, b"file").unwrap();
    let fields = [Rights::ALL.without(Rights::REFER).0, 1, 0];
    let bytes: Vec<u8> = fields.into_iter().flat_map(u64::to_le_bytes).collect();
    model.create_ruleset(&bytes, 0).unwrap();
    model.set_admin(0, true).unwrap();
    model.restrict(0, 0, 0).unwrap();
    model.add_path_rule(0, 3, 4, 0).unwrap();
    model.add_port_rule(0, 80, 1, 0).unwrap();
    model.add_path_rule(0, 1, 8, 0).unwrap();
    model.restrict(0, 0, 0).unwrap();
    model.restrict(0, 0, 0).unwrap();
    encode(&model)
}

/// The sample with cells written.
fn written(pokes: &[(Table, usize, u64)]) -> Tables {
    let mut tables = sample();
    for (table, cell, value) in pokes {
        tables.poke(*table, *cell, *value);
    }
    tables
}

/// Writing the cells breaks the clause.
fn broken(clause: Unsound, pokes: &[(Table, usize, u64)]) {
    let tables = written(pokes);
    let case = format!("{clause:?} {pokes:?}");
    assert_eq!(check(&tables).err(), Some(clause), "{case}");
    verdict::unsound(&tables, &case);
}

/// Writing the cells leaves the tables sound.
fn harmless(pokes: &[(Table, usize, u64)]) {
    verdict::sound(&written(pokes), &format!("{pokes:?}"));
}

#[test]
fn the_sample_is_sound() {
    harmless(&[]);
}

#[test]
fn counters() {
    broken(Level, &[(System, 0, 7)]);
    broken(ObjectCounter, &[(System, 1, 0)]);
    broken(ObjectCounter, &[(System, 1, (1 << 32) + 1)]);
    for layers in [0, 2, 4, 257, u64::MAX] {
        broken(LayersUsed, &[(System, 2, layers)]);
    }
    broken(PoolCounter, &[(System, 3, 1025)]);
    broken(RunNotInPool, &[(System, 3, 5)]);
    broken(PoolNotFilled, &[(System, 3, 7)]);
    broken(PoolNotFilled, &[(System, 3, 1024)]);
    harmless(&[(System, 1, 1 << 32)]);
}

#[test]
fn tree() {
    broken(Root, &[(Entries, 1, 1)]);
    broken(Root, &[(Entries, 2, 4)]);
    broken(Unsound::Kind, &[(Entries, 3 * 3, 8)]);
    broken(FreeEntry, &[(Entries, 3 * 9 + 1, 1)]);
    broken(ParentNotLive, &[(Entries, 3 * 3 + 1, 9)]);
    broken(ParentNotLive, &[(Entries, 3 * 3 + 1, 1 << 63)]);
    broken(ParentNotDirectory, &[(Entries, 3 * 4 + 1, 3)]);
    broken(NotBelowRoot, &[(Entries, 3 + 1, 1)]);
    broken(NotBelowRoot, &[(Entries, 3 + 1, 2)]);
    broken(ObjectNotBelowCounter, &[(Entries, 3 * 3 + 2, 4)]);
    broken(LinksOfTwoKinds, &[(Entries, 3 * 4, 5)]);
    broken(LinkedDirectory, &[(Entries, 3 * 2 + 2, 1)]);
    broken(LinkedDirectory, &[(Entries, 3 * 2 + 2, 0)]);
}

/// The byte of a name's row.
fn of_name(entry: usize, column: usize, value: u8) -> (Table, usize, u64) {
    (Names, Names.width() * entry + column, value.into())
}

#[test]
fn names() {
    broken(NamedRoot, &[of_name(0, 0, 1)]);
    broken(NamedRoot, &[of_name(0, 48, 1)]);
    broken(NamedRoot, &[of_name(0, 0, 1), of_name(0, 1, b'/')]);
    for entry in [5, 1023] {
        broken(NameOfFreeEntry, &[of_name(entry, 0, 1)]);
        broken(
            NameOfFreeEntry,
            &[of_name(entry, 0, 1), of_name(entry, 1, b'a')],
        );
        broken(NameOfFreeEntry, &[of_name(entry, 48, 255)]);
    }
    for length in [0, 49, 50, 255] {
        broken(NameLength, &[of_name(1, 0, length)]);
        broken(NameLength, &[of_name(2, 0, length)]);
    }
    broken(NamePadding, &[of_name(1, 0, 2)]);
    broken(NamePadding, &[of_name(1, 4, b'a')]);
    broken(NamePadding, &[of_name(1, 48, 1)]);
    broken(NamePadding, &[of_name(2, 0, 47)]);
    broken(NameWithZero, &[of_name(1, 0, 4)]);
    for column in [1, 2, 3] {
        broken(NameWithZero, &[of_name(1, column, 0)]);
        broken(NameWithSlash, &[of_name(1, column, b'/')]);
    }
    broken(NameWithZero, &[of_name(2, 48, 0)]);
    broken(NameWithSlash, &[of_name(2, 48, b'/')]);
    let named = |length, bytes: [u8; 3]| {
        let bytes = bytes.into_iter().zip(1..);
        let bytes = bytes.map(|(byte, column)| of_name(1, column, byte));
        bytes.chain([of_name(1, 0, length)]).collect::<Vec<_>>()
    };
    broken(NameOfDots, &named(1, *b".\0\0"));
    broken(NameOfDots, &named(2, *b"..\0"));
    harmless(&named(3, *b"..."));
    harmless(&named(2, *b".a\0"));
    harmless(&named(1, [255, 0, 0]));
    harmless(&named(3, [1, 2, 3]));
}

/// Entry 4 "file" of directory 1 gets the name of entry 2 of that directory; 3 "file" is in 2.
#[test]
fn names_of_a_directory() {
    let copied = |to: usize, from: u8| {
        let cells = [(0, 48), (48, from)];
        let name = (1..48).map(|column| (column, b'n'));
        let cells = cells.into_iter().chain(name);
        cells.map(move |(column, value)| of_name(to, column, value))
    };
    broken(NameTwice, &copied(4, b'n').collect::<Vec<_>>());
    harmless(&copied(4, b'm').collect::<Vec<_>>());
    harmless(&copied(1, b'n').collect::<Vec<_>>());
    harmless(&copied(3, b'n').collect::<Vec<_>>());
    // In one directory, both are "file".
    broken(NameTwice, &[(Entries, 3 * 3 + 1, 1)]);
}

#[test]
fn rulesets() {
    broken(ClosedRuleset, &[(Rulesets, RULESET + 3, 1)]);
    broken(ClosedRuleset, &[(Rulesets, 2 * RULESET - 1, 1)]);
    broken(MasksNotOfLevel, &[(Rulesets, 0, 1 << 16)]);
    broken(MasksNotOfLevel, &[(Rulesets, 1, 5)]);
    broken(MasksNotOfLevel, &[(Rulesets, 2, 4)]);
    broken(TooManyRules, &[(Rulesets, 3, 65)]);
    broken(FreeRule, &[(Rulesets, 4 + 3 * 3 + 1, 1)]);
    broken(RuleGrantsNothing, &[(Rulesets, 3, 4)]);
    harmless(&[(Rulesets, 2, 3)]);
}

#[test]
fn rules() {
    broken(RuleType, &[(Rulesets, 4, 3)]);
    broken(RuleObject, &[(Rulesets, 5, 4)]);
    broken(RulePort, &[(Rulesets, 8, 65_536)]);
    broken(RuleGrantsNothing, &[(Rulesets, 6, 0)]);
    broken(RuleNotAsked, &[(Rulesets, 9, 2)]);
    broken(RuleNotAsked, &[(Rulesets, 12, 1 << 13)]);
    broken(RuleTwice, &[(Rulesets, 5, 1)]);
    broken(RuleNotForFile, &[(Rulesets, 6, 8)]);
    harmless(&[(Rulesets, 8, 3)]);
    harmless(&[(System, 1, 9), (Rulesets, 5, 8), (Rulesets, 6, 8)]);
}

/// The cell of a layer.
fn of_layer(layer: usize, column: usize, value: u64) -> (Table, usize, u64) {
    (Layers, LAYER * layer + column, value)
}

#[test]
fn layers() {
    broken(LayerHandlesNothing, &[(Layers, 1, 0), (Layers, 2, 0)]);
    broken(MasksNotOfLevel, &[(Layers, 3, 4)]);
    broken(FreeLayer, &[of_layer(3, 0, 1)]);
    broken(FreeLayer, &[of_layer(255, 5, 1)]);
    broken(FreeLayer, &[of_layer(2, 6, 0)]);
    broken(LayerParent, &[of_layer(1, 0, 4)]);
    broken(LayerParent, &[of_layer(1, 0, 257)]);
    broken(LayerParent, &[of_layer(1, 0, u64::MAX)]);
    broken(TooManyRules, &[of_layer(1, 5, 65)]);
    broken(RuleTwice, &[(Pool, 1, 1)]);
}

#[test]
fn runs() {
    broken(EmptyRunPlace, &[of_layer(0, 4, 1)]);
    broken(RunNotInPool, &[of_layer(2, 4, 4)]);
    broken(RunNotInPool, &[of_layer(2, 4, u64::MAX)]);
    broken(RunsOverlap, &[of_layer(2, 4, 1), of_layer(2, 5, 2)]);
    broken(PoolNotFilled, &[of_layer(2, 5, 2)]);
    broken(PoolNotFilled, &[of_layer(1, 5, 2)]);
    broken(PoolNotFilled, &[of_layer(1, 4, 1), of_layer(1, 5, 2)]);
    broken(FreePool, &[(Pool, 3 * 6 + 2, 1)]);
    broken(FreePool, &[(Pool, 3 * 1023, 1)]);
    broken(FreePool, &[(System, 3, 5), of_layer(2, 5, 2)]);
    // The runs of records 1 and 2 hold the same rules.
    harmless(&[of_layer(1, 4, 3), of_layer(2, 4, 0)]);
}

#[test]
fn holders() {
    for (layer, counts) in [(0, [2, 3, u64::MAX]), (1, [2, 3, 7]), (2, [2, 3, 256])] {
        for count in counts {
            broken(Holders, &[of_layer(layer, 6, count)]);
        }
    }
    let other = [1, 1, 0, 0, 0, 0, 1];
    let row = |layer, row: [u64; 7]| {
        let cells = row.into_iter().enumerate();
        cells.map(move |(column, value)| of_layer(layer, column, value))
    };
    let unreached: Vec<_> = row(9, other).chain([(System, 2, 4)]).collect();
    broken(Holders, &unreached);
    let uncounted = [(Threads, 4, 1), (Threads, 5, 10)];
    broken(YoungestLayer, &uncounted);
    let reached: Vec<_> = unreached.iter().copied().chain(uncounted).collect();
    broken(Holders, &reached);
    let counted: Vec<_> = reached.iter().copied().chain([of_layer(0, 6, 2)]).collect();
    harmless(&counted);
    let twice = [(Threads, 8, 1), (Threads, 9, 10), of_layer(9, 6, 2)];
    harmless(&counted.iter().copied().chain(twice).collect::<Vec<_>>());
}

/// Records in any order: a parent with a larger number, and free ones between them.
#[test]
fn any_records() {
    let mut model = decode(&sample()).unwrap();
    let moved = |layer: usize| [7, 200, 3][layer];
    let layers = std::mem::take(&mut model.layers);
    for (number, layer) in layers {
        let parent = layer.parent.map(moved);
        model
            .layers
            .insert(moved(number), Layer { parent, ..layer });
    }
    model.runs = model.runs.iter().map(|layer| moved(*layer)).collect();
    model.threads.get_mut(&0).unwrap().youngest = Some(3);
    verdict::sound(&encode(&model), "records 7, 200, 3");
    model.runs.reverse();
    verdict::sound(&encode(&model), "runs in the other order");
}

#[test]
fn threads() {
    broken(ThreadLive, &[(Threads, 0, 2)]);
    broken(FreeThread, &[(Threads, 4 * 7 + 3, 1)]);
    broken(YoungestLayer, &[(Threads, 1, 4)]);
    broken(YoungestLayer, &[(Threads, 1, 257)]);
    broken(Holders, &[(Threads, 1, 2)]);
    broken(Holders, &[(Threads, 1, 0)]);
    broken(
        Holders,
        &[(Threads, 0, 0), (Threads, 1, 0), (Threads, 3, 0)],
    );
    broken(Marks, &[(Threads, 2, 2)]);
    broken(Marks, &[(Threads, 3, 2)]);
    harmless(&[(Threads, 3, 0)]);
}

#[test]
fn no_thread() {
    let mut tables = verdict::fresh(6);
    tables.poke(Threads, 0, 0);
    verdict::sound(&tables, "no live thread");
}

#[test]
fn deep_domains() {
    let mut model = decode(&sample()).unwrap();
    let first = model.layers[&0].clone();
    model.layers.clear();
    model.runs.clear();
    for number in 0..65usize {
        let mut layer = first.clone();
        layer.parent = number.checked_sub(1);
        model.add_layer(number, layer);
        model.threads.get_mut(&0).unwrap().youngest = Some(number);
        let tables = encode(&model);
        match number {
            62 | 63 => verdict::sound(&tables, "a domain of 63 or 64"),
            64 => {
                assert_eq!(check(&tables).err(), Some(DomainTooDeep));
                verdict::unsound(&tables, "a domain of 65");
            }
            _ => {}
        }
    }
}

/// The sample with a table cut, or filled up with a value.
fn resized(table: Table, length: usize, value: u64) -> Tables {
    let mut tables = sample();
    let right = table.length();
    tables.resize(table, length);
    (right..length).for_each(|cell| tables.poke(table, cell, value));
    tables
}

#[test]
fn lengths_go_before_levels() {
    for table in Table::ALL {
        let right = table.length();
        let odd = [
            (0, 0),
            (right - 1, 0),
            (right + 1, 0),
            (right + 1, u64::MAX),
        ];
        for (length, value) in odd {
            let tables = resized(table, length, value);
            let case = format!("{} of {length} cells, then {value}", table.name());
            assert_eq!(check(&tables).err(), Some(Lengths), "{case}");
            verdict::unsound(&tables, &case);
            for level in [0, 6, 7, 1 << 63] {
                let number = Both::unchanging(&tables, &Call::Fresh { level });
                assert_eq!(number, Errno::EIO.returned(), "{case}, level {level}");
            }
        }
    }
}

#[test]
fn fresh_looks_at_lengths_alone() {
    let mut tables = sample();
    for cells in &mut tables.cells {
        cells.fill(u64::MAX);
    }
    tables.names.fill(u8::MAX);
    for level in [7, 1 << 63, u64::MAX] {
        for tables in [&tables, &sample()] {
            let number = Both::unchanging(tables, &Call::Fresh { level });
            assert_eq!(number, Errno::EINVAL.returned(), "level {level}");
        }
    }
    for level in 0..=6 {
        let mut tables = tables.clone();
        let reply = Both.answer(&mut tables, &Call::Fresh { level });
        assert_eq!(reply.number, 0);
        assert_eq!(tables, verdict::fresh(level));
        verdict::sound(&tables, &format!("fresh tables, level {level}"));
    }
}

#[test]
fn random_starts_are_sound() {
    let mut random = Random::new(7);
    for _ in 0..300 {
        let model = start(&mut random);
        let tables = encode(&model);
        assert_eq!(check(&tables), Ok(model));
        let number = Both::unchanging(&tables, &Call::CloseRuleset { ruleset: 16 });
        assert_eq!(number, Errno::EBADF.returned());
    }
}
