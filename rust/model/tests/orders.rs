//! Pairs of refusals that hold at once: the one that stands first in the order answers, and nothing
//! changes. The model is asked which refusal it is, the proved core for the number.

use model::call::{Broker, Call, UNWRITTEN};
use model::proved::Both;
use model::refusal::Refusal::{self, *};
use model::refusal::{returned, Answer};
use model::rights::{Masks, Rights};
use model::state::{
    Key, Model, Ruleset, Thread, MAX_DOMAIN, MAX_LAYERS, MAX_RULES, OBJECTS_END, POOL_PLACES,
};
use model::tables::encode;

const REGULAR: u64 = 1;
const DIRECTORY: u64 = 2;
/// The cells of a report, more than are said.
const REPORT: u64 = 5;

/// Directories 1 and 2, files 3 in 1 and 4 in 2, a directory 5 in 2 with a file 6, each named by its
/// number; a ruleset 0.
fn sample() -> Model {
    let mut model = Model::fresh(6);
    let places = [
        (0, DIRECTORY),
        (0, DIRECTORY),
        (1, REGULAR),
        (2, REGULAR),
        (2, DIRECTORY),
        (5, REGULAR),
    ];
    for (number, (directory, kind)) in (1..).zip(places) {
        model.create(0, directory, kind, &named(number)).unwrap();
    }
    open(&mut model, Rights::ALL);
    model.set_no_new_privs(0).unwrap();
    model
}

/// A number as a name.
fn named(number: u64) -> Vec<u8> {
    number.to_string().into_bytes()
}

/// What can't be a name, and why.
const BAD_NAMES: [(&[u8], Refusal); 10] = [
    (&[b'a'; 49], NameTooLong),
    (&[b'/'; 49], NameTooLong),
    (&[0; 256], NameTooLong),
    (b"", EmptyName),
    (b".", NameOfDots),
    (b"..", NameOfDots),
    (b"/", NameWithSlash),
    (b"a/", NameWithSlash),
    (b"\0", NameWithZero),
    (b"a\0", NameWithZero),
];

/// Opens a ruleset that handles file system rights and both network rights.
fn open(model: &mut Model, fs: Rights) -> u64 {
    let fields = [fs.0, 3, 0];
    let bytes: Vec<u8> = fields.into_iter().flat_map(u64::to_le_bytes).collect();
    model.create_ruleset(&bytes, 0).unwrap()
}

/// Gives thread 0 a layer that handles rights and grants none.
fn deny(model: &mut Model, fs: Rights) {
    let ruleset = open(model, fs);
    model.restrict(0, ruleset, 0).unwrap();
    model.close_ruleset(ruleset).unwrap();
}

/// The call has the answer, and everything stays as it was.
fn unchanged(model: &Model, call: Call, answer: Answer) {
    let mut after = model.clone();
    assert_eq!(after.answer(&call).0, answer, "{call:?}");
    assert_eq!(&after, model, "{call:?}");
    let number = Both::unchanging(&encode(model), &call);
    assert_eq!(number, returned(answer), "{call:?}");
}

fn refused(model: &Model, call: Call, refusal: Refusal) {
    unchanged(model, call, Err(refusal));
}

fn create_ruleset(bytes: &[u8], flags: u64) -> Call {
    let bytes = bytes.to_vec();
    Call::CreateRuleset { bytes, flags }
}

#[test]
fn create_ruleset_order() {
    let mut model = Model::fresh(6);
    refused(&Model::fresh(0), create_ruleset(&[], 1), Disabled);
    refused(&model, create_ruleset(&[0; 4097], 1), FlagsNotZero);
    refused(&model, create_ruleset(&[255; 4097], 0), AttributeTooLong);
    let mut bytes = [0; 25];
    bytes[7] = 1;
    bytes[24] = 1;
    refused(&model, create_ruleset(&bytes, 0), BytePastKnownSize);
    for _ in 0..16 {
        open(&mut model, Rights::EXECUTE);
    }
    refused(&model, create_ruleset(&bytes[..24], 0), UnknownBit);
    refused(&model, create_ruleset(&[0; 24], 0), NothingHandled);
    refused(
        &model,
        create_ruleset(&[1, 0, 0, 0, 0, 0, 0, 0], 0),
        NoFreeRuleset,
    );
}

#[test]
fn short_attributes_are_filled_with_zeros() {
    let mut model = Model::fresh(6);
    let mut bytes = [0; 17];
    bytes[8] = 3;
    bytes[16] = 1;
    model.create_ruleset(&bytes, 0).unwrap();
    let expected = Masks {
        fs: Rights::NONE,
        net: Rights::NETWORK,
        scope: Rights(1),
    };
    assert_eq!(model.rulesets[&0].masks, expected);
}

fn path_rule(ruleset: u64, entry: u64, rights: u64, flags: u64) -> Call {
    Call::AddPathRule {
        ruleset,
        entry,
        rights,
        flags,
    }
}

fn port_rule(ruleset: u64, port: u64, rights: u64, flags: u64) -> Call {
    Call::AddPortRule {
        ruleset,
        port,
        rights,
        flags,
    }
}

#[test]
fn path_rule_order() {
    let mut model = sample();
    let narrow = open(&mut model, Rights::READ_DIR);
    refused(&Model::fresh(0), path_rule(9, 99, 0, 1), Disabled);
    refused(&model, path_rule(9, 99, 0, 1), FlagsNotZero);
    refused(&model, path_rule(9, 99, 0, 0), RulesetNotOpen);
    refused(&model, path_rule(0, 99, 0, 0), NoRights);
    refused(&model, path_rule(narrow, 99, 8192, 0), RightsNotHandled);
    refused(&model, path_rule(narrow, 99, 8, 0), RuleEntryNotLive);
    fill(&mut model, narrow);
    refused(&model, path_rule(narrow, 3, 8, 0), RightsNotForFile);
    refused(&model, path_rule(narrow, 1, 8, 0), RulesetFull);
    refused(&model, path_rule(narrow, 0, 2, 0), RightsNotHandled);
    refused(&model, path_rule(narrow, 0, 8, 0), RulesetFull);
    refused(&model, path_rule(0, 99, 2, 0), RuleEntryNotLive);
    refused(&model, path_rule(0, 0, 2, 0), SweepingRule);
    fill(&mut model, 0);
    refused(&model, path_rule(0, 0, 2, 0), SweepingRule);
    refused(&model, path_rule(0, 1, 2, 0), RulesetFull);
}

/// Whether a rule on the root may not ask for a right alone, by its bit.
fn is_sweeping(bit: u64) -> bool {
    matches!(bit, 1 | 4..=14)
}

#[test]
fn a_rule_on_the_root_changes_nothing() {
    let mut model = sample();
    for bit in 0..16 {
        if is_sweeping(bit) {
            refused(&model, path_rule(0, 0, 1 << bit, 0), SweepingRule);
            refused(&model, path_rule(0, 0, 1 << bit | 4, 0), SweepingRule);
        } else {
            assert_eq!(model.add_path_rule(0, 0, 1 << bit, 0), Ok(0));
        }
    }
    refused(&model, path_rule(0, 0, 0xffff, 0), SweepingRule);
    assert_eq!(
        model.rulesets[&0].rules.granted(Key::Object(0)),
        Rights(0x800d)
    );
    assert_eq!(model.add_path_rule(0, 1, 0xffff, 0), Ok(0));
}

/// Tables with such a rule are sound and serve as before; the rule is neither joined nor added again.
#[test]
fn a_sweeping_rule_that_is_there_stays() {
    let mut model = sample();
    let rules = &mut model.rulesets.get_mut(&0).unwrap().rules;
    rules.add(Key::Object(0), Rights::ALL);
    refused(&model, path_rule(0, 0, 2, 0), SweepingRule);
    unchanged(&model, path_rule(0, 0, 4, 0), Ok(0));
    model.restrict(0, 0, 0).unwrap();
    let access = Call::Access {
        thread: 0,
        entry: 0,
        rights: 0xffff,
        report: REPORT,
    };
    unchanged(&model, access, Ok(0));
}

#[test]
fn port_rule_order() {
    let mut model = sample();
    refused(&Model::fresh(0), port_rule(9, 65_536, 0, 1), Disabled);
    refused(&model, port_rule(9, 65_536, 0, 1), FlagsNotZero);
    refused(&model, port_rule(9, 65_536, 0, 0), RulesetNotOpen);
    refused(&model, port_rule(0, 65_536, 0, 0), NoRights);
    refused(&model, port_rule(0, 65_536, 4, 0), RightsNotHandled);
    fill(&mut model, 0);
    refused(&model, port_rule(0, 65_536, 1, 0), PortOutOfRange);
    refused(&model, port_rule(0, 65_535, 1, 0), RulesetFull);
    assert_eq!(model.add_port_rule(0, 63, 2, 0), Ok(0));
    assert_eq!(model.rulesets[&0].rules.granted(Key::Port(63)), Rights(3));
}

/// Fills a ruleset with rules for ports 0 to 63.
fn fill(model: &mut Model, ruleset: u64) {
    for port in 0..64 {
        model.add_port_rule(ruleset, port, 1, 0).unwrap();
    }
}

fn restrict(thread: u64, ruleset: u64, flags: u64) -> Call {
    Call::Restrict {
        thread,
        ruleset,
        flags,
    }
}

/// Gives a thread so many layers of ruleset 0.
fn stack(model: &mut Model, thread: u64, layers: usize) {
    for _ in 0..layers {
        model.restrict(thread, 0, 0).unwrap();
    }
}

#[test]
fn restrict_order() {
    let mut model = sample();
    let unmarked = model.clone_thread(0).unwrap();
    model.threads.insert(unmarked, Thread::default());
    refused(&Model::fresh(0), restrict(8, 9, 1), ThreadNotLive);
    refused(&Model::fresh(0), restrict(0, 9, 1), Disabled);
    refused(&model, restrict(unmarked, 9, 1), NoMark);
    refused(&model, restrict(0, 9, 1), FlagsNotZero);
    stack(&mut model, 0, MAX_DOMAIN);
    refused(&model, restrict(0, 0, 0), DomainFull);
    refused(&model, restrict(0, 9, 0), RulesetNotOpen);
    model.set_admin(unmarked, true).unwrap();
    let [other, third, last] = [(); 3].map(|()| model.clone_thread(unmarked).unwrap());
    for thread in [other, third] {
        stack(&mut model, thread, MAX_DOMAIN);
    }
    stack(&mut model, last, MAX_DOMAIN - 1);
    model.restrict(unmarked, 0, 0).unwrap();
    assert_eq!(model.layers.len(), MAX_LAYERS);
    refused(&model, restrict(0, 0, 0), DomainFull);
    refused(&model, restrict(last, 9, 0), RulesetNotOpen);
    refused(&model, restrict(last, 0, 0), NoFreeLayer);
    model.end_thread(unmarked).unwrap();
    assert_eq!(model.restrict(last, 0, 0), Ok(0));
}

#[test]
fn the_pool_runs_full() {
    let mut model = sample();
    fill(&mut model, 0);
    stack(&mut model, 0, POOL_PLACES / MAX_RULES);
    refused(&model, restrict(0, 0, 0), PoolFull);
    deny(&mut model, Rights::EXECUTE);
    assert_eq!(model.layer_rules(16), Ok((0, 0)));
    // A full domain goes before the pool.
    let full = model.layers.len();
    let ruleset = open(&mut model, Rights::EXECUTE);
    for _ in full..MAX_DOMAIN {
        model.restrict(0, ruleset, 0).unwrap();
    }
    refused(&model, restrict(0, 0, 0), DomainFull);
}

#[test]
fn a_layer_keeps_its_rules() {
    let mut model = sample();
    model.add_path_rule(0, 1, 4, 0).unwrap();
    model.restrict(0, 0, 0).unwrap();
    model.add_path_rule(0, 2, 4, 0).unwrap();
    model.close_ruleset(0).unwrap();
    assert_eq!(model.layer_rules(0), Ok((0, 1)));
    assert_eq!(model.layer_rules(1), Err(LayerNotInUse));
    assert_eq!(model.layer_rules(u64::MAX), Err(LayerNotInUse));
}

#[test]
fn requests_order() {
    let mut model = sample();
    deny(&mut model, Rights::EXECUTE);
    let access = |thread, entry, rights| Call::Access {
        thread,
        entry,
        rights,
        report: REPORT,
    };
    refused(&model, access(8, 99, 0), ThreadNotLive);
    refused(&model, access(0, 99, 0), EntryNotLive);
    refused(&model, access(0, 3, 0), EmptyMask);
    refused(&model, access(0, 3, 1 << 16), UnknownBit);
    refused(&model, access(0, 3, 8 | 1), RightsNotForFile);
    refused(&model, access(0, 3, 1), AccessDenied);
    let port = |thread, port, rights| Call::Port {
        thread,
        port,
        rights,
        report: REPORT,
    };
    refused(&model, port(8, 65_536, 0), ThreadNotLive);
    refused(&model, port(0, 65_536, 0), PortOutOfRange);
    refused(&model, port(0, 80, 0), EmptyMask);
    refused(&model, port(0, 80, 4), UnknownBit);
    refused(&model, port(0, 80, 1), AccessDenied);
}

/// Creates files in directory 1 until no entry is free.
fn fill_tree(model: &mut Model) {
    for number in 100.. {
        if model.create(0, 1, REGULAR, &named(number)).is_err() {
            break;
        }
    }
    assert_eq!(model.entries.len(), 1024);
}

#[test]
fn create_order() {
    let create = |thread, directory, kind, name: &[u8]| Call::Create {
        name: name.to_vec(),
        thread,
        directory,
        kind,
        report: REPORT,
    };
    let mut model = sample();
    refused(&model, create(8, 99, 0, b""), ThreadNotLive);
    refused(&model, create(0, 99, 0, b""), EntryNotLive);
    refused(&model, create(0, 3, 0, &[b'a'; 49]), TargetNotDirectory);
    fill_tree(&mut model);
    let mut denied = model.clone();
    deny(&mut denied, Rights::MAKE_REG);
    for kind in [0, 8, 1 << 63] {
        for (name, refusal) in BAD_NAMES {
            refused(&denied, create(0, 1, kind, name), refusal);
        }
        refused(&denied, create(0, 1, kind, b"3"), NameTaken);
        refused(&model, create(0, 1, kind, b"new"), UnknownKind);
        refused(&denied, create(0, 1, kind, b"new"), UnknownKind);
    }
    refused(&denied, create(0, 1, REGULAR, b"3"), NameTaken);
    refused(&denied, create(0, 1, REGULAR, b"new"), AccessDenied);
    refused(&model, create(0, 1, REGULAR, b"4"), NoFreeEntry);
    model.remove(0, 3).unwrap();
    model.next_object = OBJECTS_END;
    refused(&model, create(0, 1, REGULAR, b"3"), NoObjectNumber);
    assert_eq!(model.link(0, 4, 1, b"3"), Ok(3));
}

#[test]
fn remove_order() {
    let remove = |thread, entry| Call::Remove {
        thread,
        entry,
        report: REPORT,
    };
    let mut model = sample();
    refused(&model, remove(8, 99), ThreadNotLive);
    refused(&model, remove(0, 99), EntryNotLive);
    refused(&model, remove(0, 5), DirectoryNotEmpty);
    deny(&mut model, Rights::REMOVE_DIR);
    refused(&model, remove(0, 0), RootNamed);
    refused(&model, remove(0, 5), AccessDenied);
    assert_eq!(model.remove(0, 3), Ok(0));
}

#[test]
fn link_order() {
    let link = |thread, source, directory, name: &[u8]| Call::Link {
        name: name.to_vec(),
        thread,
        source,
        directory,
        report: REPORT,
    };
    let mut model = sample();
    refused(&model, link(8, 99, 99, b""), ThreadNotLive);
    refused(&model, link(0, 0, 99, b""), EntryNotLive);
    refused(&model, link(0, 99, 0, b""), EntryNotLive);
    refused(&model, link(0, 0, 3, b""), RootNamed);
    refused(&model, link(0, 1, 3, b""), TargetNotDirectory);
    fill_tree(&mut model);
    refused(&model, link(0, 3, 1, b"new"), NoFreeEntry);
    let mut uneven = uneven(2);
    fill_tree(&mut uneven);
    refused(&uneven, link(0, 3, 2, b"new"), NotContained);
    deny(&mut model, Rights::NONE);
    refused(&model, link(0, 3, 2, b"new"), NoFreeEntry);
    deny(&mut model, Rights::EXECUTE);
    refused(&model, link(0, 3, 2, b"new"), ReferDenied);
    deny(&mut model, Rights::MAKE_REG);
    for (name, refusal) in BAD_NAMES {
        refused(&model, link(0, 1, 2, name), refusal);
    }
    refused(&model, link(0, 1, 2, b"4"), NameTaken);
    refused(&model, link(0, 1, 2, b"new"), LinkOfDirectory);
    refused(&model, link(0, 3, 2, b"4"), NameTaken);
    refused(&model, link(0, 3, 2, b"new"), AccessDenied);
}

fn rename(thread: u64, source: u64, directory: u64, name: &[u8]) -> Call {
    Call::Rename {
        name: name.to_vec(),
        thread,
        source,
        directory,
        report: REPORT,
    }
}

#[test]
fn rename_order() {
    let mut model = sample();
    refused(&model, rename(8, 99, 99, b""), ThreadNotLive);
    refused(&model, rename(0, 0, 99, b""), EntryNotLive);
    refused(&model, rename(0, 99, 0, b""), EntryNotLive);
    refused(&model, rename(0, 0, 3, b""), RootNamed);
    refused(&model, rename(0, 3, 4, b""), TargetNotDirectory);
    for (name, refusal) in BAD_NAMES {
        refused(&model, rename(0, 2, 5, name), refusal);
    }
    refused(&model, rename(0, 2, 5, b"6"), SourceAboveTarget);
    refused(&model, rename(0, 2, 2, b"new"), SourceAboveTarget);
    refused(&model, rename(0, 1, 2, b"4"), DirectoryOverFile);
    refused(&model, rename(0, 3, 2, b"5"), FileOverDirectory);
    refused(&model, rename(0, 6, 2, b"5"), FileOverDirectory);
    refused(&model, rename(0, 1, 2, b"5"), DirectoryNotEmpty);
    deny(&mut model, Rights::NONE);
    refused(&model, rename(0, 1, 2, b"4"), DirectoryOverFile);
    deny(&mut model, Rights::EXECUTE);
    refused(&model, rename(0, 1, 2, b"4"), ReferDenied);
    deny(&mut model, Rights::REMOVE_FILE);
    refused(&model, rename(0, 1, 2, b"4"), AccessDenied);
    refused(&model, rename(0, 1, 2, b"new"), ReferDenied);
    refused(&model, rename(0, 1, 1, b"new"), SourceAboveTarget);
    assert_eq!(model.rename(0, 1, 0, b"new"), Ok(0));
}

/// The name changes, in the same directory and in another one; a name elsewhere is no other's.
#[test]
fn rename_changes_the_name() {
    let mut model = sample();
    answered(&mut model, rename(0, 3, 1, b"new"), 0);
    assert_eq!(model.lookup(b"/1/new"), Ok(3));
    assert_eq!(model.lookup(b"/1/3"), Err(NoSuchName));
    answered(&mut model, rename(0, 3, 2, b"new"), 0);
    assert_eq!(model.lookup(b"/2/new"), Ok(3));
    assert_eq!(model.lookup(b"/1/new"), Err(NoSuchName));
    answered(&mut model, rename(0, 3, 5, b"4"), 0);
    assert_eq!(model.lookup(b"/2/4"), Ok(4));
    answered(&mut model, rename(0, 3, 2, b"4"), 0);
    assert_eq!(model.lookup(b"/2/4"), Ok(3));
    assert!(!model.entries.contains_key(&4));
    answered(&mut model, rename(0, 3, 2, &[b'n'; 48]), 0);
    refused(&model, rename(0, 3, 2, b"."), NameOfDots);
    answered(&mut model, rename(0, 3, 2, b"..."), 0);
    assert_eq!(model.lookup(b"/2/..."), Ok(3));
}

#[test]
fn rename_of_one_object_changes_nothing() {
    let mut model = sample();
    let link = model.link(0, 3, 2, b"link").unwrap();
    unchanged(&model, rename(0, 3, 2, b"link"), Ok(0));
    unchanged(&model, rename(0, link, 1, b"3"), Ok(0));
    unchanged(&model, rename(0, 3, 1, b"3"), Ok(0));
    unchanged(&model, exchange(0, 3, 2, link), Ok(0));
}

#[test]
fn rename_of_a_directory_in_use_over_itself_changes_nothing() {
    let mut model = sample();
    assert!(model.has_children(5));
    unchanged(&model, rename(0, 5, 2, b"5"), Ok(0));
    unchanged(&model, exchange(0, 5, 2, 5), Ok(0));
    deny(&mut model, Rights::REMOVE_DIR);
    refused(&model, rename(0, 5, 2, b"5"), AccessDenied);
    refused(&model, exchange(0, 5, 2, 5), AccessDenied);
}

#[test]
fn rename_replaces() {
    let mut model = sample();
    answered(&mut model, rename(0, 3, 2, b"4"), 0);
    assert_eq!(model.entries[&3].parent, 2);
    assert!(!model.entries.contains_key(&4));
    assert_eq!(model.create(0, 0, REGULAR, b"4"), Ok(4));
    assert_eq!(model.entries[&4].object, 7);
}

fn exchange(thread: u64, source: u64, directory: u64, entry: u64) -> Call {
    Call::Exchange {
        thread,
        source,
        directory,
        entry,
        report: REPORT,
    }
}

#[test]
fn exchange_order() {
    let mut model = sample();
    refused(&model, exchange(8, 99, 99, 99), ThreadNotLive);
    refused(&model, exchange(0, 0, 3, 99), EntryNotLive);
    refused(&model, exchange(0, 3, 4, 0), RootNamed);
    refused(&model, exchange(0, 2, 4, 5), TargetNotDirectory);
    refused(&model, exchange(0, 2, 5, 3), NotChildOfTarget);
    refused(&model, exchange(0, 2, 5, 6), SourceAboveTarget);
    deny(&mut model, Rights::REMOVE_FILE);
    refused(&model, exchange(0, 6, 2, 5), OtherAboveSource);
    refused(&model, exchange(0, 6, 0, 2), OtherAboveSource);
    refused(&model, exchange(0, 3, 2, 4), AccessDenied);
    assert_eq!(model.exchange(0, 1, 0, 2), Ok(0));
}

/// Names go with the places, within one directory too.
#[test]
fn exchange_swaps_names() {
    let mut model = sample();
    answered(&mut model, exchange(0, 3, 2, 5), 0);
    assert_eq!(model.lookup(b"/1/3"), Ok(5));
    assert_eq!(model.lookup(b"/2/5"), Ok(3));
    assert_eq!(model.lookup(b"/1/3/6"), Ok(6));
    answered(&mut model, exchange(0, 1, 0, 2), 0);
    assert_eq!(model.lookup(b"/1"), Ok(2));
    assert_eq!(model.lookup(b"/2/3/6"), Ok(6));
}

fn looked_up(model: &Model, path: &[u8], answer: Answer) {
    let path = path.to_vec();
    unchanged(model, Call::Lookup { path }, answer);
}

#[test]
fn lookup_order() {
    let mut model = sample();
    model.create(0, 5, 7, b"link").unwrap();
    model.create(0, 1, REGULAR, &[b'n'; 48]).unwrap();
    looked_up(&model, b"", Err(EmptyPath));
    looked_up(&model, &[0; 4096], Err(PathTooLong));
    looked_up(&model, b"1\0", Err(RelativePath));
    looked_up(&model, b"\0", Err(RelativePath));
    looked_up(&model, b"/none\0", Err(PathWithZero));
    looked_up(&model, b"/1/3/none/\0", Err(PathWithZero));
    let long = [b'n'; 49];
    let with = |parts: [&[u8]; 3]| parts.concat();
    looked_up(
        &model,
        &with([b"/1/3/", &long, b""]),
        Err(AfterNonDirectory),
    );
    looked_up(&model, &with([b"/none/", &long, b""]), Err(NoSuchName));
    looked_up(
        &model,
        &with([b"/", &long, b"/none"]),
        Err(ComponentTooLong),
    );
    looked_up(&model, &with([b"/1/", &long, b""]), Err(ComponentTooLong));
    looked_up(&model, &with([b"/1/", &long[1..], b""]), Ok(8));
    looked_up(&model, &with([b"/1/", &long[2..], b""]), Err(NoSuchName));
    for end in [&b"/."[..], b"/..", b"/none", b"//none", b"/./"] {
        looked_up(&model, &[b"/1/3", end].concat(), Err(AfterNonDirectory));
        looked_up(
            &model,
            &[b"/2/5/link", end].concat(),
            Err(AfterNonDirectory),
        );
    }
    for end in [&b"/"[..], b"//", b"///"] {
        looked_up(
            &model,
            &[b"/1/3", end].concat(),
            Err(SlashAfterNonDirectory),
        );
        looked_up(
            &model,
            &[b"/2/5/link", end].concat(),
            Err(SlashAfterNonDirectory),
        );
    }
}

#[test]
fn paths() {
    let mut model = sample();
    model.create(0, 5, 7, b"link").unwrap();
    for root in [
        &b"/"[..],
        b"//",
        b"/.",
        b"/..",
        b"/../../.",
        b"/2/5/../..",
        b"/./",
    ] {
        looked_up(&model, root, Ok(0));
    }
    for file in [
        &b"/2/5/6"[..],
        b"//2///5//6",
        b"/2/./5/6",
        b"/1/../2/5/6",
        b"/../2/5/../5/6",
    ] {
        looked_up(&model, file, Ok(6));
    }
    for directory in [
        &b"/2/5"[..],
        b"/2/5/",
        b"/2/5//",
        b"/2/5/.",
        b"/2/5/./",
        b"/2/5/../5/",
    ] {
        looked_up(&model, directory, Ok(5));
    }
    looked_up(&model, b"/2/5/link", Ok(7));
    looked_up(&model, b"/2/..", Ok(0));
    looked_up(&model, b"/2/3", Err(NoSuchName));
    looked_up(&model, b"/2/5/6/..", Err(AfterNonDirectory));
    looked_up(&model, b"/2/55", Err(NoSuchName));
    looked_up(&model, b"/2/", Ok(2));
    looked_up(&model, b"/...", Err(NoSuchName));
}

/// The component call: the start and the length it reports.
fn shown(path: &[u8], place: u64) -> [u64; 2] {
    let call = Call::Component {
        path: path.to_vec(),
        place,
        report: REPORT,
    };
    let mut unsound = encode(&sample());
    unsound.cells[0][0] = 7;
    let reply = Both.answer(&mut unsound, &call);
    assert_eq!(reply.number, 0);
    assert_eq!(reply.report[2..], [UNWRITTEN; 3]);
    [reply.report[0], reply.report[1]]
}

#[test]
fn components() {
    let path = b"//ab/c\0d//./..//e/";
    let expected = [(0..=2, [2, 2]), (3..=5, [5, 3]), (6..=10, [10, 1])];
    for (places, part) in expected {
        for place in places {
            assert_eq!(shown(path, place), part, "{place}");
        }
    }
    assert_eq!(shown(path, 11), [12, 2]);
    assert_eq!(shown(path, 13), [16, 1]);
    for place in [17, 18, 19, 4096, 1 << 32, u64::MAX] {
        assert_eq!(shown(path, place), [0, 0], "{place}");
    }
    assert_eq!(shown(b"", 0), [0, 0]);
    assert_eq!(shown(b"///", 0), [0, 0]);
    assert_eq!(shown(b"ab/c", 0), [0, 2]);
    assert_eq!(shown(b"ab/c", 1), [3, 1]);
    assert_eq!(shown(&[b'a'; 5000], 0), [0, 5000]);
    let long = [&b"/".repeat(70_000)[..], b"abc"].concat();
    assert_eq!(shown(&long, 5), [70_000, 3]);
}

/// A layer under which a directory grants more than the other one.
fn uneven(richer: u64) -> Model {
    let mut model = sample();
    let fs = Rights::REFER.join(Rights::EXECUTE);
    let ruleset = Ruleset {
        masks: Masks {
            fs,
            ..Masks::default()
        },
        ..Ruleset::default()
    };
    model.rulesets.insert(15, ruleset);
    for directory in [1, 2] {
        let rights = if directory == richer {
            fs
        } else {
            Rights::REFER
        };
        model.add_path_rule(15, directory, rights.0, 0).unwrap();
    }
    model.restrict(0, 15, 0).unwrap();
    model
}

#[test]
fn exchange_asks_both_containments() {
    refused(&uneven(2), exchange(0, 3, 2, 4), NotContained);
    refused(&uneven(1), exchange(0, 3, 2, 4), OtherNotContained);
    assert_eq!(uneven(1).rename(0, 3, 2, b"4"), Ok(0));
}

fn end(thread: u64) -> Call {
    Call::End { thread }
}

#[test]
fn end_order() {
    let mut model = sample();
    for thread in [1, 7, 8, u64::MAX] {
        refused(&model, end(thread), ThreadNotLive);
    }
    refused(&model, end(0), OnlyThread);
    refused(&Model::fresh(0), end(1), ThreadNotLive);
    refused(&Model::fresh(0), end(0), OnlyThread);
    model.clone_thread(0).unwrap();
    model.end_thread(0).unwrap();
    refused(&model, end(0), ThreadNotLive);
    refused(&model, end(1), OnlyThread);
    assert_eq!(model.clone_thread(1), Ok(0));
}

/// Both answer a call with this number and leave the same tables.
fn answered(model: &mut Model, call: Call, number: u64) {
    let mut tables = encode(model);
    assert_eq!(Both.answer(&mut tables, &call).number, number, "{call:?}");
    assert_eq!(model.answer(&call).0, Ok(number), "{call:?}");
    assert!(encode(model) == tables, "{call:?}");
}

/// Gives a thread a layer with so many rules, for ports from a number on.
fn layer_of(model: &mut Model, thread: u64, first: u64, rules: u64) {
    let ruleset = open(model, Rights::EXECUTE);
    for port in first..first + rules {
        model.add_port_rule(ruleset, port, 1, 0).unwrap();
    }
    answered(model, restrict(thread, ruleset, 0), 0);
    model.close_ruleset(ruleset).unwrap();
}

/// Threads 0, 1 and 2: a layer of all, one of 1 and 2, then one of each with the older thread's
/// rules after the younger one's.
fn family() -> Model {
    let mut model = sample();
    layer_of(&mut model, 0, 0, 3);
    answered(&mut model, Call::Clone { thread: 0 }, 1);
    layer_of(&mut model, 1, 10, 0);
    answered(&mut model, Call::Clone { thread: 1 }, 2);
    layer_of(&mut model, 2, 20, 2);
    layer_of(&mut model, 1, 30, 4);
    model
}

#[test]
fn a_layer_stays_while_another_thread_reaches_it() {
    let mut model = family();
    answered(&mut model, end(2), 0);
    assert_eq!(Vec::from_iter(model.layers.keys()), [&0, &1, &3]);
    assert_eq!(model.layer_rules(3), Ok((3, 4)));
    assert_eq!(model.layer_rules(2), Err(LayerNotInUse));
    assert_eq!(model.layer_rules(1), Ok((0, 0)));
    answered(&mut model, end(0), 0);
    assert_eq!(model.layers.len(), 3);
}

#[test]
fn a_chain_is_given_back() {
    let mut model = family();
    answered(&mut model, end(1), 0);
    assert_eq!(Vec::from_iter(model.layers.keys()), [&0, &1, &2]);
    answered(&mut model, end(2), 0);
    assert_eq!(Vec::from_iter(model.layers.keys()), [&0]);
    assert_eq!(model.pool_used(), 3);
}

#[test]
fn a_parent_may_have_a_larger_number() {
    let mut model = family();
    answered(&mut model, end(2), 0);
    layer_of(&mut model, 1, 40, 1);
    assert_eq!(model.threads[&1].youngest, Some(2));
    assert_eq!(model.layers[&2].parent, Some(3));
    assert_eq!(model.layer_rules(2), Ok((7, 1)));
    answered(&mut model, end(0), 0);
    answered(&mut model, Call::Clone { thread: 1 }, 0);
    answered(&mut model, end(1), 0);
    assert_eq!(model.domain(model.threads[&0].youngest), [2, 3, 1, 0]);
}

#[test]
fn runs_keep_their_order() {
    let mut model = family();
    answered(&mut model, end(2), 0);
    // Record 2 again: its rules now stand behind those of record 3.
    layer_of(&mut model, 0, 50, 5);
    assert_eq!(model.threads[&0].youngest, Some(2));
    assert_eq!(model.runs, [0, 3, 2]);
    answered(&mut model, end(1), 0);
    assert_eq!(model.runs, [0, 2]);
    assert_eq!(model.layer_rules(2), Ok((3, 5)));
}

#[test]
fn full_tables_have_room_after_an_end() {
    let mut model = sample();
    fill(&mut model, 0);
    model.clone_thread(0).unwrap();
    stack(&mut model, 0, POOL_PLACES / MAX_RULES);
    refused(&model, restrict(1, 0, 0), PoolFull);
    model.clone_thread(1).unwrap();
    answered(&mut model, end(0), 0);
    assert_eq!((model.layers.len(), model.pool_used()), (0, 0));
    stack(&mut model, 1, POOL_PLACES / MAX_RULES);
    refused(&model, restrict(2, 0, 0), PoolFull);
}

#[test]
fn threads_order() {
    let mut model = sample();
    refused(&model, Call::Clone { thread: 8 }, ThreadNotLive);
    refused(&model, Call::SetNoNewPrivs { thread: 7 }, ThreadNotLive);
    refused(&model, Call::SetAdmin { thread: 7, on: 0 }, ThreadNotLive);
    while model.clone_thread(0).is_ok() {}
    refused(&model, Call::Clone { thread: 0 }, NoFreeThread);
    assert_eq!(model.threads.len(), 8);
    assert!(model.threads.values().all(|thread| thread.no_new_privs));
}
