//! No compiler compares the declarations of exports here with the proved ones.
use std::collections::BTreeMap;

const DECLARED: &str = include_str!("../src/lib.rs");
const PROVED: &str = include_str!("../../../crates/capi/src/lib.rt");

/// The proved exports without lifetimes, which say nothing of what is written.
fn proved_source() -> &'static str {
    PROVED.replace("<'a>", "").replace("&'a ", "&").leak()
}

/// Whether each table may be changed, by export.
type Changes = BTreeMap<&'static str, [bool; 7]>;

/// The exports that take no tables.
const TABLELESS: [&str; 3] = ["component(", "post(", "find_policy("];

fn takes_tables(row: &&str) -> bool {
    !TABLELESS.iter().any(|name| row.starts_with(name))
}

fn changes(name: &str, tables: impl Iterator<Item = bool>) -> (&str, [bool; 7]) {
    let tables: Vec<bool> = tables.collect();
    (name, tables.try_into().expect("seven tables"))
}

/// From `skein_restrict[mut const const mut mut mut const]`.
fn declared() -> Changes {
    let rows = DECLARED.split("skein_").skip(1);
    let with_tables = rows.filter(takes_tables);
    with_tables
        .map(|row| {
            let (name, rest) = row.split_once('[').unwrap();
            let (tables, _) = rest.split_once(']').unwrap();
            changes(name, tables.split(' ').map(|access| access == "mut"))
        })
        .collect()
}

/// From `fn skein_restrict(system: &mut [u64], entries: &[u64], ..`, one parameter to a line.
fn proved() -> Changes {
    const TABLES: [(&str, &str); 7] = [
        ("system", "u64"),
        ("entries", "u64"),
        ("rulesets", "u64"),
        ("layers", "u64"),
        ("pool", "u64"),
        ("threads", "u64"),
        ("names", "u8"),
    ];
    let exports = proved_source().split("extern \"C\" fn skein_").skip(1);
    let with_tables = exports.filter(takes_tables);
    with_tables
        .map(|export| {
            let (name, rest) = export.split_once("(\n").unwrap();
            let parameters = rest.lines().zip(TABLES).map(|(line, (table, cell))| {
                let line = line.trim();
                let changed = line == format!("{table}: &mut [{cell}],");
                assert!(
                    changed || line == format!("{table}: &[{cell}],"),
                    "{name}: {line}"
                );
                changed
            });
            changes(name, parameters)
        })
        .collect()
}

#[test]
fn tables_are_writable_exactly_where_the_proved_export_writes() {
    let (declared, proved) = (declared(), proved());
    assert_eq!(declared.len(), 26);
    for (name, tables) in declared {
        assert_eq!(proved.get(name), Some(&tables), "{name}");
    }
}

/// The parameters of an export that are the parts of a queue, each with whether it may be changed.
fn proved_queue(name: &str) -> Vec<(&str, bool)> {
    let export = proved_source().split("extern \"C\" fn skein_");
    let export = export.skip(1).find(|export| export.starts_with(name));
    let (parameters, _) = export.unwrap().split_once(") -> u64").unwrap();
    let parameters = parameters.lines().filter_map(|line| {
        let (part, kind) = line.trim().split_once(": ")?;
        let parts = ["requests", "states", "answers", "cursor"];
        parts
            .contains(&part)
            .then(|| (part, kind.starts_with("&mut ")))
    });
    parameters.collect()
}

#[test]
fn parts_of_a_queue_are_writable_exactly_where_the_proved_export_writes() {
    let (_, post) = DECLARED.split_once("fn skein_post(").unwrap();
    let (post, _) = post.split_once(") -> u64").unwrap();
    let (_, turn) = DECLARED.split_once("skein_turn[").unwrap();
    let (turn, _) = turn.split_once("\n}").unwrap();
    for (part, changed) in proved_queue("post(") {
        let pointer = if changed { "*mut" } else { "*const" };
        let declared = format!("{part}: {pointer} u64,");
        assert!(post.contains(&declared), "{declared}");
    }
    for (part, changed) in proved_queue("turn(") {
        let pointer = match (part, changed) {
            ("cursor", _) => "&mut *queue.cursor => *mut u64".to_string(),
            (part, true) => format!("queue.{part}.as_mut_ptr() => *mut u64,"),
            (part, false) => format!("queue.{part}.as_ptr() => *const u64,"),
        };
        assert!(turn.contains(&pointer), "{pointer}");
    }
    assert_eq!(proved_queue("post(").len(), 4);
    assert_eq!(proved_queue("turn(").len(), 4);
}

/// The kinds of an export's parameters after the first ones.
fn proved_kinds(name: &str, first: usize) -> Vec<&'static str> {
    let export = proved_source().split("extern \"C\" fn skein_");
    let export = export.skip(1).find(|export| export.starts_with(name));
    let (parameters, _) = export.unwrap().split_once(") -> u64").unwrap();
    let kinds = parameters.lines().filter_map(|line| line.split_once(": "));
    kinds.skip(first).map(|(_, kind)| kind).collect()
}

/// That a declaration, from its start to its end, has these parameters in this order.
fn declares(start: &str, end: &str, parameters: &[&str]) {
    let (_, declared) = DECLARED.split_once(start).unwrap();
    let (declared, _) = declared.split_once(end).unwrap();
    let places = parameters
        .iter()
        .map(|text| declared.find(text).expect(text));
    assert!(places.is_sorted(), "{start}");
}

#[test]
fn a_log_is_writable_for_the_changes_of_the_tree_alone() {
    for (name, numbers, named) in [
        ("create(", 3, true),
        ("remove(", 2, false),
        ("link(", 3, true),
        ("rename(", 3, true),
        ("exchange(", 4, false),
    ] {
        let mut kinds = vec!["u64,"; numbers];
        kinds.extend(named.then_some("&[u8],"));
        kinds.extend(["&mut [u8],", "&mut u64,", "&mut [u64],"]);
        assert_eq!(proved_kinds(name, 7), kinds, "{name}");
    }
    let parameters = [
        "$text.as_ptr() => *const u8,",
        "log.bytes.as_mut_ptr() => *mut u8,",
        "&mut *log.used => *mut u64,",
        "report.as_mut_ptr() => *mut u64,",
    ];
    declares("macro_rules! changes", "\n}", &parameters);
    assert_eq!(proved_kinds("replay(", 7), ["&[u8],"]);
    let parameters = ["log.as_ptr() => *const u8,", "log.len() => usize"];
    declares("skein_replay[", "\n}", &parameters);
}

#[test]
fn only_the_answers_of_a_batch_are_writable() {
    let lists = proved_kinds("batch(", 7);
    assert_eq!(lists, ["&[u64],", "&[u8],", "&mut [u64],"]);
    let parameters = [
        "requests.as_ptr() => *const u64,",
        "names.as_ptr() => *const u8,",
        "answers.as_mut_ptr() => *mut u64,",
    ];
    declares("skein_batch[", "\n}", &parameters);
}

#[test]
fn only_the_report_about_policy_files_is_writable() {
    let kinds = ["&[u8],", "&[u8],", "&[u8],", "&mut [u64],"];
    assert_eq!(proved_kinds("find_policy(", 0), kinds);
    assert_eq!(proved_kinds("apply_policy(", 7), kinds);
    let parameters = [
        "stock: *const u8,",
        "site: *const u8,",
        "name: *const u8,",
        "report: *mut u64,",
    ];
    declares("fn skein_find_policy(", ") -> u64", &parameters);
    let parameters = [
        "stock.as_ptr() => *const u8,",
        "site.as_ptr() => *const u8,",
        "name.as_ptr() => *const u8,",
        "report.as_mut_ptr() => *mut u64,",
    ];
    declares("skein_apply_policy[", "\n}", &parameters);
}

#[test]
fn only_the_room_for_a_policy_file_is_writable() {
    let kinds = ["u64,", "&[u8],", "&mut [u8],"];
    assert_eq!(proved_kinds("write_policy(", 7), kinds);
    let parameters = [
        "ruleset => u64,",
        "name.as_ptr() => *const u8,",
        "out.as_mut_ptr() => *mut u8,",
    ];
    declares("skein_write_policy[", "\n}", &parameters);
}
