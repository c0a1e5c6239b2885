//! The rule scan and the climb.

use crate::core;
use crate::inputs::{Questions, QUESTIONS};
use crate::landlock::{DIRECTORY, PATH_RULE, REMOVE_DIR};
use crate::measure::{against, agree, line, table, time, Effort, Side};
use crate::plain::verdict;
use random::Random;
use skeinrabbit_sys::layout::{ENTRY_WIDTH, MAX_ENTRIES};

pub fn run(effort: Effort) {
    table(&["Part", "proved core", "plain Rust", "ratio"]);
    for count in [4, 16, 64] {
        rule_scan(effort, count);
    }
    let mut random = Random::new(11);
    let wide = tree(1000, |entry| random.below(entry));
    for count in [4, 16, 64] {
        let name = format!("climb, 1,000 entries, {count} rules");
        let start = Questions::new(|| random.below(1000));
        climb(effort, &name, &wide, count, &start);
    }
    let deep = tree(MAX_ENTRIES as u64, |entry| entry - 1);
    let start = Questions::new(|| 1016 + random.below(8));
    climb(effort, "climb, 1,023 deep, 4 rules", &deep, 4, &start);
}

/// Rules for objects 0, 7, 14, .. that grant none but the first four rights.
fn rules(count: u64) -> Vec<u64> {
    let rule = |number| [PATH_RULE, 7 * number, 1 + number % 15];
    (0..count).flat_map(rule).collect()
}

/// Cells of directories, each with its number as object.
fn tree(count: u64, mut parent: impl FnMut(u64) -> u64) -> Vec<u64> {
    let mut cells = vec![DIRECTORY, 0, 0];
    for entry in 1..count {
        cells.extend([DIRECTORY, parent(entry), entry]);
    }
    cells.resize(ENTRY_WIDTH * MAX_ENTRIES, 0);
    cells
}

fn rule_scan(effort: Effort, count: u64) {
    let rules = rules(count);
    let mut random = Random::new(12);
    let objects = Questions::new(|| random.below(7 * count));
    compare(
        effort,
        &format!("rule scan, {count} rules"),
        &mut [
            &mut |i: u64| core::rights_on(&rules, objects.at(i)),
            &mut |i: u64| verdict::rights_on(&rules, objects.at(i)),
        ],
    );
}

/// Climbs to the root: no rule grants the right asked for.
fn climb(effort: Effort, name: &str, entries: &[u64], count: u64, start: &Questions<u64>) {
    let rules = rules(count);
    compare(
        effort,
        name,
        &mut [
            &mut |i: u64| core::missing(entries, &rules, start.at(i), REMOVE_DIR),
            &mut |i: u64| verdict::missing(entries, &rules, start.at(i), REMOVE_DIR),
        ],
    );
}

/// The sides are the core and plain Rust.
fn compare(effort: Effort, name: &str, sides: &mut [&mut dyn Side]) {
    agree(name, QUESTIONS, sides);
    let times = time(effort, 64, sides);
    line(name, &against(times[0], &times[1..]));
}
