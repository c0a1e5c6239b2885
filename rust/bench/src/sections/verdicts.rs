//! Verdicts on access and on renames, with no soundness test in front.

use super::policies;
use crate::core;
use crate::inputs::{self, access_request, Questions, Refer, QUESTIONS};
use crate::landlock::DIRECTORY;
use crate::measure::{against, agree, line, table, time, Effort, Side};
use crate::plain::broker::is_above;
use crate::plain::own::Policy;
use crate::plain::verdict;
use crate::tables::Tables;
use random::Random;

/// All requests are those of thread 0.
const THREAD: u64 = 0;

pub fn run(effort: Effort) {
    table(&[
        "Verdict",
        "granted",
        "proved core",
        "plain Rust, same cells",
        "ratio",
        "plain Rust, own structures",
        "ratio",
    ]);
    let mut policies = policies().to_vec();
    policies.extend([
        (
            "1,000 entries, 1 layer, REFER in places",
            inputs::wide(1, Refer::InPlaces),
        ),
        (
            "1,000 entries, 4 layers, REFER nowhere",
            inputs::wide(4, Refer::Nowhere),
        ),
    ]);
    for (name, tables) in &policies {
        access(effort, &format!("access, {name}"), tables);
    }
    for (name, tables) in &policies {
        rename(effort, &format!("rename, {name}"), tables);
    }
}

/// A random entry and a random directory that it doesn't stand above.
fn rename_request(tables: &Tables, random: &mut Random) -> (u64, u64) {
    loop {
        let source = 1 + random.below(tables.live_entries() - 1);
        let directory = random.below(tables.live_entries());
        if tables.kind(directory) == DIRECTORY && !is_above(tables, source, directory) {
            return (source, directory);
        }
    }
}

fn access(effort: Effort, name: &str, tables: &Tables) {
    let mut random = Random::new(21);
    let requests = Questions::new(|| access_request(tables, &mut random));
    let policy = Policy::new(tables);
    let youngest = tables.youngest(THREAD);
    compare(
        effort,
        name,
        &mut [
            &mut |i: u64| {
                let (entry, asked) = requests.at(i);
                core::access_verdict(tables, THREAD, entry, asked)
            },
            &mut |i: u64| {
                let (entry, asked) = requests.at(i);
                verdict::access_verdict(tables, youngest, entry, asked).errno
            },
            &mut |i: u64| {
                let (entry, asked) = requests.at(i);
                policy
                    .access_verdict(THREAD as usize, entry as usize, asked)
                    .errno
            },
        ],
    );
}

fn rename(effort: Effort, name: &str, tables: &Tables) {
    let mut random = Random::new(22);
    let requests = Questions::new(|| rename_request(tables, &mut random));
    let policy = Policy::new(tables);
    compare(
        effort,
        name,
        &mut [
            &mut |i: u64| {
                let (source, directory) = requests.at(i);
                core::rename_verdict(tables, THREAD, source, directory)
            },
            &mut |i: u64| {
                let (source, directory) = requests.at(i);
                verdict::rename_verdict(tables, THREAD, source, directory).errno
            },
            &mut |i: u64| {
                let (source, directory) = requests.at(i);
                let [source, directory] = [source, directory].map(|entry| entry as usize);
                policy
                    .rename_verdict(THREAD as usize, source, directory)
                    .errno
            },
        ],
    );
}

/// The sides are the core, plain Rust over the cells, and plain Rust over its own structures.
fn compare(effort: Effort, name: &str, sides: &mut [&mut dyn Side]) {
    agree(name, QUESTIONS, sides);
    let granted = (0..QUESTIONS).filter(|i| sides[0].answer(*i) == 0).count();
    let times = time(effort, 128, sides);
    let mut row = vec![format!("{} %", 100 * granted as u64 / QUESTIONS)];
    row.extend(against(times[0], &times[1..]));
    line(name, &row);
}
