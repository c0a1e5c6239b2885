//! Whole calls: a soundness test, the refusals, the change.

use super::{policies, sound_tables};
use crate::inputs::{self, access_request, Questions};
use crate::landlock::{DIRECTORY, REGULAR};
use crate::measure::{against, differ, duration, line, table, time, Effort, Side};
use crate::plain::broker::{Broker, Report};
use crate::plain::soundness::{is_sound, Buckets, Pairwise};
use crate::plain::verdict::rename_verdict;
use crate::tables::Tables;
use random::Random;
use skeinrabbit_sys::NoLog;

/// All calls are those of thread 0, but for ends, which are of thread 1.
const THREAD: u64 = 0;
const OTHER_THREAD: u64 = 1;
/// Calls that are compared and, at least, timed in a run.
const COMPARED: u64 = 64;
const TIMED: u64 = 8;

pub fn run(effort: Effort) {
    table(&[
        "Call",
        "proved core",
        "plain broker, pairwise test",
        "ratio",
        "plain broker, fast test",
        "ratio",
        "sum of all cells",
    ]);
    let access = |(name, tables): &(&str, Tables)| {
        let script = Script::access(tables);
        compare(effort, &format!("access, {name}"), tables, &script);
    };
    sound_tables().iter().for_each(access);
    let policies = policies();
    // The others are among the tables above.
    policies[1..5].iter().for_each(access);
    for (name, tables) in &policies {
        let script = Script::rename(tables);
        compare(effort, &format!("rename, {name}"), tables, &script);
    }
    for (name, tables) in &policies {
        let script = Script::create(tables);
        compare(
            effort,
            &format!("create or remove, {name}"),
            tables,
            &script,
        );
    }
    lookups(effort);
    threads(effort, &policies[..5]);
}

/// Paths of the last entry, at two depths of a tree and on full tables.
fn lookups(effort: Effort) {
    for depth in [5, 20] {
        let tables = inputs::nested(depth);
        let script = Script::Lookup(tables.path(tables.live_entries() - 1));
        let name = format!("lookup, 1,000 entries, {depth} deep");
        compare(effort, &name, &tables, &script);
    }
}

/// Clones and ends, and an end that gives 64 layers back.
fn threads(effort: Effort, policies: &[(&str, Tables)]) {
    for (name, tables) in policies {
        let name = format!("clone or end, {name}");
        compare(effort, &name, tables, &Script::Clone);
    }
    let start = inputs::with_leaver();
    let names = [
        "a copy of the tables",
        "a copy, and the end of a thread with 64 layers",
    ];
    for (name, ends) in names.into_iter().zip([false, true]) {
        let script = Script::Copied {
            start: start.clone(),
            ends,
        };
        compare(effort, name, &start, &script);
    }
}

/// What answers the calls.
#[derive(Clone, Copy)]
enum Program {
    Core,
    Plain(Broker),
}

const PROGRAMS: [Program; 3] = [
    Program::Core,
    Program::Plain(Broker {
        is_sound: |tables| is_sound::<Pairwise>(tables),
    }),
    Program::Plain(Broker {
        is_sound: |tables| is_sound::<Buckets>(tables),
    }),
];

impl Program {
    fn access(self, tables: &mut Tables, (entry, asked): (u64, u64), report: &mut Report) -> u64 {
        match self {
            Program::Core => {
                skeinrabbit_sys::access(tables.cells().shared(), THREAD, entry, asked, report)
            }
            Program::Plain(broker) => broker.access(tables, THREAD, (entry, asked), report),
        }
    }

    fn rename(self, tables: &mut Tables, request: (u64, u64, &[u8]), report: &mut Report) -> u64 {
        match self {
            Program::Core => {
                let (tables, (source, directory, name)) = (&mut tables.cells(), request);
                let log = &mut NoLog::new();
                let log = &mut log.log();
                skeinrabbit_sys::rename(tables, THREAD, source, directory, name, log, report)
            }
            Program::Plain(broker) => broker.rename(tables, THREAD, request, report),
        }
    }

    fn create(self, tables: &mut Tables, request: (u64, u64, &[u8]), report: &mut Report) -> u64 {
        match self {
            Program::Core => {
                let (tables, (directory, kind, name)) = (&mut tables.cells(), request);
                let log = &mut NoLog::new();
                let log = &mut log.log();
                skeinrabbit_sys::create(tables, THREAD, directory, kind, name, log, report)
            }
            Program::Plain(broker) => broker.create(tables, THREAD, request, report),
        }
    }

    fn lookup(self, tables: &Tables, path: &[u8]) -> u64 {
        match self {
            Program::Core => skeinrabbit_sys::lookup(tables.shared(), path),
            Program::Plain(broker) => broker.lookup(tables, path),
        }
    }

    fn remove(self, tables: &mut Tables, entry: u64, report: &mut Report) -> u64 {
        match self {
            Program::Core => {
                let log = &mut NoLog::new();
                let (tables, log) = (&mut tables.cells(), &mut log.log());
                skeinrabbit_sys::remove(tables, THREAD, entry, log, report)
            }
            Program::Plain(broker) => broker.remove(tables, THREAD, entry, report),
        }
    }

    fn clone_thread(self, tables: &mut Tables) -> u64 {
        match self {
            Program::Core => skeinrabbit_sys::clone(&mut tables.cells(), THREAD),
            Program::Plain(broker) => broker.clone_thread(tables, THREAD),
        }
    }

    fn end(self, tables: &mut Tables) -> u64 {
        match self {
            Program::Core => skeinrabbit_sys::end(&mut tables.cells(), OTHER_THREAD),
            Program::Plain(broker) => broker.end(tables, OTHER_THREAD),
        }
    }
}

/// Calls that can go on for ever: after each even number of them the tree is as before.
enum Script {
    Access(Questions<(u64, u64)>),
    /// A file from one directory to another and back, under its name; the names of all entries.
    Rename(Questions<[u64; 3]>, Vec<Vec<u8>>),
    /// The path of the last entry.
    Lookup(Vec<u8>),
    /// The last entry, a file: removed, then created again in its directory.
    Create {
        entry: u64,
        directory: u64,
        name: Vec<u8>,
    },
    /// Thread 0 is cloned, and the clone ended.
    Clone,
    /// The tables are made as at the start, and thread 1 is ended or not.
    Copied {
        start: Tables,
        ends: bool,
    },
}

impl Script {
    fn access(tables: &Tables) -> Script {
        let mut random = Random::new(31);
        Script::Access(Questions::new(|| access_request(tables, &mut random)))
    }

    fn rename(tables: &Tables) -> Script {
        let mut random = Random::new(32);
        let requests = Questions::new(|| granted_rename(tables, &mut random));
        let names = (0..tables.live_entries()).map(|entry| tables.name(entry).to_vec());
        Script::Rename(requests, names.collect())
    }

    fn create(tables: &Tables) -> Script {
        let entry = tables.live_entries() - 1;
        Script::Create {
            entry,
            directory: tables.parent(entry),
            name: tables.name(entry).to_vec(),
        }
    }

    /// Whether some of the calls are refused.
    fn may_refuse(&self) -> bool {
        matches!(self, Script::Access(_))
    }

    fn call(&self, program: Program, tables: &mut Tables, i: u64, report: &mut Report) -> u64 {
        let back = i % 2 == 1;
        match self {
            Script::Access(requests) => program.access(tables, requests.at(i), report),
            Script::Rename(requests, names) => {
                let [source, home, away] = requests.at(i / 2);
                let directory = if back { home } else { away };
                let name = &names[source as usize];
                program.rename(tables, (source, directory, name), report)
            }
            Script::Lookup(path) => program.lookup(tables, path),
            Script::Create {
                directory, name, ..
            } if back => program.create(tables, (*directory, REGULAR, name), report),
            Script::Create { entry, .. } => program.remove(tables, *entry, report),
            Script::Clone if back => program.end(tables),
            Script::Clone => program.clone_thread(tables),
            Script::Copied { start, ends } => {
                tables.copy_from(start);
                if *ends {
                    program.end(tables)
                } else {
                    0
                }
            }
        }
    }
}

/// A random file, its directory, and another one, such that the thread may rename it there and back.
fn granted_rename(tables: &Tables, random: &mut Random) -> [u64; 3] {
    loop {
        let source = 1 + random.below(tables.live_entries() - 1);
        let away = random.below(tables.live_entries());
        if tables.kind(source) == DIRECTORY || tables.kind(away) != DIRECTORY {
            continue;
        }
        let home = tables.parent(source);
        let mut moved = tables.clone();
        moved.put_entry(source, [tables.kind(source), away, tables.object(source)]);
        let granted = rename_verdict(tables, THREAD, source, away).errno == 0
            && rename_verdict(&moved, THREAD, source, home).errno == 0;
        if granted && home != away {
            return [source, home, away];
        }
    }
}

fn compare(effort: Effort, name: &str, tables: &Tables, script: &Script) {
    let ends = PROGRAMS.map(|program| play(program, tables.clone(), script));
    if ends.iter().any(|end| *end != ends[0]) {
        differ(name);
    }
    assert!(
        script.may_refuse()
            || ends[0]
                .0
                .iter()
                .all(|(answer, _)| *answer <= u32::MAX.into()),
        "{name}: every call is granted"
    );
    let mut sides = PROGRAMS.map(|program| {
        let mut tables = tables.clone();
        let mut report = Report::default();
        move |i: u64| script.call(program, &mut tables, i, &mut report)
    });
    let [core, pairwise, fast] = sides.each_mut().map(|side| side as &mut dyn Side);
    let mut sum = |_: u64| tables.sum();
    let times = time(effort, TIMED, &mut [core, pairwise, fast, &mut sum]);
    let mut cells = against(times[0], &times[1..3]);
    cells.push(duration(times[3]));
    line(name, &cells);
}

/// The answers to the first calls with their reports, and the tables they leave.
fn play(program: Program, mut tables: Tables, script: &Script) -> (Vec<(u64, Report)>, Tables) {
    let answers = (0..COMPARED).map(|i| {
        let mut report = Report::default();
        let answer = script.call(program, &mut tables, i, &mut report);
        (answer, report)
    });
    (answers.collect(), tables)
}
