//! One scenario: the same tree, rulesets and calls on both sides.

use crate::broker::Broker;
use crate::call::{answer_text, line, may_change, NO_REPORT};
use crate::differences::{compare, Answers, Comparison};
use crate::generate::Generator;
use crate::kernel::{kind_of, Kernel};
use crate::limits;
use crate::machine::Machine;
use crate::orders;
use crate::rights::{outcome, DIRECTORY};
use crate::scopes;
use crate::tally::Tally;
use model::call::Call;
use model::refusal::returned;
use model::state::Model;
use random::Random;
use std::collections::{BTreeMap, BTreeSet};
use std::fs;
use std::os::unix::fs::MetadataExt;

/// Why a scenario ended early.
pub enum Stop {
    /// Only one side granted a change, for a known reason.
    Known,
    /// The sides differ for no known reason: the scenario in words.
    Unknown(String),
}

pub struct Scenario<'a> {
    pub random: Random,
    pub machine: &'a Machine,
    pub tables: Broker,
    model: Model,
    kernel: Kernel,
    tally: &'a mut Tally,
    lines: Vec<String>,
}

impl<'a> Scenario<'a> {
    /// Fresh tables and an empty directory.
    pub fn new(seed: u64, root: &str, machine: &'a Machine, tally: &'a mut Tally) -> Scenario<'a> {
        let mut random = Random::new(seed);
        let top = machine.top_level();
        let level = if random.chance(75) {
            top
        } else {
            random.between(1, top)
        };
        Scenario {
            random,
            machine,
            tables: Broker::new(level),
            model: Model::fresh(level),
            kernel: Kernel::new(root, &machine.plain_file),
            tally,
            lines: vec![format!("# seed {seed}"), format!("fresh {level}")],
        }
    }

    /// Plays it to the end.
    pub fn play(mut self) -> Result<(), Stop> {
        self.align_marks()?;
        match self.random.below(100) {
            0..2 => orders::play(&mut self)?,
            2..8 => limits::play(&mut self)?,
            8..10 if self.machine.scopes => scopes::play(&mut self)?,
            _ => self.play_random()?,
        }
        self.compare_trees()
    }

    /// Plays the one that drops many layers.
    pub fn play_chains(mut self, times: usize) -> Result<(), Stop> {
        self.align_marks()?;
        limits::drop_chains(&mut self, times)?;
        self.compare_trees()
    }

    /// Gives thread 0 the marks that a new thread of this program has.
    fn align_marks(&mut self) -> Result<(), Stop> {
        if self.machine.admin {
            self.ask(Call::SetAdmin { thread: 0, on: 1 })?;
        }
        if self.machine.no_new_privs {
            self.ask(Call::SetNoNewPrivs { thread: 0 })?;
        }
        Ok(())
    }

    fn play_random(&mut self) -> Result<(), Stop> {
        self.set_up()?;
        for _ in 0..self.random.between(40, 100) {
            self.ask_any(|g| g.call())?;
        }
        Ok(())
    }

    /// A tree, rulesets with rules, and a thread with a domain of one to four layers.
    fn set_up(&mut self) -> Result<(), Stop> {
        self.ask(Call::Create {
            name: b"top".to_vec(),
            thread: 0,
            directory: 0,
            kind: DIRECTORY,
            report: NO_REPORT,
        })?;
        for _ in 0..self.random.between(6, 30) {
            self.ask_any(|g| g.growth())?;
        }
        for _ in 0..self.random.between(1, 4) {
            self.ask_any(|g| g.create_ruleset())?;
        }
        for _ in 0..self.random.between(2, 16) {
            self.ask_any(|g| g.add_path_rule())?;
        }
        for _ in 0..self.random.below(4) {
            self.ask_any(|g| g.add_port_rule())?;
        }
        self.ask(Call::Clone { thread: 0 })?;
        if self.random.chance(90) {
            self.ask(Call::SetNoNewPrivs { thread: 1 })?;
        }
        for ruleset in self.tables.open_rulesets() {
            self.ask(Call::Restrict {
                thread: 1,
                ruleset,
                flags: 0,
            })?;
        }
        Ok(())
    }

    pub fn ask_any(&mut self, choose: fn(&mut Generator) -> Call) -> Result<(), Stop> {
        let call = choose(&mut Generator {
            random: &mut self.random,
            tables: &self.tables,
            model: &self.model,
            machine: self.machine,
        });
        self.ask(call)
    }

    /// Asks every side and compares.
    pub fn ask(&mut self, call: Call) -> Result<(), Stop> {
        let before = self.tables.clone();
        let ours = self.tables.ask(&call);
        let by_domain = returned(self.model.answer_by_domain(&call).0) as i64;
        let model = returned(self.model.answer(&call).0) as i64;
        let (operation, linux) = self.kernel.perform(&before, &call);
        self.lines.push(format!(
            "{} => {}  # model: {}; Linux: {operation:?} = {}",
            line(&call),
            answer_text(&call, ours),
            answer_text(&call, model),
            answer_text(&call, linux)
        ));
        let answers = Answers {
            tables: &before,
            call: &call,
            operation: &operation,
            ours,
            model,
            by_domain,
            linux,
        };
        if matches!(call, Call::Lookup { .. }) && ours >= 0 && linux >= 0 {
            let found = fs::symlink_metadata(self.kernel.path(&before, ours as u64));
            if found.map(|found| found.ino()).ok() != Some(linux as u64) {
                return Err(self.unknown("the last path leads elsewhere in Linux"));
            }
        }
        match compare(&answers) {
            Comparison::Agree => {
                self.tally.agree(&call, outcome(ours));
                if ours >= 0 {
                    self.kernel.settle(&call, ours, linux);
                }
                Ok(())
            }
            Comparison::Known(class) => {
                self.tally
                    .differ(class, &call, outcome(linux), outcome(ours));
                if may_change(&call) && (ours >= 0 || linux >= 0) {
                    Err(Stop::Known)
                } else {
                    Ok(())
                }
            }
            Comparison::Unknown => Err(self.unknown("an unknown difference in the last call")),
        }
    }

    fn unknown(&self, what: &str) -> Stop {
        Stop::Unknown(format!("{}\n# {what}", self.lines.join("\n")))
    }

    /// Every entry is where the tables say, of the kind they say, and two paths are one file exactly if they are one object.
    fn compare_trees(&mut self) -> Result<(), Stop> {
        let mut found = BTreeMap::new();
        walk(&self.kernel.path(&self.tables, 0), &mut found);
        let entries = self.tables.live_entries();
        let expected: BTreeMap<String, (u64, u64)> = entries
            .iter()
            .map(|&entry| {
                (
                    self.kernel.path(&self.tables, entry),
                    (self.tables.kind(entry), self.tables.object(entry)),
                )
            })
            .collect();
        let kinds = |tree: &BTreeMap<String, (u64, u64)>| -> Vec<(String, u64)> {
            tree.iter()
                .map(|(path, entry)| (path.clone(), entry.0))
                .collect()
        };
        if kinds(&found) != kinds(&expected) {
            return Err(self.unknown(&format!(
                "the trees differ: Linux {found:?}, ours {expected:?}"
            )));
        }
        let pairs: BTreeSet<(u64, u64)> = found
            .values()
            .zip(expected.values())
            .map(|(a, b)| (a.1, b.1))
            .collect();
        let files: BTreeSet<u64> = pairs.iter().map(|pair| pair.0).collect();
        let objects: BTreeSet<u64> = pairs.iter().map(|pair| pair.1).collect();
        if files.len() != pairs.len() || objects.len() != pairs.len() {
            return Err(self.unknown(&format!(
                "the hard links differ: Linux {found:?}, ours {expected:?}"
            )));
        }
        self.tally.trees += 1;
        Ok(())
    }
}

/// The kind and inode number of a path and of all below it.
fn walk(path: &str, found: &mut BTreeMap<String, (u64, u64)>) {
    let metadata = fs::symlink_metadata(path).unwrap_or_else(|error| panic!("{path}: {error}"));
    found.insert(path.to_string(), (kind_of(metadata.mode()), metadata.ino()));
    if metadata.is_dir() {
        for entry in fs::read_dir(path).unwrap_or_else(|error| panic!("{path}: {error}")) {
            let name = entry.expect("an entry of the directory").file_name();
            walk(
                &format!("{path}/{}", name.to_str().expect("names are ASCII")),
                found,
            );
        }
    }
}
