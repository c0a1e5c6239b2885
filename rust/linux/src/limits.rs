//! Scenarios that fill one table to its end.

use crate::call::NO_REPORT;
use crate::kernel::MAX_KERNEL_DOMAIN;
use crate::rights::*;
use crate::scenario::{Scenario, Stop};
use model::call::Call;
use model::state::{MAX_RULES, MAX_RULESETS, MAX_THREADS};

pub fn play(scenario: &mut Scenario) -> Result<(), Stop> {
    let fill = scenario.random.pick(&[
        rulesets, rules, root_rule, domain, layers, pool, pool_again, threads,
    ]);
    scenario.ask(Call::SetNoNewPrivs { thread: 0 })?;
    fill(scenario)
}

/// Builds a domain with as many layers as Linux lets it have, on a thread of its own, and drops it, so many times: far more layers
/// than there are records.
pub fn drop_chains(scenario: &mut Scenario, times: usize) -> Result<(), Stop> {
    scenario.ask(Call::SetNoNewPrivs { thread: 0 })?;
    open_ruleset(scenario)?;
    add_rules(scenario, 3)?;
    for _ in 0..times {
        scenario.ask(Call::Clone { thread: 0 })?;
        restrict(scenario, 1, MAX_KERNEL_DOMAIN)?;
        let entry = scenario.random.between(0, 3);
        scenario.ask(Call::Access {
            thread: 1,
            entry,
            rights: READ_DIR,
            report: NO_REPORT,
        })?;
        scenario.ask(Call::End { thread: 1 })?;
    }
    Ok(())
}

/// Opens a ruleset that handles everything known to the level.
fn open_ruleset(scenario: &mut Scenario) -> Result<(), Stop> {
    let bytes = known(scenario.tables.level())
        .iter()
        .flat_map(|mask| mask.to_le_bytes())
        .collect();
    scenario.ask(Call::CreateRuleset { bytes, flags: 0 })
}

/// Adds rules for new directories.
fn add_rules(scenario: &mut Scenario, number: usize) -> Result<(), Stop> {
    for entry in 1..=number as u64 {
        scenario.ask(Call::Create {
            name: entry.to_string().into_bytes(),
            thread: 0,
            directory: 0,
            kind: DIRECTORY,
            report: NO_REPORT,
        })?;
        scenario.ask(Call::AddPathRule {
            ruleset: 0,
            entry,
            rights: READ_FILE,
            flags: 0,
        })?;
    }
    Ok(())
}

fn restrict(scenario: &mut Scenario, thread: u64, times: usize) -> Result<(), Stop> {
    for _ in 0..times {
        scenario.ask(Call::Restrict {
            thread,
            ruleset: 0,
            flags: 0,
        })?;
    }
    Ok(())
}

/// A 17th ruleset, with refusals that come before EMFILE.
fn rulesets(scenario: &mut Scenario) -> Result<(), Stop> {
    for _ in 0..=MAX_RULESETS {
        open_ruleset(scenario)?;
    }
    scenario.ask(Call::CreateRuleset {
        bytes: vec![0; 7],
        flags: 0,
    })?;
    scenario.ask(Call::CreateRuleset {
        bytes: vec![0; 8],
        flags: 0,
    })?;
    let ruleset = scenario.random.below(MAX_RULESETS);
    scenario.ask(Call::CloseRuleset { ruleset })?;
    open_ruleset(scenario)?;
    open_ruleset(scenario)
}

/// A 65th rule, after one that joins.
fn rules(scenario: &mut Scenario) -> Result<(), Stop> {
    open_ruleset(scenario)?;
    add_rules(scenario, MAX_RULES)?;
    scenario.ask(Call::AddPathRule {
        ruleset: 0,
        entry: 1,
        rights: READ_DIR,
        flags: 0,
    })?;
    scenario.ask(Call::AddPathRule {
        ruleset: 0,
        entry: 0,
        rights: READ_DIR,
        flags: 0,
    })
}

/// A rule on the root that grants a right to change something, with refusals that come before EPERM.
fn root_rule(scenario: &mut Scenario) -> Result<(), Stop> {
    const NO_FLAGS: u64 = 0;
    open_ruleset(scenario)?;
    let changing = known(scenario.tables.level())[0] & CHANGING;
    let bits: Vec<u64> = (0..16).filter(|bit| changing >> bit & 1 != 0).collect();
    let right = 1 << scenario.random.pick(&bits);
    let asked = [
        (0, READ_DIR, NO_FLAGS),
        (0, right, 1 << 31),
        (1, right, NO_FLAGS),
        (0, right | 1 << 63, NO_FLAGS),
        (0, right | READ_DIR, NO_FLAGS),
    ];
    for (ruleset, rights, flags) in asked {
        scenario.ask(Call::AddPathRule {
            ruleset,
            entry: 0,
            rights,
            flags,
        })?;
    }
    Ok(())
}

/// The last layer that Linux lets a domain have, refusals that come before E2BIG, and one layer more.
fn domain(scenario: &mut Scenario) -> Result<(), Stop> {
    open_ruleset(scenario)?;
    restrict(scenario, 0, MAX_KERNEL_DOMAIN)?;
    scenario.ask(Call::Restrict {
        thread: 0,
        ruleset: 1,
        flags: 0,
    })?;
    scenario.ask(Call::Restrict {
        thread: 0,
        ruleset: 0,
        flags: 1 << 31,
    })?;
    scenario.ask(Call::Clone { thread: 0 })?;
    restrict(scenario, 1, 1)
}

/// As many layers as Linux lets the threads have.
fn layers(scenario: &mut Scenario) -> Result<(), Stop> {
    open_ruleset(scenario)?;
    for thread in 1..MAX_THREADS {
        scenario.ask(Call::Clone { thread: 0 })?;
        restrict(scenario, thread, MAX_KERNEL_DOMAIN)?;
    }
    restrict(scenario, 0, MAX_KERNEL_DOMAIN)
}

/// More than 1,024 rules in all layers, for a domain that Linux finds full as well.
fn pool(scenario: &mut Scenario) -> Result<(), Stop> {
    open_ruleset(scenario)?;
    add_rules(scenario, MAX_RULES)?;
    scenario.ask(Call::Clone { thread: 0 })?;
    restrict(scenario, 1, MAX_KERNEL_DOMAIN)?;
    restrict(scenario, 1, 1)?;
    restrict(scenario, 0, 1)
}

/// A pool that is full, and again after the thread that filled it has ended.
fn pool_again(scenario: &mut Scenario) -> Result<(), Stop> {
    open_ruleset(scenario)?;
    add_rules(scenario, MAX_RULES)?;
    for _ in 0..2 {
        scenario.ask(Call::Clone { thread: 0 })?;
        restrict(scenario, 1, MAX_KERNEL_DOMAIN)?;
        restrict(scenario, 1, 1)?;
        scenario.ask(Call::End { thread: 1 })?;
    }
    restrict(scenario, 0, 1)
}

/// Numbers of threads that have ended, and a ninth thread.
fn threads(scenario: &mut Scenario) -> Result<(), Stop> {
    for _ in 1..MAX_THREADS {
        scenario.ask(Call::Clone { thread: 0 })?;
    }
    for _ in 0..4 {
        let thread = scenario.random.between(1, MAX_THREADS - 1);
        scenario.ask(Call::End { thread })?;
        scenario.ask(Call::Clone { thread: 0 })?;
    }
    scenario.ask(Call::Clone { thread: 0 })
}
