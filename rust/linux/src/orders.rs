//! Scenarios in which several refusals of a ruleset call hold at once, in every combination.

use crate::call::NO_REPORT;
use crate::rights::*;
use crate::scenario::{Scenario, Stop};
use model::call::Call;

const FLAGS: [u64; 2] = [0, 1 << 31];
/// An open ruleset, and one that is not.
const RULESETS: [u64; 2] = [0, 1];
const UNKNOWN_BIT: u64 = 1 << 63;

pub fn play(scenario: &mut Scenario) -> Result<(), Stop> {
    create(scenario)?;
    scenario.ask(Call::Create {
        name: b"directory".to_vec(),
        thread: 0,
        directory: 0,
        kind: DIRECTORY,
        report: NO_REPORT,
    })?;
    scenario.ask(Call::Create {
        name: b"file".to_vec(),
        thread: 0,
        directory: 0,
        kind: REGULAR,
        report: NO_REPORT,
    })?;
    let [_, net, _] = known(scenario.tables.level());
    let bytes = [READ_FILE | READ_DIR, net & BIND_TCP]
        .iter()
        .flat_map(|mask| mask.to_le_bytes())
        .collect();
    scenario.ask(Call::CreateRuleset { bytes, flags: 0 })?;
    add_path_rule(scenario)?;
    if net != 0 {
        add_port_rule(scenario)?;
    }
    restrict(scenario)?;
    query(scenario)
}

/// The form that asks for the ABI version or the errata.
fn query(scenario: &mut Scenario) -> Result<(), Stop> {
    let flags = scenario.random.between(1, 2);
    let bytes = Vec::new();
    scenario.ask(Call::CreateRuleset { bytes, flags })
}

/// Too short, with and without all masks, too long by a byte that is not zero, and over 4,096 bytes.
fn create(scenario: &mut Scenario) -> Result<(), Stop> {
    let over = scenario.machine.meaningless_byte() as usize + 1;
    for flags in FLAGS {
        for mask in [0, READ_FILE, READ_FILE | UNKNOWN_BIT] {
            for (size, last) in [(7, 0), (8, 0), (24, 0), (over, 1), (4096, 1), (4097, 0)] {
                let mut bytes = mask.to_le_bytes().to_vec();
                bytes.resize(size, 0);
                bytes[size - 1] |= last;
                scenario.ask(Call::CreateRuleset { bytes, flags })?;
                close_all(scenario)?;
            }
        }
    }
    Ok(())
}

fn close_all(scenario: &mut Scenario) -> Result<(), Stop> {
    for ruleset in scenario.tables.open_rulesets() {
        scenario.ask(Call::CloseRuleset { ruleset })?;
    }
    Ok(())
}

/// Rights: none, handled, not handled, not in the file set. Entries: a directory, a file, none.
fn add_path_rule(scenario: &mut Scenario) -> Result<(), Stop> {
    for flags in FLAGS {
        for ruleset in RULESETS {
            for rights in [0, READ_FILE, READ_DIR, WRITE_FILE, UNKNOWN_BIT] {
                for entry in [1, 2, 3] {
                    scenario.ask(Call::AddPathRule {
                        ruleset,
                        entry,
                        rights,
                        flags,
                    })?;
                }
            }
        }
    }
    Ok(())
}

fn add_port_rule(scenario: &mut Scenario) -> Result<(), Stop> {
    for flags in FLAGS {
        for ruleset in RULESETS {
            for rights in [0, BIND_TCP, CONNECT_TCP, UNKNOWN_BIT] {
                for port in [0, 65_535, 65_536] {
                    scenario.ask(Call::AddPortRule {
                        ruleset,
                        port,
                        rights,
                        flags,
                    })?;
                }
            }
        }
    }
    Ok(())
}

/// Without a mark, with the admin mark where it can be had, and with no_new_privs.
fn restrict(scenario: &mut Scenario) -> Result<(), Stop> {
    if scenario.machine.admin {
        restrict_with_marks(scenario)?;
        scenario.ask(Call::SetAdmin { thread: 0, on: 0 })?;
    }
    restrict_with_marks(scenario)?;
    scenario.ask(Call::SetNoNewPrivs { thread: 0 })?;
    restrict_with_marks(scenario)
}

fn restrict_with_marks(scenario: &mut Scenario) -> Result<(), Stop> {
    for flags in FLAGS {
        for ruleset in RULESETS {
            scenario.ask(Call::Restrict {
                thread: 0,
                ruleset,
                flags,
            })?;
        }
    }
    Ok(())
}
