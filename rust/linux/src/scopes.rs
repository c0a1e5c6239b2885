//! Scenarios of signals and abstract sockets, between threads whose domains grow from each other.

use crate::kernel::MAX_KERNEL_DOMAIN;
use crate::rights::*;
use crate::scenario::{Scenario, Stop};
use model::call::Call;
use model::state::MAX_THREADS;

/// The requests at the end, between any threads.
const REQUESTS: usize = 16;

pub fn play(scenario: &mut Scenario) -> Result<(), Stop> {
    scenario.ask(Call::SetNoNewPrivs { thread: 0 })?;
    let [_, _, known] = known(scenario.tables.level());
    for scopes in 0..=known {
        let masks = [READ_FILE, 0, scopes];
        let bytes = masks.iter().flat_map(|mask| mask.to_le_bytes()).collect();
        scenario.ask(Call::CreateRuleset { bytes, flags: 0 })?;
    }
    for thread in 1..4 {
        scenario.ask(Call::Clone { thread: 0 })?;
        restrict(scenario, thread)?;
    }
    for _ in 0..scenario.random.between(4, 20) {
        step(scenario)?;
    }
    for _ in 0..REQUESTS {
        scenario.ask_any(|g| g.reach())?;
    }
    Ok(())
}

fn restrict(scenario: &mut Scenario, thread: u64) -> Result<(), Stop> {
    let ruleset = scenario.random.pick(&scenario.tables.open_rulesets());
    scenario.ask(Call::Restrict {
        thread,
        ruleset,
        flags: 0,
    })
}

/// A thread more, a layer more or a thread less, where there is room on both sides; or a request.
fn step(scenario: &mut Scenario) -> Result<(), Stop> {
    let live = scenario.tables.live_threads();
    let thread = scenario.random.pick(&live);
    let room = scenario.tables.domain(thread) < MAX_KERNEL_DOMAIN;
    match scenario.random.below(8) {
        0..3 if (live.len() as u64) < MAX_THREADS => scenario.ask(Call::Clone { thread }),
        3..6 if room => restrict(scenario, thread),
        6 if live.len() > 1 => scenario.ask(Call::End { thread }),
        _ => scenario.ask_any(|g| g.reach()),
    }
}
