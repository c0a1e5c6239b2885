//! Plays random scenarios on the Landlock of the running kernel, on the proved core and on the independent model, and compares
//! every answer.
//!
//! Exit status: 0 if everything was compared and all answers agree but for the known classes of difference (differences.rs); 1 at
//! any other difference, with the scenario printed; 2 if the comparison could not be made; 77 if there was no such difference but
//! this machine could not compare everything (machine.rs), with a line for each reason that begins with `skipped`.

mod broker;
mod call;
mod differences;
mod generate;
mod kernel;
mod limits;
mod machine;
mod operation;
mod orders;
mod rights;
mod scenario;
mod scopes;
mod sys;
mod tally;
mod target;
mod task;

use machine::{Machine, LEFT_OUT};
use rights::answer_name;
use scenario::{Scenario, Stop};
use std::env;
use std::fs;
use std::process::{self, ExitCode};
use std::time::{Duration, Instant};
use tally::Tally;

const USAGE: &str = "usage: linux [--seed N] [--seconds N] [--scenarios N]";
const DEFAULT_SEED: u64 = 1;
const DEFAULT_SCENARIOS: u64 = 7500;
/// Domains that the first scenario builds and drops.
const CHAINS: usize = 3000;
/// A scenario that takes longer hangs.
const SCENARIO_SECONDS: u32 = 60;

const EXIT_UNKNOWN: u8 = 1;
const EXIT_FAILED: u8 = 2;
const EXIT_SKIPPED: u8 = 77;

struct Arguments {
    seed: u64,
    scenarios: u64,
    time: Option<Duration>,
}

fn arguments() -> Option<Arguments> {
    let mut arguments = Arguments {
        seed: DEFAULT_SEED,
        scenarios: DEFAULT_SCENARIOS,
        time: None,
    };
    let mut words = env::args().skip(1);
    let mut scenarios_given = false;
    while let Some(word) = words.next() {
        let number = words.next()?.parse().ok()?;
        match word.as_str() {
            "--seed" => arguments.seed = number,
            "--seconds" => arguments.time = Some(Duration::from_secs(number)),
            "--scenarios" => {
                arguments.scenarios = number;
                scenarios_given = true;
            }
            _ => return None,
        }
    }
    if arguments.time.is_some() && !scenarios_given {
        arguments.scenarios = u64::MAX;
    }
    Some(arguments)
}

fn main() -> ExitCode {
    let Some(arguments) = arguments() else {
        eprintln!("{USAGE}");
        return ExitCode::from(EXIT_FAILED);
    };
    let abi = sys::landlock::abi();
    if abi < 1 {
        println!(
            "skipped: the running kernel has no Landlock, or does not permit it here ({})",
            answer_name(abi)
        );
        return ExitCode::from(EXIT_SKIPPED);
    }
    supervise(&arguments)
}

/// Plays in a child, so that the temporary directory is removed however that ends.
fn supervise(arguments: &Arguments) -> ExitCode {
    let directory = env::temp_dir().join(format!("skeinrabbit-linux-{}", process::id()));
    let directory = directory
        .to_str()
        .expect("the temporary directory's path is UTF-8")
        .to_string();
    if let Err(error) = fs::create_dir(&directory) {
        eprintln!("{directory}: {error}");
        return ExitCode::from(EXIT_FAILED);
    }
    sys::ignore_interrupt(true);
    let child = sys::fork();
    if child == 0 {
        sys::ignore_interrupt(false);
        process::exit(play(arguments, &directory).into());
    }
    let status = sys::wait(child);
    if let Err(error) = fs::remove_dir_all(&directory) {
        eprintln!("{directory}: {error}");
    }
    match status {
        Some(status) => ExitCode::from(status as u8),
        None => {
            eprintln!(
                "the comparison was ended by a signal: a scenario hung, or it was interrupted"
            );
            ExitCode::from(EXIT_FAILED)
        }
    }
}

/// Plays the scenarios in the directory; the exit status.
fn play(arguments: &Arguments, directory: &str) -> u8 {
    sys::umask(0);
    // Both are for speed, and do no harm where they fail: ext4 looks for a number through all files removed in the last minutes
    // when it makes one, and of the threads one runs at a time, each woken by the one before.
    sys::mount_memory(directory);
    sys::stay_on_processor();
    env::set_current_dir(directory).unwrap_or_else(|error| panic!("{directory}: {error}"));
    let machine = Machine::probe(directory);
    println!(
        "Landlock ABI {}, tables up to level {}, seed {}",
        machine.abi,
        machine.top_level(),
        arguments.seed
    );
    for reason in LEFT_OUT {
        println!("not compared: {reason}");
    }
    let lacks = machine.lacks();
    for reason in &lacks {
        println!("skipped in part: {reason}");
    }
    println!();
    let start = Instant::now();
    let mut tally = Tally::default();
    let mut status = if lacks.is_empty() { 0 } else { EXIT_SKIPPED };
    while tally.scenarios < arguments.scenarios
        && arguments.time.is_none_or(|time| start.elapsed() < time)
    {
        let seed = arguments.seed.wrapping_add(tally.scenarios);
        let how = match tally.scenarios {
            0 => |scenario: Scenario| scenario.play_chains(CHAINS),
            _ => |scenario: Scenario| scenario.play(),
        };
        if let Err(scenario) = play_one(seed, how, &machine, &mut tally) {
            println!("{scenario}\n");
            status = EXIT_UNKNOWN;
            break;
        }
    }
    tally.print();
    println!("\n{:.1} s", start.elapsed().as_secs_f64());
    status
}

/// Plays a scenario and removes its tree; an unknown difference in words.
fn play_one(
    seed: u64,
    how: fn(Scenario) -> Result<(), Stop>,
    machine: &Machine,
    tally: &mut Tally,
) -> Result<(), String> {
    sys::alarm(SCENARIO_SECONDS);
    tally.scenarios += 1;
    let root = format!("s{}", tally.scenarios);
    let ending = how(Scenario::new(seed, &root, machine, tally));
    fs::remove_dir_all(&root).unwrap_or_else(|error| panic!("{root}: {error}"));
    match ending {
        Ok(()) => Ok(()),
        Err(Stop::Known) => {
            tally.stopped += 1;
            Ok(())
        }
        Err(Stop::Unknown(scenario)) => Err(scenario),
    }
}
