//! Compares the proved core with the model.

use model::compare::{compare, sweep, sweep_files, sweep_written, Options};
use model::long_run::long_run;
use model::proved::Core;
use model::scenario::scenario;
use model::shrink::shrink;
use model::tables::Table;
use model::tally::Tally;
use std::process::ExitCode;
use std::time::Instant;

const HELP: &str = "\
usage: model compare [--seed N] [--calls N] [--seconds N] [--long N]

Drives the proved core and the model through attributes of every length, through policy files with
every byte changed, through files written of random trees, and through random lists of calls, posts,
turns, batches, policy files and replays, from random tables, queues and logs, sound and damaged, and
compares the reply, every cell and every byte of the log after every call.
Then threads of the same tables are cloned, restricted and ended very often; there the replies are
compared after every call and the cells after every 100.

  --seed N     the seed of the random numbers (default 1)
  --calls N    the calls to make in random lists (default 800000)
  --seconds N  stop the lists after so many seconds; without --calls, only then
  --long N     the calls on the same tables (default 1000000)

Without a difference the answers are counted by call and the exit code is 0. A difference is printed
as a short scenario file, with exit code 1. Wrong arguments give exit code 2.
";

/// The calls made in random lists, and those on the same tables, where nothing else is said.
const CALLS: u64 = 800_000;
const LONG_CALLS: u64 = 1_000_000;

fn main() -> ExitCode {
    let arguments: Vec<String> = std::env::args().skip(1).collect();
    if arguments.iter().any(|argument| argument == "--help") {
        print!("{HELP}");
        return ExitCode::SUCCESS;
    }
    match options(&arguments) {
        Some((options, long)) => run(&options, long),
        None => {
            eprint!("{HELP}");
            ExitCode::from(2)
        }
    }
}

fn options(arguments: &[String]) -> Option<(Options, u64)> {
    let (mut seed, mut calls, mut seconds, mut long) = (1, None, None, LONG_CALLS);
    let (command, pairs) = arguments.split_first()?;
    if command != "compare" || pairs.len() % 2 != 0 {
        return None;
    }
    for pair in pairs.chunks_exact(2) {
        let value = pair[1].parse().ok()?;
        match pair[0].as_str() {
            "--seed" => seed = value,
            "--calls" => calls = Some(value),
            "--seconds" => seconds = Some(value),
            "--long" => long = value,
            _ => return None,
        }
    }
    let all = if seconds.is_some() { u64::MAX } else { CALLS };
    let options = Options {
        seed,
        calls: calls.unwrap_or(all),
        seconds,
        policies: &[0, 5, 25],
        writes: true,
        logs: true,
    };
    Some((options, long))
}

fn run(options: &Options, long: u64) -> ExitCode {
    let (cells, names) = (skeinrabbit_sys::SIZES, [skeinrabbit_sys::NAMES_SIZE]);
    assert_eq!([&cells[..], &names].concat(), Table::ALL.map(Table::length));
    let begin = Instant::now();
    let mut tally = Tally::default();
    let different = sweep(&mut Core, options.seed, &mut tally)
        .or_else(|| sweep_files(&mut Core, &mut tally))
        .or_else(|| sweep_written(&mut Core, options.seed, &mut tally))
        .or_else(|| compare(&mut Core, options, &mut tally))
        .or_else(|| long_run(&mut Core, options.seed, long, &mut tally));
    let seconds = begin.elapsed().as_secs_f64();
    eprintln!("{} calls in {seconds:.1} seconds", tally.calls);
    let Some(case) = different else {
        println!(
            "seed {}, {} calls, no difference",
            options.seed, tally.calls
        );
        print!("{tally}");
        return ExitCode::SUCCESS;
    };
    println!("# seed {}, after {} calls", options.seed, tally.calls);
    match shrink(&mut Core, case) {
        Some((case, difference)) => print!("{}", scenario(&case, &difference)),
        None => println!("# the difference is gone when the calls are made again"),
    }
    ExitCode::FAILURE
}
