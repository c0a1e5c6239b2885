//! Kills a broker that keeps its log in a file, again and again, and compares what is left with the model.

mod broker;
mod mirror;
mod store;
mod trial;

use random::Random;
use std::path::{Path, PathBuf};
use std::process::ExitCode;
use std::time::{Duration, Instant};
use trial::{Counts, Outcome, Trial};

const HELP: &str = "\
usage: crash [--seed N] [--seconds N] [--directory DIRECTORY]

Starts a broker that keeps its log in a file, asks it for changes, and kills it with SIGKILL at a random
moment; the next one goes on from the files. After each kill nothing that was acknowledged may be lost,
and replay must give the tree that the model has after the whole fields. Some of the files are cut at
every byte and replayed.

  --seed N     the seed of tables and requests (default 1)
  --seconds N  how long (default 60)
  --directory DIRECTORY
               where the files are (default /dev/shm, where a kill is most likely to find the broker at
               work, or that of temporary files)

Exit code 1 says that something was lost or differs, 2 that the arguments are wrong.
";

/// Where files are in memory.
const MEMORY: &str = "/dev/shm";

struct Options {
    seed: u64,
    time: Duration,
    directory: PathBuf,
}

fn main() -> ExitCode {
    let arguments: Vec<String> = std::env::args().skip(1).collect();
    if arguments.iter().any(|argument| argument == "--help") {
        print!("{HELP}");
        return ExitCode::SUCCESS;
    }
    let words: Vec<&str> = arguments.iter().map(String::as_str).collect();
    let done = match (words.as_slice(), options(&words)) {
        (["broker", directory], _) => broker::run(Path::new(directory)),
        (_, Some(options)) => trials(&options),
        _ => {
            eprint!("{HELP}");
            return ExitCode::from(2);
        }
    };
    match done {
        Ok(()) => ExitCode::SUCCESS,
        Err(error) => {
            eprintln!("crash: {error}");
            ExitCode::FAILURE
        }
    }
}

fn options(words: &[&str]) -> Option<Options> {
    let memory = PathBuf::from(MEMORY);
    let mut options = Options {
        seed: 1,
        time: Duration::from_secs(60),
        directory: match memory.is_dir() {
            true => memory,
            false => std::env::temp_dir(),
        },
    };
    let mut pairs = words.chunks_exact(2);
    for pair in &mut pairs {
        match pair[0] {
            "--seed" => options.seed = pair[1].parse().ok()?,
            "--seconds" => options.time = Duration::from_secs(pair[1].parse().ok()?),
            "--directory" => options.directory = PathBuf::from(pair[1]),
            _ => return None,
        }
    }
    pairs.remainder().is_empty().then_some(options)
}

/// Trials, each in a directory of its own, for some time.
fn trials(options: &Options) -> Outcome<()> {
    let begin = Instant::now();
    let mut random = Random::new(options.seed);
    let mut counts = Counts::default();
    while begin.elapsed() < options.time {
        let seed = random.number();
        let name = format!("skeinrabbit-crash-{}-{seed:x}", std::process::id());
        let directory = options.directory.join(name);
        std::fs::create_dir(&directory)?;
        Trial::run(&directory, seed, &mut counts)
            .map_err(|error| format!("seed {seed}, in {}: {error}", directory.display()))?;
        std::fs::remove_dir_all(&directory)?;
    }
    println!("seed {}: {counts}", options.seed);
    Ok(())
}
