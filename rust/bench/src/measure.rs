//! Comparing and timing the two sides, and writing the tables of results.

use std::hint::black_box;
use std::time::Instant;

/// How long to measure.
#[derive(Clone, Copy)]
pub struct Effort {
    /// Runs of each side; the best one counts.
    pub runs: usize,
    /// Nanoseconds that a run of the slowest side takes, about.
    pub run: f64,
    /// Nanoseconds after which no further run of batches is begun, for each program.
    pub batches: f64,
    /// Damaged variants of each input that the soundness tests are compared on.
    pub damages: usize,
}

impl Effort {
    pub const FULL: Effort = Effort {
        runs: 101,
        run: 2e6,
        batches: 2e8,
        damages: 300,
    };
    pub const QUICK: Effort = Effort {
        runs: 3,
        run: 2e5,
        batches: 2e7,
        damages: 40,
    };
}

/// One of the programs compared: it answers question after question.
pub trait Side {
    fn answer(&mut self, question: u64) -> u64;

    /// Answers so many questions, from the first on.
    fn run(&mut self, questions: u64);
}

impl<F: FnMut(u64) -> u64> Side for F {
    fn answer(&mut self, question: u64) -> u64 {
        self(question)
    }

    fn run(&mut self, questions: u64) {
        for question in 0..questions {
            black_box(self(black_box(question)));
        }
    }
}

/// Ends the program if two sides differ.
pub fn differ(what: &str) -> ! {
    eprintln!("bench: {what}: the sides differ");
    std::process::exit(1);
}

/// Asks all sides the same questions.
pub fn agree(what: &str, questions: u64, sides: &mut [&mut dyn Side]) {
    for question in 0..questions {
        let first = sides[0].answer(question);
        if sides
            .iter_mut()
            .skip(1)
            .any(|side| side.answer(question) != first)
        {
            differ(&format!("{what}, question {question}"));
        }
    }
}

/// Nanoseconds a question for each side. All sides answer the same questions, `least` or more in a run, and take turns.
pub fn time(effort: Effort, least: u64, sides: &mut [&mut dyn Side]) -> Vec<f64> {
    let firsts = sides.iter_mut().map(|side| one_run(*side, least));
    let slowest = firsts.fold(1.0, f64::max);
    // Even, so that what goes there also comes back.
    let questions = least.max((effort.run / slowest) as u64).next_multiple_of(2);
    let mut best = vec![f64::MAX; sides.len()];
    for _ in 0..effort.runs {
        for (best, side) in best.iter_mut().zip(sides.iter_mut()) {
            *best = best.min(one_run(*side, questions));
        }
    }
    best
}

fn one_run(side: &mut dyn Side, questions: u64) -> f64 {
    let start = Instant::now();
    side.run(questions);
    start.elapsed().as_nanos() as f64 / questions as f64
}

/// Nanoseconds of processor time that this thread has taken: other work on the machine doesn't lengthen a long run by it.
pub fn processor_time() -> f64 {
    const OF_THIS_THREAD: i32 = 3;
    extern "C" {
        fn clock_gettime(clock: i32, at: *mut [i64; 2]) -> i32;
    }
    let mut at = [0; 2];
    // Seconds and nanoseconds are written there.
    let failed = unsafe { clock_gettime(OF_THIS_THREAD, &mut at) };
    assert_eq!(failed, 0, "Linux has this clock");
    at[0] as f64 * 1e9 + at[1] as f64
}

/// Begins a table in Markdown.
pub fn table(columns: &[&str]) {
    println!("\n| {} |", columns.join(" | "));
    println!("|{}", "---|".repeat(columns.len()));
}

/// A line of a table: a name, then cells.
pub fn line(name: &str, cells: &[String]) {
    println!("| {name} | {} |", cells.join(" | "));
}

/// The core's time, then each other time with the ratio of the core to it.
pub fn against(core: f64, others: &[f64]) -> Vec<String> {
    let mut cells = vec![duration(core)];
    for other in others {
        cells.push(duration(*other));
        cells.push(format!("{:.2}", core / other));
    }
    cells
}

/// Nanoseconds in words.
pub fn duration(nanoseconds: f64) -> String {
    let (number, unit) = if nanoseconds < 1000.0 {
        (nanoseconds, "ns")
    } else {
        (nanoseconds / 1000.0, "µs")
    };
    if number < 100.0 {
        format!("{number:.1} {unit}")
    } else {
        format!("{number:.0} {unit}")
    }
}
