//! Batches of mixed requests. The other programs take the tables for sound, which the core tests in each batch.

use crate::inputs::{self, Refer};
use crate::landlock::{DIRECTORY, EISDIR, ENOSPC, ENOTDIR, ENOTEMPTY};
use crate::measure::{against, differ, line, processor_time, table, Effort};
use crate::plain::batch::{Batch, Layers, Merged, Quick, Rules, Sorted};
use crate::requests::{part, Requests, ANSWER_WIDTH, REQUEST_WIDTH};
use crate::tables::Tables;
use skeinrabbit_sys::NoLog;
use std::collections::hash_map::RandomState;
use std::collections::HashMap;

const MILLION: usize = 1_000_000;
/// Requests in a batch, in words and as a number, and batches in a run.
type Size = (&'static str, usize, usize);
const SIZES: [Size; 3] = [
    ("100", 100, 100),
    ("10,000", 10_000, 4),
    ("1,000,000", MILLION, 1),
];
/// Requests whose answers are compared with those of single calls.
const CALLED: usize = 10_000;

/// When the structures are made from the tables.
#[derive(Clone, Copy)]
enum Made {
    InEachBatch,
    Before,
}

struct Input {
    name: &'static str,
    tables: Tables,
    requests: Requests,
}

pub fn run(effort: Effort) {
    let wide = |layers| inputs::wide(layers, Refer::Everywhere);
    let inputs = [
        ("1,000 entries, 4 layers", wide(4)),
        ("1,000 entries, 64 layers", wide(64)),
        ("every table full, 4 domains of 64 layers", inputs::full()),
    ];
    let inputs = inputs.map(|(name, tables)| Input {
        name,
        requests: Requests::mixed(&tables, MILLION),
        tables,
    });
    for input in &inputs {
        check_calls(input);
    }
    println!(
        "\nBatches: processor time. A program that has taken {} s is not run again.",
        effort.batches / 1e9
    );
    measure(effort, &inputs, Made::InEachBatch, &SIZES);
    // A million requests take the same time with it.
    measure(effort, &inputs, Made::Before, &SIZES[..2]);
}

fn measure(effort: Effort, inputs: &[Input], made: Made, sizes: &[Size]) {
    let what = match made {
        Made::InEachBatch => "A request, structures made in each batch",
        Made::Before => "A request, structures made before",
    };
    table(&[
        what,
        "granted",
        "proved core",
        "a map a layer",
        "ratio",
        "sorted vectors",
        "ratio",
        "a map a domain",
        "ratio",
        "the same, quick hash",
        "ratio",
    ]);
    for input in inputs {
        for size in sizes {
            compare(effort, input, made, size);
        }
    }
}

/// Answers the requests, with names that are parts of the bytes.
type Program<'a> = Box<dyn Fn(&[u64], &[u8], &mut [u64]) -> u64 + 'a>;

/// The core, which makes nothing before, and the others.
fn programs(tables: &Tables, made: Made) -> Vec<Program<'_>> {
    vec![
        Box::new(|requests, names, answers| {
            skeinrabbit_sys::batch(tables.shared(), requests, names, answers)
        }),
        program::<Layers<HashMap<u64, u64>>>(tables, made),
        program::<Layers<Sorted>>(tables, made),
        program::<Merged<RandomState>>(tables, made),
        program::<Merged<Quick>>(tables, made),
    ]
}

fn program<'a, R: Rules + 'a>(tables: &'a Tables, made: Made) -> Program<'a> {
    match made {
        Made::InEachBatch => Box::new(|requests, names, answers| {
            Batch::<R>::new(tables).answer(requests, names, answers)
        }),
        Made::Before => {
            let batch = Batch::<R>::new(tables);
            Box::new(move |requests, names, answers| batch.answer(requests, names, answers))
        }
    }
}

fn compare(effort: Effort, input: &Input, made: Made, (words, size, batches): &Size) {
    let name = format!("{}, batches of {words}", input.name);
    let programs = programs(&input.tables, made);
    let count = size * batches;
    let mut answers = vec![vec![0; ANSWER_WIDTH * count]; programs.len()];
    let mut best = vec![f64::MAX; programs.len()];
    let mut spent = vec![0.0; programs.len()];
    for _ in 0..effort.runs {
        for (place, program) in programs.iter().enumerate() {
            if spent[place] > effort.batches {
                continue;
            }
            let took = run_once(program, &input.requests, *size, &mut answers[place]);
            spent[place] += took;
            best[place] = best[place].min(took / count as f64);
        }
    }
    if answers.iter().any(|other| *other != answers[0]) {
        differ(&name);
    }
    let granted = answers[0].chunks_exact(ANSWER_WIDTH);
    let granted = granted.filter(|answer| answer[0] == 0).count();
    let mut cells = vec![format!("{} %", 100 * granted / count)];
    cells.extend(against(best[0], &best[1..]));
    line(&name, &cells);
}

/// Answers requests in batches of a size; the nanoseconds that it took.
fn run_once(program: &Program, requests: &Requests, size: usize, answers: &mut [u64]) -> f64 {
    let batches = requests.cells.chunks_exact(REQUEST_WIDTH * size);
    let start = processor_time();
    for (batch, answers) in batches.zip(answers.chunks_exact_mut(ANSWER_WIDTH * size)) {
        assert_eq!(program(batch, &requests.names, answers), 0);
    }
    processor_time() - start
}

/// Ends the program if the calls themselves answer otherwise.
fn check_calls(input: &Input) {
    let cells = &input.requests.cells[..REQUEST_WIDTH * CALLED];
    let mut answers = vec![0; ANSWER_WIDTH * CALLED];
    let programs = programs(&input.tables, Made::Before);
    programs[0](cells, &input.requests.names, &mut answers);
    let rows = cells.chunks_exact(REQUEST_WIDTH);
    let mut changed = input.tables.clone();
    for (row, answer) in rows.zip(answers.chunks_exact(ANSWER_WIDTH)) {
        if called(&mut changed, input, row) != *answer {
            differ(&format!("{}, request {row:?}", input.name));
        }
        if answer[0] == 0 && row[0] > 2 {
            changed.copy_from(&input.tables);
        }
    }
}

/// The answer of the call itself; what comes after its verdict is no refusal here.
fn called(tables: &mut Tables, input: &Input, row: &[u64]) -> [u64; ANSWER_WIDTH] {
    let [sort, thread, a, b, c, from, length] = *row else {
        unreachable!("a row has so many cells");
    };
    let name = part(&input.requests.names, from, length);
    let mut cells = [0; 2];
    let (report, log) = (&mut cells, &mut NoLog::new());
    let log = &mut log.log();
    let answer = match sort {
        1 => skeinrabbit_sys::access(tables.shared(), thread, a, b, report),
        2 => skeinrabbit_sys::port(tables.shared(), thread, a, b, report),
        3 => skeinrabbit_sys::link(&mut tables.cells(), thread, a, b, name, log, report),
        4 => skeinrabbit_sys::rename(&mut tables.cells(), thread, a, b, name, log, report),
        _ => skeinrabbit_sys::exchange(&mut tables.cells(), thread, a, b, c, log, report),
    };
    let errno = match answer.wrapping_neg() {
        ENOSPC | EISDIR | ENOTEMPTY => 0,
        ENOTDIR if input.tables.kind(b) == DIRECTORY => 0,
        _ if answer <= u64::from(u32::MAX) => 0,
        errno => errno,
    };
    [errno, cells[0], cells[1]]
}
