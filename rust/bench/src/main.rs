//! The proved core against ordinary Rust: same input, both built for release, answers compared first.

mod core;
mod damage;
mod inputs;
mod landlock;
mod measure;
mod plain;
mod requests;
mod sections;
mod tables;

use measure::Effort;
use sections::{Section, SECTIONS};

const USAGE: &str = "usage: bench [--quick] [parts|verdicts|batch|calls|files|written|soundness]..";

struct Options {
    effort: Effort,
    /// The sections to run, in order.
    sections: Vec<&'static Section>,
}

fn options(arguments: impl Iterator<Item = String>) -> Option<Options> {
    let mut options = Options {
        effort: Effort::FULL,
        sections: Vec::new(),
    };
    for argument in arguments {
        if argument == "--quick" {
            options.effort = Effort::QUICK;
        } else {
            let section = SECTIONS.iter().find(|section| section.name == argument)?;
            options.sections.push(section);
        }
    }
    if options.sections.is_empty() {
        options.sections.extend(&SECTIONS);
    }
    Some(options)
}

fn main() {
    let Some(options) = options(std::env::args().skip(1)) else {
        eprintln!("{USAGE}");
        std::process::exit(2);
    };
    println!(
        "Times are the best of {} runs each; a ratio is the core's time to the other one's.",
        options.effort.runs
    );
    for section in options.sections {
        (section.run)(options.effort);
    }
}
