//! Every example of the pages about the program: each scenario is played, each output is what the program writes.
mod support;
use std::path::Path;
use support::{command, json, ran, skein_with, Ran, Scratch};

/// A block of code in a document.
struct Block {
    line: usize,
    language: String,
    text: String,
}

/// The blocks of a document. Every block must be fenced and say what it is, so that none is passed over.
fn blocks(document: &str) -> Vec<Block> {
    let mut blocks: Vec<Block> = Vec::new();
    let mut inside = false;
    for (place, line) in document.lines().enumerate() {
        match (inside, line.strip_prefix("```")) {
            (false, Some(language)) => {
                blocks.push(Block {
                    line: place + 1,
                    language: language.to_owned(),
                    text: String::new(),
                });
                inside = true;
            }
            (true, Some(end)) => {
                assert_eq!(end, "", "line {}", place + 1);
                inside = false;
            }
            (true, None) => {
                let block = blocks.last_mut().expect("a block that began");
                block.text.push_str(&format!("{line}\n"));
            }
            (false, None) => {
                let code = line.starts_with("    ") && !line.trim_start().starts_with('`');
                assert!(!code, "line {}: a block without a fence", place + 1);
            }
        }
    }
    assert!(!inside, "a block that does not end");
    blocks
}

/// The pages, each with the least numbers of scenarios that are played and of outputs that are compared.
const PAGES: [(&str, usize, usize); 7] = [
    ("SCENARIO", 4, 4),
    ("EXPLAIN", 0, 3),
    ("WHY", 0, 1),
    ("SEARCH", 0, 2),
    ("DIFF", 1, 3),
    ("LEAST", 0, 1),
    ("LOG", 1, 0),
];

fn page(name: &str) -> Vec<Block> {
    let path = Path::new(env!("CARGO_MANIFEST_DIR")).join(format!("../../docs/{name}.md"));
    blocks(&std::fs::read_to_string(path).expect("the page"))
}

/// Plays a scenario that must answer as it says; answers how many lines say what they expect.
fn plays(block: &Block) -> u64 {
    let ran = skein_with(&["run", "--json", "-"], block.text.as_bytes());
    assert_eq!(ran.code, 0, "line {}: {}{}", block.line, ran.out, ran.err);
    json(&ran.out).at("expectations").number()
}

/// Runs the command of a `console` block on the last scenarios or policies, as many as it names files, and compares what it writes.
fn writes(block: &Block, texts: &[&str]) {
    let (first, expected) = block.text.split_once('\n').expect("a command");
    let command_line = first.strip_prefix("$ skein ").expect("a command");
    let words = command_line.strip_suffix("; echo \"exit $?\"");
    let words: Vec<&str> = words.expect("a command that ends so").split(' ').collect();
    let is_file = |word: &str| word.ends_with(".skein") || word.ends_with(".txt");
    let names: Vec<&str> = words.iter().copied().filter(|word| is_file(word)).collect();
    assert!(!names.is_empty() && names.len() <= texts.len());
    let last = &texts[texts.len() - names.len()..];
    let files = names.iter().zip(last);
    let files: Vec<Scratch> = files
        .map(|(name, text)| Scratch::new(name, text.as_bytes()))
        .collect();
    let folder = files[0].0.parent().expect("a folder");
    let output = command(&words).current_dir(folder).output();
    let Ran { code, out, err } = ran(output.expect("the program runs"));
    let written = format!("{out}{err}exit {code}\n");
    assert_eq!(written, expected, "line {}:\n{written}", block.line);
}

/// Plays the scenarios of a page, and compares the outputs that it shows; answers how many of each.
fn play(blocks: &[Block]) -> (usize, usize) {
    let (mut played, mut compared) = (0, 0);
    let mut texts = Vec::new();
    for (place, block) in blocks.iter().enumerate() {
        let shown = |next: &Block| next.language == "console";
        match block.language.as_str() {
            "skein" => {
                texts.push(block.text.as_str());
                // What is shown below it need not be what a scenario wants.
                if !blocks.get(place + 1).is_some_and(shown) {
                    assert!(plays(block) > 0, "line {}: expects nothing", block.line);
                    played += 1;
                }
            }
            "console" => {
                writes(block, &texts);
                compared += 1;
            }
            "policy" => texts.push(block.text.as_str()),
            // C is compiled by tests/c/run.
            "text" | "c" => {}
            other => panic!("line {}: `{other}` is no kind of example", block.line),
        }
    }
    (played, compared)
}

#[test]
fn every_example_of_the_pages_is_played() {
    for (name, least_played, least_compared) in PAGES {
        let (played, compared) = play(&page(name));
        assert!(
            played >= least_played && compared >= least_compared,
            "{name}: {played} and {compared}"
        );
    }
}
