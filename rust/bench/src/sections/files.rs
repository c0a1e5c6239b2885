//! Policy files of the greatest size, read whole.

use crate::measure::{against, agree, line, table, time, Effort, Side};
use crate::plain::files::find;
use skeinrabbit_sys::find_policy;
use skeinrabbit_sys::layout::MAX_POLICY;

pub fn run(effort: Effort) {
    table(&[
        "Find in a file of 32,768 bytes",
        "proved core",
        "plain Rust",
        "ratio",
    ]);
    let many = |length: usize, name: &dyn Fn(u64) -> Vec<u8>| {
        let numbers = (0..).map(|number| ruleset(&name(number)));
        filled(
            numbers
                .take(MAX_POLICY / (30 + length))
                .collect::<Vec<_>>()
                .concat(),
        )
    };
    let two = |number: u64| (number as u16).to_be_bytes().to_vec();
    let four = |number: u64| (number as u32).to_be_bytes().to_vec();
    // All of these fall into one bucket of the core's.
    let alike = |number: u64| (16_381 * number as u32).to_be_bytes().to_vec();
    let ports = [ruleset(b"p"), port_rules()].concat();
    for (name, file, asked) in [
        (
            "one ruleset, one rule",
            filled(ruleset(b"p")),
            b"p".to_vec(),
        ),
        ("one ruleset, 2,516 rules", filled(ports), b"p".to_vec()),
        ("1,024 rulesets", many(2, &two), two(1023)),
        ("963 rulesets, names of 4 bytes", many(4, &four), four(962)),
        (
            "963 rulesets, names all in one bucket",
            many(4, &alike),
            alike(962),
        ),
    ] {
        assert_eq!(file.len(), MAX_POLICY, "{name}");
        compare(effort, name, &file, &asked);
    }
}

/// A ruleset without rules.
fn ruleset(name: &[u8]) -> Vec<u8> {
    let mut bytes = vec![1, name.len() as u8, 0];
    bytes.extend(name);
    bytes.extend([2, 24, 0, 4]);
    bytes.resize(30 + name.len(), 0);
    bytes
}

fn port_rules() -> Vec<u8> {
    let rule = |port: u16| [&[4, 10, 0, 1, 0, 0, 0, 0, 0, 0, 0][..], &port.to_le_bytes()].concat();
    (0..2516).flat_map(rule).collect()
}

/// A file filled up by a path rule, if there is room for one.
fn filled(mut file: Vec<u8>) -> Vec<u8> {
    let room = MAX_POLICY - file.len();
    if room > 0 {
        assert!(room >= 11);
        file.push(3);
        file.extend(((room - 3) as u16).to_le_bytes());
        file.extend([4, 0, 0, 0, 0, 0, 0, 0]);
        file.resize(MAX_POLICY, b'/');
    }
    file
}

/// The sides are the core and plain Rust; the file is the stock's, and the site's is empty.
fn compare(effort: Effort, name: &str, file: &[u8], asked: &[u8]) {
    let mut core = |_: u64| {
        let mut report = [0; 3];
        let answer = find_policy(file, &[], asked, &mut report);
        number((answer == 0).then_some(report))
    };
    let mut plain = |_: u64| number(find(file, &[], asked));
    let sides: &mut [&mut dyn Side] = &mut [&mut core, &mut plain];
    agree(name, 1, sides);
    let times = time(effort, 4, sides);
    line(name, &against(times[0], &times[1..]));
}

/// A report as one number.
fn number(report: Option<[u64; 3]>) -> u64 {
    report.map_or(u64::MAX, |[file, place, length]| {
        file << 62 | place << 31 | length
    })
}
