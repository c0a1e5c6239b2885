//! The soundness test alone.

use super::sound_tables;
use crate::core;
use crate::damage::{at_limits, damaged};
use crate::measure::{against, differ, duration, line, table, time, Effort};
use crate::plain::soundness::{is_sound, Buckets, Pairwise};
use crate::tables::Tables;
use random::Random;

pub fn run(effort: Effort) {
    let inputs = sound_tables();
    let mut random = Random::new(41);
    let mut tally = Tally::default();
    for (name, tables) in &inputs {
        compare_damaged(effort, name, tables, &mut random, &mut tally);
    }
    println!(
        "\nThe three soundness tests agreed on {} damaged variants of the inputs below ({} of them sound).",
        tally.variants, tally.sound
    );
    table(&[
        "Soundness test",
        "proved core",
        "plain, pairwise",
        "ratio",
        "plain, fast",
        "ratio",
        "sum of all cells",
    ]);
    for (name, tables) in &inputs {
        measure(effort, name, tables);
    }
}

/// What the comparison has met.
#[derive(Default)]
struct Tally {
    variants: usize,
    sound: usize,
}

/// What all tests answer.
fn agreed(name: &str, tables: &Tables) -> bool {
    let core = core::is_sound(tables);
    if core != is_sound::<Pairwise>(tables) || core != is_sound::<Buckets>(tables) {
        differ(&format!("soundness of {name}"));
    }
    core
}

fn compare_damaged(
    effort: Effort,
    name: &str,
    tables: &Tables,
    random: &mut Random,
    tally: &mut Tally,
) {
    assert!(agreed(name, tables), "{name}: the input is sound");
    let mut variants = at_limits(tables);
    variants.extend((0..effort.damages).map(|_| damaged(tables, random)));
    for (number, variant) in variants.iter().enumerate() {
        let sound = agreed(&format!("{name}, damaged variant {number}"), variant);
        tally.variants += 1;
        tally.sound += usize::from(sound);
    }
}

fn measure(effort: Effort, name: &str, tables: &Tables) {
    let times = time(
        effort,
        2,
        &mut [
            &mut |_: u64| core::is_sound(tables).into(),
            &mut |_: u64| is_sound::<Pairwise>(tables).into(),
            &mut |_: u64| is_sound::<Buckets>(tables).into(),
            &mut |_: u64| tables.sum(),
        ],
    );
    let mut cells = against(times[0], &times[1..3]);
    cells.push(duration(times[3]));
    line(name, &cells);
}
