//! What is measured.

mod batch;
mod calls;
mod files;
mod parts;
mod soundness;
mod verdicts;
mod written;

use crate::inputs::{self, Refer};
use crate::measure::Effort;
use crate::tables::Tables;

pub struct Section {
    pub name: &'static str,
    pub run: fn(Effort),
}

pub const SECTIONS: [Section; 7] = [
    Section {
        name: "parts",
        run: parts::run,
    },
    Section {
        name: "verdicts",
        run: verdicts::run,
    },
    Section {
        name: "batch",
        run: batch::run,
    },
    Section {
        name: "calls",
        run: calls::run,
    },
    Section {
        name: "files",
        run: files::run,
    },
    Section {
        name: "written",
        run: written::run,
    },
    Section {
        name: "soundness",
        run: soundness::run,
    },
];

/// The tables that verdicts and whole calls are measured on.
fn policies() -> [(&'static str, Tables); 6] {
    let wide = |layers| inputs::wide(layers, Refer::Everywhere);
    [
        ("fresh, 4 entries", inputs::fresh()),
        ("1,000 entries, 1 layer", wide(1)),
        ("1,000 entries, 4 layers", wide(4)),
        ("1,000 entries, 16 layers", wide(16)),
        ("1,000 entries, 64 layers", wide(64)),
        ("1,023 deep, 1 layer", inputs::chain()),
    ]
}

/// The tables that the soundness test is measured on, alone and in a whole access call.
fn sound_tables() -> [(&'static str, Tables); 10] {
    let (crowded, full) = (inputs::crowded(), inputs::full());
    [
        ("4 entries, no layer", inputs::fresh()),
        ("1,000 entries, 41 layers of 4 to 36 rules", crowded.clone()),
        (
            "the same, objects all in one bucket",
            inputs::spread(crowded.clone(), 1024),
        ),
        (
            "the same, objects in the deepest tree",
            inputs::spread(crowded, 1 << 22),
        ),
        ("1,000 hard links of one file", inputs::linked()),
        (
            "999 names of 48 bytes that begin alike",
            inputs::long_names(),
        ),
        ("999 names all in one bucket", inputs::one_bucket()),
        ("1,023 deep, 1 layer", inputs::chain()),
        ("every table full", full.clone()),
        (
            "every table full, objects in the deepest tree",
            inputs::spread(full, 1 << 22),
        ),
    ]
}
