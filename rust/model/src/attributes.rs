//! Attributes of every length for `create_ruleset`.

use crate::call::Call;
use crate::rulesets::known_size;
use crate::start::masks;
use random::Random;

/// The longest attribute, in bytes.
pub const LONGEST: usize = 4200;

/// What the bytes of an attribute are.
#[derive(Clone, Copy, PartialEq, Eq, PartialOrd, Ord, Debug)]
pub enum Filling {
    RandomBytes,
    /// Masks of the level, then zeros.
    ZeroTail,
    /// As with a zero tail, but for one byte past the level's known size.
    BytePastKnownSize,
}

impl Filling {
    pub const ALL: [Filling; 3] = [
        Filling::RandomBytes,
        Filling::ZeroTail,
        Filling::BytePastKnownSize,
    ];

    /// Whether attributes of a length can be filled so for tables of a level.
    pub fn fits(self, level: u64, length: usize) -> bool {
        self != Filling::BytePastKnownSize || length > known_size(level)
    }

    fn bytes(self, level: u64, length: usize, random: &mut Random) -> Vec<u8> {
        let mut bytes = match self {
            Filling::RandomBytes => (0..length).map(|_| random.number() as u8).collect(),
            _ => level_masks(level, random),
        };
        bytes.resize(length, 0);
        if self == Filling::BytePastKnownSize {
            let at = random.between(known_size(level) as u64, length as u64 - 1);
            bytes[at as usize] = random.between(1, 255) as u8;
        }
        bytes
    }
}

/// The bytes of random masks that a level knows, at its known size.
pub fn level_masks(level: u64, random: &mut Random) -> Vec<u8> {
    let masks = masks(level.max(1), random);
    let fields = [masks.fs.0, masks.net.0, masks.scope.0];
    let mut bytes: Vec<u8> = fields.into_iter().flat_map(u64::to_le_bytes).collect();
    bytes.truncate(known_size(level));
    bytes
}

/// Calls with attributes of a length for fresh tables of a level: one for each filling that fits,
/// sometimes followed by the same with flags.
pub fn calls(level: u64, length: usize, random: &mut Random) -> Vec<(Filling, Call)> {
    let mut calls = Vec::new();
    let fit = Filling::ALL
        .into_iter()
        .filter(|filling| filling.fits(level, length));
    for filling in fit {
        let bytes = filling.bytes(level, length, random);
        let create = |flags| Call::CreateRuleset {
            bytes: bytes.clone(),
            flags,
        };
        calls.push((filling, create(0)));
        if random.chance(10) {
            calls.push((filling, create(random.edge().max(1))));
        }
    }
    calls
}
