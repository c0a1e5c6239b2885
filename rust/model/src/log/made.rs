//! Random logs: some with about the room that a field needs, some to be replayed, fine and damaged.

use super::{field, Log, LONGEST_VALUE};
use crate::generate::tree_call;
use crate::policy::files::{self, places};
use crate::state::Model;
use random::Random;

/// A log with about the room for a field of so many bytes, or one whose mark lies behind its end.
pub fn tight(need: usize, random: &mut Random) -> Log {
    let used = random.pick(&[0, 0, 1, 5, 300]);
    let room = match random.below(10) {
        0 => 0,
        1 => random.below(need as u64) as usize,
        2 => need - 3,
        3 | 4 => need - 1,
        5..=7 => need,
        _ => need + random.between(1, 80) as usize,
    };
    let bytes = junk(used + room, random);
    let end = bytes.len() as u64;
    let used = match random.below(12) {
        0 => end + random.between(1, 4),
        // With the field's length added this is a small number.
        1 => (need as u64).wrapping_neg() + random.below(3),
        2 => end.max(random.edge()),
        _ => used as u64,
    };
    Log { bytes, used }
}

fn junk(length: usize, random: &mut Random) -> Vec<u8> {
    (0..length).map(|_| random.number() as u8).collect()
}

/// A log to be replayed onto tables that show a model.
pub fn replayed(model: &Model, random: &mut Random) -> Vec<u8> {
    let mut after = model.undenied();
    let mut log = Log::plenty();
    for _ in 0..random.pick(&[0, 1, 2, 4, 8, 16]) {
        let call = tree_call(&after, random);
        drop(after.answer_logged(&mut log, &call));
    }
    let mut log = log.written().to_vec();
    if random.chance(60) {
        damage(&mut log, &after, random);
    }
    if random.chance(30) {
        log.extend(tail(random));
    }
    log
}

/// Damages a log to be replayed, after which the tables show a model.
pub fn damage(log: &mut Vec<u8>, after: &Model, random: &mut Random) {
    let fields = places(log);
    let place = random.pick(&fields);
    let next = fields.iter().copied().find(|next| *next > place);
    let next = next.unwrap_or(place);
    match random.below(16) {
        0..=3 => log.extend(field(&tree_call(after, random)).unwrap_or_default()),
        4..=7 => drop(log.splice(place..place, odd_field(random))),
        8 => lengthen(log, place, next, random),
        9 => drop(log.drain(place..next)),
        10 => {
            let again = log[place..next].to_vec();
            let at = random.pick(&fields);
            log.splice(at..at, again);
        }
        11 | 12 => {
            let any = random.number() as u8;
            if let Some(byte) = log.get_mut(place + random.below(8) as usize) {
                *byte = random.pick(&[0, 1, 2, 16, 17, 18, 19, 20, 255, any]);
            }
        }
        _ => log.truncate(random.below(log.len() as u64 + 1) as usize),
    }
}

/// A field of any tag with any value.
fn odd_field(random: &mut Random) -> Vec<u8> {
    let listed = random.between(16, 20) as u8;
    let tag = random.pick(&[0, 1, 5, 15, 21, 255, listed, listed, listed, listed]);
    let length = random.pick(&[0, 1, 2, 3, 4, 5, 6, 7, 8, 64, 65, 256, 300]);
    let mut value = junk(length, random);
    // Entries that may be there.
    for byte in value.iter_mut().take(6).skip(1).step_by(2) {
        *byte = 0;
    }
    files::field(tag, &value)
}

/// Puts bytes behind the value of a field, up to about as many as it may have.
fn lengthen(log: &mut Vec<u8>, place: usize, next: usize, random: &mut Random) {
    let [tag, _, _, value @ ..] = &log[place..next] else {
        return;
    };
    let mut value = value.to_vec();
    let length = random.pick(&[value.len() + 1, LONGEST_VALUE, LONGEST_VALUE + 1, 300]);
    value.resize(length, b'x');
    let field = files::field(*tag, &value);
    log.splice(place..next, field);
}

/// The beginning of a field.
fn tail(random: &mut Random) -> Vec<u8> {
    let tag = random.pick(&[0, 1, 16, 17, 18, 19, 20, 21, 255]);
    let length = random.pick(&[1, 2, 6, 20, 64, 65, 256, 65_535]);
    let mut field = files::field(tag, &vec![b'x'; length]);
    let last = field.len() as u64 - 1;
    let any = random.between(1, last);
    let kept = random.pick(&[1, 2, 3, 4, last, any]);
    field.truncate(kept.min(last) as usize);
    field
}
