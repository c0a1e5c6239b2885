//! Random batches: of all sorts, with any numbers in the cells that a sort does not use, names at any place of
//! the names or outside, and lists that are refused.

use super::{Batch, Sort, ANSWER, REQUEST};
use crate::call::Call;
use crate::generate::asked_call;
use crate::state::Model;
use random::Random;

/// A batch for tables that show a model.
pub fn batch(model: &Model, random: &mut Random) -> Batch {
    let count = match random.below(20) {
        0 => 0,
        1 => random.between(20, 100),
        _ => random.between(1, 10),
    };
    let mut batch = Batch {
        names: (0..random.below(4)).map(|_| b'x').collect(),
        ..Batch::default()
    };
    for _ in 0..count {
        batch.push(&asked_call(model, random), random);
    }
    if random.chance(40) {
        batch.put_names_outside(random);
    }
    let room = ANSWER * count as usize;
    let more = random.pick(&[0, 0, 1, 2, 3, 10]);
    batch.answers = (0..room + more).map(|_| random.number()).collect();
    match random.below(12) {
        0 => batch.end_within_a_request(random),
        1 => batch.take_another_sort(random),
        2 => batch.leave_too_little_room(random),
        _ => {}
    }
    batch
}

impl Batch {
    /// The number of whole requests.
    fn count(&self) -> u64 {
        (self.requests.len() / REQUEST) as u64
    }

    /// Appends a request for a call.
    fn push(&mut self, call: &Call, random: &mut Random) {
        let mut cells = [(); REQUEST].map(|()| unused(random));
        let numbers = call.numbers();
        let sort = Sort::ALL.into_iter().find(|s| s.name() == call.name());
        cells[0] = sort.map_or(0, |sort| sort as u64);
        // The last number is the length of the report.
        for (cell, number) in cells[1..].iter_mut().zip(&numbers[..numbers.len() - 1]) {
            *cell = *number;
        }
        if let Some(name) = call.bytes() {
            cells[5] = self.place(name, random);
            cells[6] = name.len() as u64;
        }
        self.requests.extend(cells);
    }

    /// Where a name starts in the names: perhaps where it is already, else behind them.
    fn place(&mut self, name: &[u8], random: &mut Random) -> u64 {
        let parts = self.names.windows(name.len().max(1));
        let there = parts
            .enumerate()
            .filter(|(_, part)| part.starts_with(name))
            .map(|(start, _)| start as u64)
            .collect::<Vec<u64>>();
        match random.pick_some(&there) {
            Some(start) if random.chance(50) => start,
            _ => {
                let start = self.names.len() as u64;
                self.names.extend_from_slice(name);
                start
            }
        }
    }

    /// Gives some requests a name that does not lie in the names.
    fn put_names_outside(&mut self, random: &mut Random) {
        let all = self.names.len() as u64;
        for row in self.requests.chunks_exact_mut(REQUEST) {
            if random.chance(20) {
                let inside = random.below(all + 1);
                let part = match random.below(8) {
                    0 => (all, 1),
                    1 => (all + 1, 0),
                    2 => (inside, all - inside + 1),
                    3 => (inside, random.number()),
                    4 => (random.number(), 1),
                    // The end is a place in the names only if it is counted with 64 bits.
                    5 => (inside, inside.wrapping_neg()),
                    6 => (u64::MAX, 1 + inside),
                    _ => (u64::MAX, u64::MAX),
                };
                row[5..].copy_from_slice(&[part.0, part.1]);
            }
        }
    }

    /// Cuts cells of the last request, or begins another one.
    fn end_within_a_request(&mut self, random: &mut Random) {
        let more = random.between(1, REQUEST as u64 - 1) as usize;
        if random.chance(50) && !self.requests.is_empty() {
            self.requests.truncate(self.requests.len() - more);
        } else {
            self.requests
                .extend((0..more).map(|_| random.between(1, 5)));
        }
    }

    /// Gives a request another sort.
    fn take_another_sort(&mut self, random: &mut Random) {
        if self.count() > 0 {
            let request = random.below(self.count()) as usize;
            let others = [0, 6, 7, 255, 256, 257, (1 << 32) + 1, u64::MAX];
            self.requests[REQUEST * request] = random.pick(&others);
        }
    }

    /// Cuts the answers, so that the last one has no room.
    fn leave_too_little_room(&mut self, random: &mut Random) {
        let needed = ANSWER as u64 * self.count();
        if needed > 0 {
            let left = random.pick(&[0, needed / 2, needed - 3, needed - 2, needed - 1]);
            self.answers.truncate(left as usize);
        }
    }
}

/// What a cell may hold that is not read.
fn unused(random: &mut Random) -> u64 {
    match random.below(3) {
        0 => random.below(9),
        1 => random.edge(),
        _ => random.number(),
    }
}
