//! What happens to a queue: posts, turns, and damage to its cells.

use super::cells::{QueueCells, QueuePart};
use super::{Request, State, SLOTS};
use crate::generate::access_request;
use crate::state::Model;
use random::Random;

#[derive(Clone, PartialEq, Eq, Debug)]
pub enum Event {
    Post {
        slot: u64,
        request: Request,
    },
    Turn,
    Poke {
        part: QueuePart,
        cell: usize,
        value: u64,
    },
    /// Cuts a list, or fills it up with zeros.
    Resize {
        list: QueuePart,
        length: usize,
    },
}

impl Event {
    /// The event's name, if it is a post or a turn.
    pub fn name(&self) -> Option<&'static str> {
        match self {
            Event::Post { .. } => Some("post"),
            Event::Turn => Some("turn"),
            Event::Poke { .. } | Event::Resize { .. } => None,
        }
    }

    /// Writes or resizes, where the event is damage.
    pub fn damage(&self, queue: &mut QueueCells) {
        match *self {
            Event::Poke { part, cell, value } => queue.poke(part, cell, value),
            Event::Resize { list, length } => queue.resize(list, length),
            Event::Post { .. } | Event::Turn => {}
        }
    }
}

/// A post or a turn, for tables that show a model.
pub fn event(model: &Model, random: &mut Random) -> Event {
    if random.chance(48) {
        return Event::Turn;
    }
    let slot = match random.below(20) {
        0 => random.edge(),
        1 => SLOTS as u64,
        _ => random.below(SLOTS as u64),
    };
    let request = access_request(model, random);
    Event::Post { slot, request }
}

/// Writes cells so that a sound queue stays sound: any cursor, states, requests and answers.
pub fn other_queue(random: &mut Random) -> Vec<Event> {
    let count = random.between(1, 4);
    let pokes = (0..count).map(|_| {
        let part = random.pick(&[
            QueuePart::Cursor,
            QueuePart::States,
            QueuePart::States,
            QueuePart::Answers,
        ]);
        let value = match part {
            QueuePart::Cursor => random.below(SLOTS as u64),
            QueuePart::States => random.pick(&State::ALL) as u64,
            QueuePart::Requests | QueuePart::Answers => random.edge(),
        };
        poke(part, value, random)
    });
    pokes.collect()
}

/// Damages a queue in one way or in two, so that it isn't sound, or only its requests and answers are odd.
pub fn damage(random: &mut Random) -> Vec<Event> {
    let mut events = one_damage(random);
    if random.chance(30) {
        events.extend(one_damage(random));
    }
    events
}

fn one_damage(random: &mut Random) -> Vec<Event> {
    match random.below(8) {
        0 | 1 => {
            let value = random.pick(&[8, 8, 9, 15, 255, 256, 1 << 32, 1 << 63, u64::MAX]);
            vec![poke(QueuePart::Cursor, value, random)]
        }
        2 | 3 => {
            let value = random.pick(&[3, 3, 4, 255, 256, 257, 1 << 32, (1 << 32) + 1, u64::MAX]);
            vec![poke(QueuePart::States, value, random)]
        }
        4 => {
            let part = random.pick(&[QueuePart::Requests, QueuePart::Answers]);
            let value = random.edge();
            vec![poke(part, value, random)]
        }
        _ => wrong_length(random),
    }
}

/// A write of a cell of a part.
fn poke(part: QueuePart, value: u64, random: &mut Random) -> Event {
    let cell = random.below(part.length() as u64) as usize;
    Event::Poke { part, cell, value }
}

/// Gives a list a wrong length; in a longer one, cells past the end may be set.
fn wrong_length(random: &mut Random) -> Vec<Event> {
    let list = random.pick(&QueuePart::LISTS);
    let right = list.length() as u64;
    let slot = right / SLOTS as u64;
    let length = match random.below(6) {
        0 => 0,
        1 => right - 1,
        2 => right - slot,
        3 => right + 1,
        4 => right + slot,
        _ => random.below(2 * right),
    } as usize;
    let mut events = vec![Event::Resize { list, length }];
    if random.chance(50) {
        let past = list.length()..length;
        events.extend(past.map(|cell| Event::Poke {
            part: list,
            cell,
            value: random.pick(&[1, 1, 2, 3, u64::MAX]),
        }));
    }
    events
}

/// The events that make the cells of a damaged queue again what they were.
pub fn undo(damaged: &QueueCells, right: &QueueCells) -> Vec<Event> {
    let mut queue = damaged.clone();
    let mut events = Vec::new();
    for list in QueuePart::LISTS {
        let length = right.length(list);
        if queue.length(list) != length {
            queue.resize(list, length);
            events.push(Event::Resize { list, length });
        }
    }
    for part in QueuePart::ALL {
        let cells = 0..right.length(part);
        let other = cells.filter(|cell| queue.cell(part, *cell) != right.cell(part, *cell));
        events.extend(other.map(|cell| Event::Poke {
            part,
            cell,
            value: right.cell(part, cell),
        }));
    }
    events
}
