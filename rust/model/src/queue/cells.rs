//! The queue as cells of any length and contents.

use super::{Queue, Request, Slot, SlotAnswer, State, SLOTS};
use crate::refusal::Refusal;

/// The cells of a request and of an answer.
const REQUEST: usize = 3;
const ANSWER: usize = 4;

/// The lists of a queue, and its cursor.
#[derive(Clone, Copy, PartialEq, Eq, PartialOrd, Ord, Debug)]
pub enum QueuePart {
    Requests,
    States,
    Answers,
    /// The number of the slot served last; it is no list.
    Cursor,
}

impl QueuePart {
    pub const LISTS: [QueuePart; 3] = [QueuePart::Requests, QueuePart::States, QueuePart::Answers];
    pub const ALL: [QueuePart; 4] = [
        QueuePart::Requests,
        QueuePart::States,
        QueuePart::Answers,
        QueuePart::Cursor,
    ];

    pub fn name(self) -> &'static str {
        ["requests", "states", "answers", "cursor"][self as usize]
    }

    pub fn length(self) -> usize {
        [SLOTS * REQUEST, SLOTS, SLOTS * ANSWER, 1][self as usize]
    }
}

/// The cells of a queue.
#[derive(Clone, PartialEq, Eq, Debug)]
pub struct QueueCells {
    pub lists: [Vec<u64>; 3],
    pub cursor: u64,
}

impl QueueCells {
    pub fn fresh() -> QueueCells {
        QueueCells::of(&Queue::fresh())
    }

    /// The cells that show a queue.
    pub fn of(queue: &Queue) -> QueueCells {
        let slots = queue.slots.iter();
        let requests = slots.clone().flat_map(|slot| request_cells(slot.request));
        let states = slots.clone().map(|slot| slot.state as u64);
        let answers = slots.flat_map(|slot| slot.answer);
        QueueCells {
            lists: [requests.collect(), states.collect(), answers.collect()],
            cursor: queue.last as u64,
        }
    }

    /// The queue that the cells show, or which of the conditions of a sound one fails.
    pub fn decode(&self) -> Result<Queue, Refusal> {
        if self.cursor > 7 {
            return Err(Refusal::CursorPastEnd);
        }
        let wrong = |list: &QueuePart| self.length(*list) != list.length();
        if QueuePart::LISTS.iter().any(wrong) {
            return Err(Refusal::NotEightSlots);
        }
        let [requests, states, answers] = &self.lists;
        let mut queue = Queue::fresh();
        queue.last = self.cursor as usize;
        for (number, slot) in queue.slots.iter_mut().enumerate() {
            let known = State::ALL.into_iter();
            let mut known = known.filter(|state| *state as u64 == states[number]);
            let request = &requests[REQUEST * number..][..REQUEST];
            let mut answer = SlotAnswer::default();
            answer.copy_from_slice(&answers[ANSWER * number..][..ANSWER]);
            *slot = Slot {
                request: Request {
                    thread: request[0],
                    entry: request[1],
                    rights: request[2],
                },
                state: known.next().ok_or(Refusal::UnknownState)?,
                answer,
            };
        }
        Ok(queue)
    }

    pub fn length(&self, part: QueuePart) -> usize {
        self.lists.get(part as usize).map_or(1, Vec::len)
    }

    pub fn cell(&self, part: QueuePart, cell: usize) -> u64 {
        match self.lists.get(part as usize) {
            Some(list) => list[cell],
            None => self.cursor,
        }
    }

    /// Writes a cell, if it is there.
    pub fn poke(&mut self, part: QueuePart, cell: usize, value: u64) {
        let there = match self.lists.get_mut(part as usize) {
            Some(list) => list.get_mut(cell),
            None => Some(&mut self.cursor),
        };
        if let Some(there) = there {
            *there = value;
        }
    }

    /// Cuts a list, or fills it up with zeros.
    pub fn resize(&mut self, list: QueuePart, length: usize) {
        if let Some(list) = self.lists.get_mut(list as usize) {
            list.resize(length, 0);
        }
    }
}

fn request_cells(request: Request) -> [u64; REQUEST] {
    [request.thread, request.entry, request.rights]
}
