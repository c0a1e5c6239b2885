//! Request W14: a queue of eight slots, each of which holds at most one waiting access request.
//!
//! [`cells`] are what a caller gives, and [`event`] what happens to them.

pub mod cells;
pub mod event;

use crate::call::Call;
use crate::refusal::{Answer, Refusal};
use crate::state::Model;
use cells::QueueCells;

pub const SLOTS: usize = 8;
/// What a turn answers where no slot waits.
pub const IDLE: u64 = SLOTS as u64;

#[derive(Clone, Copy, PartialEq, Eq, Debug)]
pub enum State {
    Empty = 0,
    Waiting = 1,
    Answered = 2,
}

impl State {
    pub const ALL: [State; 3] = [State::Empty, State::Waiting, State::Answered];
}

/// The arguments of an access.
#[derive(Clone, Copy, PartialEq, Eq, Debug, Default)]
pub struct Request {
    pub thread: u64,
    pub entry: u64,
    pub rights: u64,
}

/// What an access answers: its error number or 0, the layer that refused (its number + 1), its set, and
/// how many entries' rules were read.
pub type SlotAnswer = [u64; 4];

#[derive(Clone, Copy, PartialEq, Eq, Debug)]
pub struct Slot {
    pub request: Request,
    pub state: State,
    /// The last answer, also while another request waits.
    pub answer: SlotAnswer,
}

/// A sound queue.
#[derive(Clone, PartialEq, Eq, Debug)]
pub struct Queue {
    pub slots: [Slot; SLOTS],
    /// The slot served last.
    pub last: usize,
}

impl Queue {
    /// A queue in which nothing waits, and after which slot 0 is the next.
    pub fn fresh() -> Queue {
        let empty = Slot {
            request: Request::default(),
            state: State::Empty,
            answer: SlotAnswer::default(),
        };
        Queue {
            slots: [empty; SLOTS],
            last: SLOTS - 1,
        }
    }

    /// Puts a request into a slot, where it waits; an old answer stays.
    pub fn post(&mut self, slot: u64, request: Request) -> Answer {
        let slot = usize::try_from(slot).ok();
        let slot = slot.and_then(|slot| self.slots.get_mut(slot));
        let slot = slot.ok_or(Refusal::NoSuchSlot)?;
        if slot.state == State::Waiting {
            return Err(Refusal::SlotWaiting);
        }
        slot.request = request;
        slot.state = State::Waiting;
        Ok(0)
    }

    /// The next waiting slot after the one served last, going round: that one comes last.
    pub fn next(&self) -> Option<usize> {
        let round = (self.last + 1..SLOTS).chain(0..=self.last);
        let mut waiting = round.filter(|slot| self.slots[*slot].state == State::Waiting);
        waiting.next()
    }

    /// Answers the next waiting slot, if there is one.
    pub fn turn(&mut self, answer: impl FnOnce(Request) -> SlotAnswer) -> Answer {
        let Some(number) = self.next() else {
            return Ok(IDLE);
        };
        let slot = &mut self.slots[number];
        slot.answer = answer(slot.request);
        slot.state = State::Answered;
        self.last = number;
        Ok(number as u64)
    }
}

/// What an access is answered by sound tables, which show a model, or by others.
pub fn answered(model: Option<&Model>, request: Request) -> (Answer, SlotAnswer) {
    let Request {
        thread,
        entry,
        rights,
    } = request;
    let model = model.ok_or(Refusal::NotSound);
    let answer = model.and_then(|model| model.access(thread, entry, rights));
    let call = Call::Access {
        thread,
        entry,
        rights,
        report: 3,
    };
    let report = model.map(|model| model.reported(&call, answer));
    let [layer, rights, read] = report.unwrap_or_default();
    let number = answer.err().map_or(0, |refusal| refusal.errno() as u64);
    (answer, [number, layer, rights, read])
}

impl QueueCells {
    /// Posts a request in the queue that the cells show.
    pub fn post(&mut self, slot: u64, request: Request) -> Answer {
        self.change(|queue| queue.post(slot, request))
    }

    /// Takes a turn of the queue that the cells show.
    pub fn turn(&mut self, answer: impl FnOnce(Request) -> SlotAnswer) -> Answer {
        self.change(|queue| queue.turn(answer))
    }

    /// Changes a sound queue; one that isn't is refused.
    fn change(&mut self, change: impl FnOnce(&mut Queue) -> Answer) -> Answer {
        let mut queue = self.decode()?;
        let answer = change(&mut queue);
        *self = QueueCells::of(&queue);
        answer
    }
}
