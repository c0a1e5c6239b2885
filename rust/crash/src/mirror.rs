//! What the model says that a broker keeps: its tables and the log of each generation.

use model::call::Call;
use model::log::history::History;
use model::log::Log;
use model::refusal::Errno;
use model::state::Model;

/// A generation: its log, and the tables after each of the log's fields.
#[derive(Clone)]
pub struct Generation {
    pub number: u64,
    pub history: History,
    pub log: Log,
}

impl Generation {
    fn new(number: u64, start: &Model, room: usize) -> Generation {
        Generation {
            number,
            history: History::new(start),
            log: Log::empty(room),
        }
    }
}

/// The model beside a broker with a log of so much room.
pub struct Mirror {
    room: usize,
    pub model: Model,
    /// All generations that may be found on disk; the last is the one that goes on.
    pub generations: Vec<Generation>,
}

impl Mirror {
    pub fn new(start: Model, room: usize) -> Mirror {
        Mirror {
            room,
            generations: vec![Generation::new(0, &start, room)],
            model: start,
        }
    }

    fn last(&mut self) -> &mut Generation {
        let last = self.generations.len() - 1;
        &mut self.generations[last]
    }

    /// An empty log starts at the tables of this moment.
    pub fn begin(&mut self) {
        let number = self.last().number + 1;
        let generation = Generation::new(number, &self.model, self.room);
        self.generations.push(generation);
    }

    /// A change that is asked for; where the log is full, another one starts.
    pub fn request(&mut self, call: &Call) {
        let full = self.answer(call) == Some(Errno::ENOSPC);
        if full && self.last().log.used > 0 {
            self.begin();
            self.answer(call);
        }
    }

    fn answer(&mut self, call: &Call) -> Option<Errno> {
        let last = self.generations.len() - 1;
        let Generation { history, log, .. } = &mut self.generations[last];
        let (answer, _) = self.model.answer_logged(log, call);
        history.note(log.written().len(), &self.model);
        answer.err().map(|refusal| refusal.errno())
    }

    /// The last generation, and how many bytes of its log are written.
    pub fn place(&mut self) -> (u64, u64) {
        let last = self.last();
        (last.number, last.log.used)
    }

    /// Goes on from the generation that is found on disk, if it is one of these and these bytes are the beginning of its log.
    pub fn found(&mut self, number: u64, log: &[u8]) -> Option<&Generation> {
        self.generations.retain(|generation| {
            generation.number == number && generation.log.written().starts_with(log)
        });
        let found = self.generations.first_mut()?;
        found.log.used = log.len() as u64;
        self.model = found.history.after(log.len()).0;
        Some(found)
    }
}
