//! The model as a broker over tables: it keeps its state from call to call.

use crate::batch::Batch;
use crate::call::{Broker, Call, Reply};
use crate::compare::Step;
use crate::damage::Poke;
use crate::log::Log;
use crate::policy::write::{cells_of, Writing};
use crate::policy::Wanted;
use crate::queue::answered;
use crate::queue::cells::QueueCells;
use crate::queue::event::Event;
use crate::refusal::{Answer, Refusal};
use crate::sound::{check, decode, Unsound};
use crate::state::Model;
use crate::tables::{encode, encode_into, Table, Tables};

/// The model beside the tables that show it, a queue and a log.
pub struct Reference {
    tables: Tables,
    model: Result<Model, Unsound>,
    queue: QueueCells,
    log: Log,
}

impl Reference {
    pub fn new(model: &Model) -> Reference {
        Reference {
            tables: encode(model),
            model: Ok(model.clone()),
            queue: QueueCells::fresh(),
            log: Log::plenty(),
        }
    }

    pub fn tables(&self) -> &Tables {
        &self.tables
    }

    pub fn queue(&self) -> &QueueCells {
        &self.queue
    }

    pub fn log(&self) -> &Log {
        &self.log
    }

    /// The model, or the clause of soundness that the tables break.
    pub fn model(&self) -> Result<&Model, Unsound> {
        self.model.as_ref().map_err(|unsound| *unsound)
    }

    pub fn take(&mut self, step: &Step) {
        match step {
            Step::Call(call) => drop(self.answer(call)),
            Step::Damage(pokes) => self.damage(pokes),
            Step::Resize { table, length } => self.resize(*table, *length),
            Step::Queue(event) => drop(self.queue_event(event)),
            Step::Batch(_) | Step::FindPolicy(_) | Step::WritePolicy(_) => {}
            Step::ApplyPolicy(wanted) => drop(self.apply_policy(wanted)),
            Step::Log(log) => self.set_log(log),
            Step::Replay(log) => drop(self.replay(log)),
        }
    }

    pub fn set_log(&mut self, log: &Log) {
        self.log = log.clone();
    }

    pub fn damage(&mut self, pokes: &[Poke]) {
        for poke in pokes {
            self.tables.poke(poke.table, poke.cell, poke.value);
        }
        self.model = check(&self.tables);
    }

    pub fn resize(&mut self, table: Table, length: usize) {
        self.tables.resize(table, length);
        self.model = check(&self.tables);
    }

    /// What a post or a turn answers, if the event is one.
    pub fn queue_event(&mut self, event: &Event) -> Option<Answer> {
        match *event {
            Event::Post { slot, request } => Some(self.queue.post(slot, request)),
            Event::Turn => {
                let model = self.model.as_ref().ok();
                let turn = self.queue.turn(|request| answered(model, request).1);
                Some(turn)
            }
            Event::Poke { .. } | Event::Resize { .. } => {
                event.damage(&mut self.queue);
                None
            }
        }
    }

    /// What a turn would answer the next waiting slot, if there is one.
    pub fn next_answer(&self) -> Option<Answer> {
        let queue = self.queue.decode().ok()?;
        let request = queue.slots[queue.next()?].request;
        Some(answered(self.model.as_ref().ok(), request).0)
    }

    /// What a batch answers, and every cell for its answers.
    pub fn batch(&self, batch: &Batch) -> (Answer, Vec<u64>) {
        batch.answer(self.model.as_ref().ok())
    }

    /// What applying a ruleset of policy files answers, and every cell of its report.
    pub fn apply_policy(&mut self, wanted: &Wanted) -> (Answer, Vec<u64>) {
        let (answer, report) = match &mut self.model {
            Ok(model) => model.apply_policy(wanted),
            Err(_) => (Err(Refusal::NotSound), [0; 3]),
        };
        if let Ok(model) = &self.model {
            encode_into(model, &mut self.tables);
        }
        (answer, wanted.report_of(report))
    }

    /// What writing a ruleset's policy file answers, and every byte of the output.
    pub fn write_policy(&self, writing: &Writing) -> (Answer, Vec<u64>) {
        let (answer, out) = match &self.model {
            Ok(model) => model.write_policy(writing),
            Err(_) => (Err(Refusal::NotSound), writing.unwritten()),
        };
        (answer, cells_of(&out))
    }

    /// What replay of a log's written bytes answers.
    pub fn replay(&mut self, log: &[u8]) -> Answer {
        let model = self.model.as_mut().map_err(|_| Refusal::NotSound)?;
        let answer = model.replay(log);
        encode_into(model, &mut self.tables);
        answer
    }

    /// Answers a call and writes every cell anew.
    pub fn answer(&mut self, call: &Call) -> (Answer, Vec<u64>) {
        let answered = match &mut self.model {
            Ok(model) => model.answer_logged(&mut self.log, call),
            Err(_) => call
                .without_tables()
                .unwrap_or_else(|| (self.answer_unsound(call), call.report_of([0; 3]))),
        };
        if let Ok(model) = &self.model {
            encode_into(model, &mut self.tables);
        }
        answered
    }

    /// On unsound tables only fresh ones can be made, where the lengths are right.
    fn answer_unsound(&mut self, call: &Call) -> Answer {
        let Call::Fresh { level } = *call else {
            return Err(Refusal::NotSound);
        };
        if !self.tables.right_lengths() {
            return Err(Refusal::WrongLength);
        }
        let mut model = Model::fresh(0);
        model.make_fresh(level)?;
        self.model = Ok(model);
        Ok(0)
    }

    /// Whether the tables, read again, show the state that was kept.
    pub fn consistent(&self) -> bool {
        decode(&self.tables).as_ref() == self.model.as_ref().ok()
    }
}

/// The model as a broker that reads the tables at each call.
pub struct Rereading;

impl Broker for Rereading {
    fn answer(&mut self, tables: &mut Tables, call: &Call) -> Reply {
        let mut reference = Reference {
            model: check(tables),
            tables: std::mem::take(tables),
            queue: QueueCells::fresh(),
            log: Log::plenty(),
        };
        let (answer, report) = reference.answer(call);
        *tables = reference.tables;
        Reply::of(answer, report)
    }
}
