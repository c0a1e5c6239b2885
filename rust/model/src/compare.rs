//! A broker and the model side by side, driven through random lists of calls.

use crate::attributes::{self, LONGEST};
use crate::batch::{asked, Batch};
use crate::call::{Broker, Call, Reply};
use crate::damage::{pokes, undo, Poke};
use crate::generate::{access_request, call, every_call, Mix};
use crate::log::history::History;
use crate::log::{field, made, Log};
use crate::odd::{random_cells, wrong_lengths, Odd};
use crate::policy::write::Writing;
use crate::policy::{files, trees, Wanted};
use crate::queue::cells::{QueueCells, QueuePart};
use crate::queue::event::{self, Event};
use crate::queue::SLOTS;
use crate::reference::Reference;
use crate::refusal::Answer;
use crate::start::start;
use crate::state::{Model, LAST_LEVEL};
use crate::tables::{encode, Table, Tables};
use crate::tally::{Room, Tally};
use random::Random;
use std::time::{Duration, Instant};

/// One thing that happens to both sides.
#[derive(Clone, PartialEq, Eq, Debug)]
pub enum Step {
    Call(Call),
    Damage(Vec<Poke>),
    /// Cuts a table, or fills it up with zeros.
    Resize {
        table: Table,
        length: usize,
    },
    Queue(Event),
    Batch(Batch),
    FindPolicy(Wanted),
    ApplyPolicy(Wanted),
    WritePolicy(Writing),
    /// Another log for the calls that change the tree.
    Log(Log),
    Replay(Vec<u8>),
}

impl Step {
    /// The name of what is called, if something is.
    pub fn name(&self) -> Option<&'static str> {
        match self {
            Step::Call(call) => Some(call.name()),
            Step::Queue(event) => event.name(),
            Step::Batch(_) => Some("batch"),
            Step::FindPolicy(_) => Some("find_policy"),
            Step::ApplyPolicy(_) => Some("apply_policy"),
            Step::WritePolicy(_) => Some("write_policy"),
            Step::Replay(_) => Some("replay"),
            Step::Damage(_) | Step::Resize { .. } | Step::Log(_) => None,
        }
    }
}

/// A list of steps from given sound tables, a fresh queue and an empty log.
#[derive(Clone, PartialEq, Eq, Debug)]
pub struct Case {
    pub start: Model,
    pub steps: Vec<Step>,
}

/// A cell that the two sides left with different values.
#[derive(Clone, Copy, PartialEq, Eq, Debug)]
pub struct CellDifference {
    pub table: Table,
    pub cell: usize,
    pub broker: u64,
    pub model: u64,
}

/// A cell of the queue that the two sides left with different values.
#[derive(Clone, Copy, PartialEq, Eq, Debug)]
pub struct QueueDifference {
    pub part: QueuePart,
    pub cell: usize,
    pub broker: u64,
    pub model: u64,
}

/// Where the two sides differ first.
#[derive(Clone, PartialEq, Eq, Debug)]
pub struct Difference {
    /// The number of the step in its list.
    pub step: usize,
    pub broker: Reply,
    pub model: Reply,
    pub cells: Vec<CellDifference>,
    pub queue: Vec<QueueDifference>,
    /// The broker's log and the model's, if they differ.
    pub logs: Option<[Log; 2]>,
}

/// A broker over tables, a queue and a log of its own, and the model.
struct Pair<'a> {
    broker: &'a mut dyn Broker,
    tables: Tables,
    queue: QueueCells,
    log: Log,
    reference: Reference,
    steps: usize,
}

impl Pair<'_> {
    fn new<'a>(broker: &'a mut dyn Broker, start: &Model) -> Pair<'a> {
        Pair {
            broker,
            tables: encode(start),
            queue: QueueCells::fresh(),
            log: Log::plenty(),
            reference: Reference::new(start),
            steps: 0,
        }
    }

    /// Takes a step on both sides; answers the model's answer to a call, a post, a turn, a batch, a name in policy
    /// files, a file to write or a replay, and how the sides differ.
    fn take(&mut self, step: &Step) -> (Option<Answer>, Option<Difference>) {
        self.steps += 1;
        match step {
            Step::Call(call) => {
                let (answer, difference) = self.call(call);
                return (Some(answer), difference);
            }
            Step::Damage(pokes) => {
                for poke in pokes {
                    self.tables.poke(poke.table, poke.cell, poke.value);
                }
                self.reference.damage(pokes);
            }
            Step::Resize { table, length } => {
                self.tables.resize(*table, *length);
                self.reference.resize(*table, *length);
            }
            Step::Queue(event) => return self.queue_event(event),
            Step::Batch(batch) => {
                let (answer, difference) = self.batch(batch);
                return (Some(answer), difference);
            }
            Step::FindPolicy(wanted) => {
                let broker = self.broker.find_policy(wanted);
                let (answer, report) = wanted.find();
                let (answer, difference) =
                    self.compared(broker, (answer, wanted.report_of(report)));
                return (Some(answer), difference);
            }
            Step::ApplyPolicy(wanted) => {
                let broker = self.broker.apply_policy(&mut self.tables, wanted);
                let answered = self.reference.apply_policy(wanted);
                let (answer, difference) = self.compared(broker, answered);
                return (Some(answer), difference);
            }
            Step::WritePolicy(writing) => {
                let broker = self.broker.write_policy(&mut self.tables, writing);
                let answered = self.reference.write_policy(writing);
                let (answer, difference) = self.compared(broker, answered);
                return (Some(answer), difference);
            }
            Step::Log(log) => {
                self.log = log.clone();
                self.reference.set_log(log);
            }
            Step::Replay(log) => {
                let (answer, difference) = self.replay(log);
                return (Some(answer), difference);
            }
        }
        (None, None)
    }

    fn replay(&mut self, log: &[u8]) -> (Answer, Option<Difference>) {
        let broker = Reply {
            number: self.broker.replay(&mut self.tables, log),
            report: Vec::new(),
        };
        let answer = self.reference.replay(log);
        self.compared(broker, (answer, Vec::new()))
    }

    fn call(&mut self, call: &Call) -> (Answer, Option<Difference>) {
        let (tables, log) = (&mut self.tables, &mut self.log);
        let broker = self.broker.answer_logged(tables, log, call);
        let answered = self.reference.answer(call);
        self.compared(broker, answered)
    }

    fn batch(&mut self, batch: &Batch) -> (Answer, Option<Difference>) {
        let broker = self.broker.batch(&mut self.tables, batch);
        let answered = self.reference.batch(batch);
        self.compared(broker, answered)
    }

    /// The model's answer, and how the broker's reply, its tables or its log differ.
    fn compared(
        &self,
        broker: Reply,
        (answer, report): (Answer, Vec<u64>),
    ) -> (Answer, Option<Difference>) {
        let model = Reply::of(answer, report);
        let logs = [&self.log, self.reference.log()];
        let logs = (logs[0] != logs[1]).then(|| logs.map(Log::clone));
        if broker == model && self.tables == *self.reference.tables() && logs.is_none() {
            return (answer, None);
        }
        let difference = Difference {
            step: self.steps - 1,
            broker,
            model,
            cells: cell_differences(&self.tables, self.reference.tables()),
            queue: Vec::new(),
            logs,
        };
        (answer, Some(difference))
    }

    fn queue_event(&mut self, event: &Event) -> (Option<Answer>, Option<Difference>) {
        let number = match *event {
            Event::Post { slot, request } => self.broker.post(&mut self.queue, slot, request),
            Event::Turn => self.broker.turn(&mut self.queue, &self.tables),
            Event::Poke { .. } | Event::Resize { .. } => {
                event.damage(&mut self.queue);
                0
            }
        };
        let answer = self.reference.queue_event(event);
        let model = Reply::of(answer.unwrap_or(Ok(0)), Vec::new());
        if number == model.number && self.queue == *self.reference.queue() {
            return (answer, None);
        }
        let difference = Difference {
            step: self.steps - 1,
            broker: Reply {
                number,
                report: Vec::new(),
            },
            model,
            cells: Vec::new(),
            queue: queue_differences(&self.queue, self.reference.queue()),
            logs: None,
        };
        (answer, Some(difference))
    }
}

fn queue_differences(broker: &QueueCells, model: &QueueCells) -> Vec<QueueDifference> {
    let parts = QueuePart::ALL.into_iter().flat_map(|part| {
        let length = broker.length(part).min(model.length(part));
        (0..length).map(move |cell| QueueDifference {
            part,
            cell,
            broker: broker.cell(part, cell),
            model: model.cell(part, cell),
        })
    });
    parts.filter(|cell| cell.broker != cell.model).collect()
}

fn cell_differences(broker: &Tables, model: &Tables) -> Vec<CellDifference> {
    let tables = Table::ALL.into_iter().flat_map(|table| {
        let length = broker.length(table).min(model.length(table));
        (0..length).map(move |cell| CellDifference {
            table,
            cell,
            broker: broker.cell(table, cell),
            model: model.cell(table, cell),
        })
    });
    tables.filter(|cell| cell.broker != cell.model).collect()
}

/// Where a broker first differs from the model in a case.
pub fn first_difference(broker: &mut dyn Broker, case: &Case) -> Option<Difference> {
    let mut pair = Pair::new(broker, &case.start);
    case.steps.iter().find_map(|step| pair.take(step).1)
}

/// Opens rulesets from attributes of every length, at every level; answers a case in which the
/// sides differ.
pub fn sweep(broker: &mut dyn Broker, seed: u64, tally: &mut Tally) -> Option<Case> {
    let mut random = Random::new(seed);
    let lengths =
        (0..=LAST_LEVEL).flat_map(|level| (0..=LONGEST).map(move |length| (level, length)));
    for (level, length) in lengths {
        let mut session = Session::new(broker, Model::fresh(level), Mix::Every, [0; 5]);
        for (filling, call) in attributes::calls(level, length, &mut random) {
            tally.count_attribute(filling, level, length);
            if session.take(tally, Step::Call(call)).is_some() {
                return Some(session.case);
            }
        }
    }
    None
}

/// Finds and applies rulesets of policy files with every byte changed and more, at several levels; answers a case in
/// which the sides differ.
pub fn sweep_files(broker: &mut dyn Broker, tally: &mut Tally) -> Option<Case> {
    let swept = files::sweep();
    for (place, level) in [6, 4, 3, 1, 6].into_iter().enumerate() {
        let mut session = Session::new(broker, files::worked_tree(level), Mix::Every, [0; 5]);
        for wanted in swept.iter().skip(place).step_by(5) {
            if session.files(tally, wanted).is_some() {
                return Some(session.case);
            }
        }
    }
    None
}

/// The tables that policy files are written of in a sweep.
const WRITTEN_TABLES: usize = 300;

/// Writes policy files of the rulesets of random tables, with rooms around their lengths; answers a case in which the sides
/// differ.
pub fn sweep_written(broker: &mut dyn Broker, seed: u64, tally: &mut Tally) -> Option<Case> {
    let mut random = Random::new(seed);
    for _ in 0..WRITTEN_TABLES {
        let model = trees::tables(&mut random);
        let asked = (0..4).map(|_| trees::writing(&model, &mut random));
        let asked: Vec<Writing> = asked.collect();
        let rooms = asked
            .iter()
            .flat_map(|writing| trees::rooms(&model, writing));
        for writing in rooms.chain(asked.iter().cloned()) {
            // Each is a case of its own: nothing changes.
            let mut session = Session::new(broker, model.clone(), Mix::Every, [0; 5]);
            if session.take(tally, Step::WritePolicy(writing)).is_some() {
                return Some(session.case);
            }
        }
    }
    None
}

/// How long a comparison goes on.
pub struct Options {
    pub seed: u64,
    pub calls: u64,
    pub seconds: Option<u64>,
    /// The chances, in a hundred, of policy files before a call, whose rulesets are found and applied: a case has one of them.
    pub policies: &'static [u64],
    /// Whether policy files are written between the calls.
    pub writes: bool,
    /// Whether logs change and are replayed between the calls.
    pub logs: bool,
}

/// Drives both sides through random cases; answers a case in which they differ.
pub fn compare(broker: &mut dyn Broker, options: &Options, tally: &mut Tally) -> Option<Case> {
    let deadline = options
        .seconds
        .map(|seconds| Instant::now() + Duration::from_secs(seconds));
    let mut run = Run {
        random: Random::new(options.seed),
        queue_random: Random::new(!options.seed),
        batch_random: Random::new(options.seed.rotate_left(32)),
        policy_random: Random::new(options.seed.rotate_left(16)),
        write_random: Random::new(options.seed.rotate_left(48)),
        log_random: Random::new(options.seed.rotate_left(24)),
        last_call: tally.calls.saturating_add(options.calls),
        tally,
        deadline,
    };
    while !run.is_over() {
        let start = start(&mut run.random);
        let mix = run.random.pick(&[Mix::Every, Mix::Tree]);
        let queue = run.queue_random.pick(&[0, 5, 50]);
        let batch = run.batch_random.pick(&[0, 3, 20]);
        let policy = run.policy_random.pick(options.policies);
        let write = match options.writes {
            true => run.write_random.pick(&[0, 2, 10]),
            false => 0,
        };
        let log = match options.logs {
            true => run.log_random.pick(&[0, 5, 40]),
            false => 0,
        };
        let mut session = Session::new(broker, start, mix, [queue, batch, policy, write, log]);
        if session.play(&mut run).is_some() {
            return Some(session.case);
        }
    }
    None
}

/// The state of a comparison.
struct Run<'a> {
    random: Random,
    /// What happens to the queue is chosen apart, beside the same calls.
    queue_random: Random,
    /// Batches, too.
    batch_random: Random,
    /// Policy files,
    policy_random: Random,
    /// And those that are written.
    write_random: Random,
    /// And logs.
    log_random: Random,
    tally: &'a mut Tally,
    /// The calls counted when it ends.
    last_call: u64,
    deadline: Option<Instant>,
}

impl Run<'_> {
    fn is_over(&self) -> bool {
        self.tally.calls >= self.last_call || self.deadline.is_some_and(|end| Instant::now() >= end)
    }
}

/// One random case, as far as it has come.
struct Session<'a> {
    mix: Mix,
    /// The chance of something that happens to the queue before the next call, in a hundred.
    queue: u64,
    /// The chance of a batch before the next call, in a hundred.
    batch: u64,
    /// The chance of policy files before the next call, in a hundred.
    policy: u64,
    /// The chance of a policy file that is written before the next call, in a hundred.
    write: u64,
    /// The chance of another log or of a replay before the next call, in a hundred.
    log: u64,
    /// What happened since the log was empty, if the log is unbroken.
    history: Option<History>,
    pair: Pair<'a>,
    case: Case,
}

impl Session<'_> {
    fn new(broker: &mut dyn Broker, start: Model, mix: Mix, chances: [u64; 5]) -> Session<'_> {
        let [queue, batch, policy, write, log] = chances;
        Session {
            mix,
            queue,
            batch,
            policy,
            write,
            log,
            history: (log > 0).then(|| History::new(&start)),
            pair: Pair::new(broker, &start),
            case: Case {
                start,
                steps: Vec::new(),
            },
        }
    }

    /// Plays calls and damage until enough or until the sides differ.
    fn play(&mut self, run: &mut Run) -> Option<Difference> {
        self.assert_consistent();
        let length = run.random.between(10, 120);
        let damage = run.random.pick(&[0, 0, 30]);
        for number in 0..length {
            if run.is_over() {
                return None;
            }
            let difference = if run.random.chance(damage) {
                self.damage(run)
            } else {
                self.random_step(run)
            };
            if difference.is_some() {
                return difference;
            }
            if number % 16 == 0 {
                self.assert_consistent();
            }
        }
        let difference = self.replay_unbroken(run);
        difference.or_else(|| match run.random.below(100) {
            0..=19 => self.wrong_lengths(run),
            20..=23 => self.random_cells(run),
            _ => None,
        })
    }

    /// The kept state and the cells must show the same.
    fn assert_consistent(&self) {
        let consistent = self.pair.reference.consistent();
        assert!(
            consistent,
            "the model and its cells differ: {:?}",
            self.case
        );
    }

    fn take(&mut self, tally: &mut Tally, step: Step) -> Option<Difference> {
        let same_object = self.on_one_object(&step);
        let turn = step == Step::Queue(Event::Turn);
        let served = turn.then(|| self.pair.reference.next_answer()).flatten();
        let log = self.pair.reference.log();
        let (used, end) = (log.used, log.bytes.len() as u64);
        let (answer, difference) = self.pair.take(&step);
        self.keep_history(&step, answer);
        match (&step, answer) {
            (Step::Call(call), Some(answer)) => {
                tally.count(call, answer);
                if same_object && answer.is_ok() {
                    tally.count_same_object(call);
                }
                let logged = self.pair.reference.log().used != used;
                tally.count_room(call, answer, Room { used, end, logged });
            }
            (Step::Queue(event), Some(answer)) => {
                tally.count_event(event, answer, served);
            }
            (Step::Batch(batch), Some(answer)) => {
                tally.count_batch(batch, answer, self.pair.reference.model().ok());
            }
            (Step::FindPolicy(wanted) | Step::ApplyPolicy(wanted), Some(answer)) => {
                let model = self.pair.reference.model().unwrap_or(&self.case.start);
                let name = step.name().unwrap_or_default();
                tally.count_policy(name, wanted, answer, model.level);
            }
            (Step::WritePolicy(writing), Some(answer)) => {
                tally.count_written(writing, answer, self.pair.reference.model().ok());
            }
            (Step::Replay(log), Some(answer)) => tally.count_replay(log, answer),
            _ => {}
        }
        self.case.steps.push(step);
        difference
    }

    /// Whether a step renames or exchanges an entry with one of the same object.
    fn on_one_object(&self, step: &Step) -> bool {
        let Ok(model) = self.pair.reference.model() else {
            return false;
        };
        let (source, entry) = match *step {
            Step::Call(Call::Rename {
                ref name,
                source,
                directory,
                ..
            }) => match model.names.bearer(directory, name) {
                Some(bearer) => (source, bearer),
                None => return false,
            },
            Step::Call(Call::Exchange { source, entry, .. }) => (source, entry),
            _ => return false,
        };
        let object = |entry| model.entry(entry).ok().map(|entry| entry.object);
        object(source) == object(entry)
    }

    /// Follows the log: a history begins with an empty one and ends with what breaks it.
    fn keep_history(&mut self, step: &Step, answer: Option<Answer>) {
        let reference = &self.pair.reference;
        match (step, reference.model()) {
            _ if self.log == 0 => {}
            (Step::Log(log), Ok(model)) if log.used == 0 => {
                self.history = Some(History::new(model));
            }
            (Step::Log(_) | Step::Damage(_) | Step::Resize { .. }, _) => self.history = None,
            (Step::Replay(_) | Step::Call(Call::Fresh { .. }), _) => {
                self.history
                    .take_if(|_| answer.is_some_and(|answer| answer.is_ok()));
            }
            (Step::Call(_), Ok(model)) => {
                if let Some(history) = &mut self.history {
                    history.note(reference.log().written().len(), model);
                }
            }
            _ => {}
        }
    }

    fn random_call(&mut self, run: &mut Run) -> Option<Difference> {
        let call = match self.pair.reference.model() {
            Ok(model) => call(model, self.mix, &mut run.random),
            Err(_) => call(&self.case.start, Mix::Every, &mut run.random),
        };
        let Some(field) = field(&call).filter(|_| run.log_random.chance(self.log)) else {
            return self.take(run.tally, Step::Call(call));
        };
        let tight = made::tight(field.len(), &mut run.log_random);
        self.take(run.tally, Step::Log(tight));
        let difference = self.take(run.tally, Step::Call(call));
        if difference.is_none() && run.log_random.chance(90) {
            self.take(run.tally, Step::Log(Log::plenty()));
        }
        difference
    }

    /// A replay of a random log or of the log so far onto the tables as they are, or of the latter onto those that it
    /// started from.
    fn replay(&mut self, run: &mut Run) -> Option<Difference> {
        let log = match run.log_random.below(10) {
            0..=3 => return self.replay_unbroken(run),
            4 => self.cut_log(run),
            _ => {
                let model = self.pair.reference.model();
                let model = model.unwrap_or(&self.case.start);
                made::replayed(model, &mut run.log_random)
            }
        };
        let difference = self.take(run.tally, Step::Replay(log));
        if difference.is_none() && self.history.is_none() {
            self.take(run.tally, Step::Log(Log::plenty()));
        }
        difference
    }

    /// The log so far, perhaps cut.
    fn cut_log(&self, run: &mut Run) -> Vec<u8> {
        let mut log = self.pair.reference.log().written().to_vec();
        if run.log_random.chance(60) {
            log.truncate(run.log_random.below(log.len() as u64 + 1) as usize);
        }
        log
    }

    /// Puts the tables back to where the log was empty and replays it, perhaps cut, if it is unbroken.
    fn replay_unbroken(&mut self, run: &mut Run) -> Option<Difference> {
        let history = self.history.as_ref()?;
        // Mostly it waits for several fields.
        if self.pair.reference.log().used < 40 && run.log_random.chance(90) {
            return None;
        }
        let log = self.cut_log(run);
        let mut by_model = history.start().clone();
        let answer = by_model.replay(&log);
        let (after, dropped) = history.after(log.len());
        assert_eq!((answer, by_model), (Ok(dropped), after), "{:?}", self.case);
        run.tally.count_unbroken(&log);
        let start = encode(history.start());
        let back = cell_differences(self.pair.reference.tables(), &start).into_iter();
        let back = back.map(|cell| Poke {
            table: cell.table,
            cell: cell.cell,
            value: cell.model,
        });
        self.take(run.tally, Step::Damage(back.collect()));
        let difference = self.take(run.tally, Step::Replay(log));
        if difference.is_none() {
            self.take(run.tally, Step::Log(Log::plenty()));
        }
        difference
    }

    /// Finds and applies a ruleset, and closes it again: then the tables are as before, and so is the case.
    fn files(&mut self, tally: &mut Tally, wanted: &Wanted) -> Option<Difference> {
        let steps = [Step::FindPolicy, Step::ApplyPolicy].map(|step| step(wanted.clone()));
        let difference = steps.into_iter().find_map(|step| self.take(tally, step));
        if difference.is_some() {
            return difference;
        }
        let model = self.pair.reference.model().ok()?;
        if let Some(ruleset) = model.rulesets.keys().next().copied() {
            let close = Step::Call(Call::CloseRuleset { ruleset });
            let difference = self.take(tally, close);
            if difference.is_some() {
                return difference;
            }
        }
        self.pair.steps = 0;
        self.case.steps.clear();
        None
    }

    /// A name in policy files, found or applied.
    fn policy(&mut self, run: &mut Run) -> Option<Difference> {
        let model = self.pair.reference.model();
        let model = model.unwrap_or(&self.case.start);
        let wanted = files::wanted(model, &mut run.policy_random);
        let step = match run.policy_random.chance(40) {
            true => Step::FindPolicy(wanted),
            false => Step::ApplyPolicy(wanted),
        };
        self.take(run.tally, step)
    }

    /// A call, and perhaps a replay, a batch, policy files and things that happen to the queue before it.
    fn random_step(&mut self, run: &mut Run) -> Option<Difference> {
        if run.log_random.chance(self.log) {
            let difference = self.replay(run);
            if difference.is_some() {
                return difference;
            }
        }
        if run.write_random.chance(self.write) {
            let model = self.pair.reference.model();
            let model = model.unwrap_or(&self.case.start);
            let writing = trees::writing(model, &mut run.write_random);
            let difference = self.take(run.tally, Step::WritePolicy(writing));
            if difference.is_some() {
                return difference;
            }
        }
        if run.policy_random.chance(self.policy) {
            let difference = self.policy(run);
            if difference.is_some() {
                return difference;
            }
        }
        if run.batch_random.chance(self.batch) {
            let model = self.pair.reference.model();
            let model = model.unwrap_or(&self.case.start);
            let batch = asked::batch(model, &mut run.batch_random);
            let difference = self.take(run.tally, Step::Batch(batch));
            if difference.is_some() {
                return difference;
            }
        }
        while run.queue_random.chance(self.queue) {
            let difference = match run.queue_random.below(100) {
                0..=5 => self.damage_queue(run),
                6..=11 => {
                    let events = event::other_queue(&mut run.queue_random);
                    self.queue_events(run, events)
                }
                _ => self.queue_event(run),
            };
            if difference.is_some() {
                return difference;
            }
        }
        self.random_call(run)
    }

    /// A post or a turn.
    fn queue_event(&mut self, run: &mut Run) -> Option<Difference> {
        let model = self.pair.reference.model();
        let model = model.unwrap_or(&self.case.start);
        let event = event::event(model, &mut run.queue_random);
        self.take(run.tally, Step::Queue(event))
    }

    fn queue_events(&mut self, run: &mut Run, events: Vec<Event>) -> Option<Difference> {
        let mut steps = events.into_iter().map(Step::Queue);
        steps.find_map(|step| self.take(run.tally, step))
    }

    /// Damages cells of the queue; posts and turns follow, and if it isn't sound the cells are mended.
    fn damage_queue(&mut self, run: &mut Run) -> Option<Difference> {
        let right = self.pair.reference.queue().clone();
        let damage = event::damage(&mut run.queue_random);
        self.queue_events(run, damage);
        for _ in 0..run.queue_random.between(1, 4) {
            if let Some(difference) = self.queue_event(run) {
                return Some(difference);
            }
        }
        let queue = self.pair.reference.queue();
        if queue.decode().is_ok() {
            return None;
        }
        let mended = event::undo(queue, &right);
        self.queue_events(run, mended)
    }

    /// Damages cells; if the tables aren't sound then, a few steps follow and the cells are mended.
    fn damage(&mut self, run: &mut Run) -> Option<Difference> {
        let model = self.pair.reference.model().ok()?;
        let tables = self.pair.reference.tables();
        let damage = pokes(model, tables, &mut run.random);
        let mended = undo(tables, &damage);
        self.take(run.tally, Step::Damage(damage));
        let broken = self.pair.reference.model().err();
        run.tally.count_damage(broken);
        broken?;
        for _ in 0..run.random.between(1, 3) {
            if let Some(difference) = self.random_step(run) {
                return Some(difference);
            }
        }
        if self.pair.reference.model().is_err() {
            self.take(run.tally, Step::Damage(mended));
        }
        None
    }

    /// Gives tables wrong lengths and makes every call.
    fn wrong_lengths(&mut self, run: &mut Run) -> Option<Difference> {
        let model = self.pair.reference.model().ok()?.clone();
        let (odds, steps) = wrong_lengths(&mut run.random);
        for step in steps {
            self.take(run.tally, step);
        }
        run.tally.count_damage(self.pair.reference.model().err());
        self.every_call(run, &model, &odds)
    }

    /// Writes every cell at random, makes every call, and then some on fresh tables of these.
    fn random_cells(&mut self, run: &mut Run) -> Option<Difference> {
        let model = self.pair.reference.model().ok()?.clone();
        self.take(run.tally, Step::Damage(random_cells(&mut run.random)));
        let difference = self.every_call(run, &model, &[Odd::RandomCells]);
        let level = run.random.between(0, LAST_LEVEL);
        difference
            .or_else(|| self.take(run.tally, Step::Call(Call::Fresh { level })))
            .or_else(|| (0..5).find_map(|_| self.random_step(run)))
    }

    /// Posts a request, takes a turn, asks a batch, finds and applies a ruleset of policy files, writes one, replays a
    /// log and makes every call once, with arguments for tables that show a model.
    fn every_call(&mut self, run: &mut Run, model: &Model, odds: &[Odd]) -> Option<Difference> {
        let post = Event::Post {
            slot: run.queue_random.below(SLOTS as u64),
            request: access_request(model, &mut run.queue_random),
        };
        let events = [post, Event::Turn].map(Step::Queue).into_iter();
        let batch = Step::Batch(asked::batch(model, &mut run.batch_random));
        let wanted = files::wanted(model, &mut run.policy_random);
        let writing = trees::writing(model, &mut run.write_random);
        let policies = [
            Step::FindPolicy(wanted.clone()),
            Step::ApplyPolicy(wanted),
            Step::WritePolicy(writing),
        ];
        let replay = Step::Replay(made::replayed(model, &mut run.log_random));
        let calls = every_call(model, &mut run.random).into_iter();
        let calls = policies.into_iter().chain(calls.map(Step::Call));
        let mut steps = events.chain([batch, replay]).chain(calls);
        steps.find_map(|step| {
            run.tally.count_odd(odds, &step);
            self.take(run.tally, step)
        })
    }
}
