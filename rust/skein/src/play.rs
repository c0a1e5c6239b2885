//! Plays a scenario on the broker.
use crate::log::{self, Kept};
use crate::policy::{self, Unread, LONGEST_FILE};
use crate::scenario::{
    Answer, AskedCall, Bad, BadLine, Call, FileOperand, LogCall, Mask, Masks, Names, Operand,
    Other, Place, Poked, PolicyCall, PolicyReport, QueueCall, Report, RulesetBytes, RulesetCall,
    Scenario, SlotReport, Space, Statement, Text, ThreadCall, TreeCall,
};
use crate::words::quoted;
use skeinrabbit::{
    component_range, find_policy, Attribute, Batch, Cells, Entry, Errno, Judged, Layer, Level,
    Logged, PolicyFile, PolicyPart, PolicyRefusal, PortRights, Queue, Refusal, Rights, Rule,
    Ruleset, Scopes, Slot, SlotState, Table, Tables, Thread, Turn, Verdict,
};
use std::collections::BTreeMap;
use std::ffi::OsString;
use std::os::unix::ffi::OsStringExt;
use std::path::PathBuf;

/// Tables, queue and names as the lines so far left them.
#[derive(Clone)]
pub struct Player {
    pub tables: Tables,
    queue: Queue,
    /// The log, if one is kept.
    log: Option<Kept>,
    pub names: Names,
    /// The line that is played, and its round.
    line: usize,
    round: u64,
    /// Where policy files are.
    folder: PathBuf,
    /// The line that made each layer.
    pub restricted: BTreeMap<Layer, usize>,
}

/// A line that was played.
pub struct Played<'s> {
    pub statement: &'s Statement,
    /// The round that is shown, from 1: the first whose answer differs, or else the last.
    pub round: u64,
    /// The answer of that round.
    pub answer: Answer,
    /// Which layer refused in it, of a call with a verdict, and what an access read; the answer of a slot.
    pub report: Option<Report>,
    /// The rules that `layer_rules` gave in it.
    pub rules: Vec<Rule>,
    /// The part of its path that `component` gave in it, the policy file that `write_policy` wrote, or the log that `written` read.
    pub part: Vec<u8>,
    /// What is wrong with policy files, in words, or why none is written.
    pub fault: Option<String>,
}

impl Played<'_> {
    /// Whether the answer is another than the line expects; a line that says nothing expects a success.
    pub fn differs(&self) -> bool {
        let Played {
            statement,
            round,
            part,
            ..
        } = self;
        let written = matches!(self.answer, Answer::Written(_) | Answer::Count(_));
        !statement.allows(self.answer, self.report)
            || written && !statement.allows_bytes(part, *round)
    }
}

/// A whole scenario, played.
pub struct Play<'s> {
    pub player: Player,
    pub played: Vec<Played<'s>>,
    /// The line that ended the play early: it uses a label whose call was refused, or rights that the level does not know.
    pub stopped: Option<BadLine>,
}

impl<'s> Play<'s> {
    /// How many lines name the answer that they expect.
    pub fn expectations(&self) -> usize {
        let expects = |played: &&Played| played.statement.names_an_answer();
        self.played.iter().filter(expects).count()
    }

    /// The lines whose answer differs from what they expect.
    pub fn differing(&self) -> impl Iterator<Item = &Played<'s>> {
        self.played.iter().filter(|played| played.differs())
    }

    /// Whether every line was played and answered as it expects.
    pub fn is_as_expected(&self) -> bool {
        self.stopped.is_none() && self.differing().next().is_none()
    }
}

/// Plays a scenario from fresh tables at level 6.
pub fn play(scenario: &Scenario) -> Play<'_> {
    let mut player = Player::new(scenario.folder.clone());
    let mut played = Vec::new();
    let mut stopped = None;
    for statement in &scenario.statements {
        match player.play(statement) {
            Ok(line) => played.push(line),
            Err(bad) => {
                let line = statement.line;
                stopped = Some(BadLine { line, bad });
                break;
            }
        }
    }
    Play {
        player,
        played,
        stopped,
    }
}

/// Whether a thread may reach another one by a scope.
pub fn reach(tables: &Tables, scope: Scopes, thread: Thread, target: Thread) -> Result<(), Errno> {
    match scope {
        Scopes::SIGNAL => tables.signal(thread, target),
        _ => tables.abstract_socket(thread, target),
    }
}

/// A success that makes nothing, or a refusal.
fn done(result: Result<(), Errno>) -> Answer {
    result.map_or_else(Answer::Refused, |()| Answer::Done)
}

/// A success that makes something, or a refusal.
fn new(result: Result<u64, Errno>) -> Answer {
    result.map_or_else(Answer::Refused, Answer::New)
}

/// An answer, and of a call with a verdict its report.
type Said = (Answer, Option<Report>);

/// The answer of a call with a verdict, and which layer refused for which rights.
fn judged<R: Default>(result: Result<Answer, Refusal<R>>, mask: fn(R) -> Mask) -> Said {
    let named = |layer, rights: R| {
        Some(Report {
            layer,
            ..Report::empty(mask(rights))
        })
    };
    match result {
        Ok(answer) => (answer, named(None, R::default())),
        Err(refusal) => {
            let answer = Answer::Refused(refusal.errno());
            let report = match refusal {
                Refusal::Denied { layer, rights } | Refusal::Crossing { layer, rights } => {
                    named(Some(layer), rights)
                }
                Refusal::Other(_) => named(None, R::default()),
            };
            (answer, report)
        }
    }
}

/// The answer of an access, and how many entries' rules it read.
fn accessed(judged: Judged) -> Said {
    let (answer, report) = changed(judged.answer);
    let entries_read = Some(judged.entries_read);
    let report = report.map(|report| Report {
        entries_read,
        ..report
    });
    (answer, report)
}

/// The answer of a call on entries that makes nothing.
fn changed(result: Result<(), Refusal<Rights>>) -> Said {
    judged(result.map(|()| Answer::Done), Mask::Files)
}

/// The answer of a call that was asked about, and which layer refused for which rights.
fn asked_answer(verdict: Verdict) -> Said {
    match verdict {
        Verdict::Fs(answer) => changed(answer),
        Verdict::Net(answer) => judged(answer.map(|()| Answer::Done), Mask::Ports),
    }
}

/// The answer of a change that makes an entry.
fn made(result: Result<Entry, Refusal<Rights>>) -> Said {
    let answer = result.map(|entry| Answer::New(entry.number()));
    judged(answer, Mask::Files)
}

impl Player {
    pub fn new(folder: PathBuf) -> Self {
        let mut tables = Tables::from_cells(Cells::zeroed());
        // The level is one that there is; were it refused, every line would show EIO.
        let _ = tables.fresh(Level::LATEST);
        let names = Names::default();
        Self {
            tables,
            queue: Queue::new(),
            log: None,
            names,
            line: 0,
            round: 1,
            folder,
            restricted: BTreeMap::new(),
        }
    }

    /// Makes the call of a line as often as it says.
    pub fn play<'s>(&mut self, statement: &'s Statement) -> Result<Played<'s>, Bad> {
        let mut shown = self.round(statement, 1)?;
        for round in 2..=statement.rounds.unwrap_or(1) {
            let played = self.round(statement, round)?;
            if !shown.differs() {
                shown = played;
            }
        }
        Ok(shown)
    }

    /// Makes the call of a line once.
    pub fn round<'s>(&mut self, statement: &'s Statement, round: u64) -> Result<Played<'s>, Bad> {
        self.at(statement, round);
        let mut rules = Vec::new();
        let mut part = Vec::new();
        let mut fault = None;
        let (answer, report) = match &statement.call {
            Call::Fresh { level } => (self.fresh(*level), None),
            Call::Ruleset(call) => (self.ruleset_call(call)?, None),
            Call::Policy(call) => self.policy_call(call, &mut fault)?,
            Call::WritePolicy {
                ruleset,
                name,
                room,
            } => {
                let written = self.write_policy(ruleset, name, *room)?;
                (said_of_file(written, &mut part, &mut fault), None)
            }
            Call::LayerRules { layer } => (self.layer_rules(*layer, &mut rules), None),
            Call::Thread { thread, call } => self.thread_call(thread, call)?,
            Call::Tree { thread, call } => self.tree_call(thread, call)?,
            Call::Lookup { path } => (self.lookup(path), None),
            Call::Component { path, place } => self.component(path, *place, &mut part),
            Call::Queue(call) => self.queue_call(call)?,
            Call::Log(call) => (self.log_call(call, &mut part)?, None),
            Call::Ask { thread, call } => self.ask(thread, call)?,
            Call::Poke { poked, writes } => (self.poke(*poked, writes), None),
            Call::PokeName { first, count, name } => (self.poke_name(*first, *count, name), None),
        };
        self.names.forget_gone(&self.tables);
        if let (Answer::New(number) | Answer::Found(number), Some((space, name))) =
            (answer, &statement.binds)
        {
            self.names.bind(*space, name, number);
        }
        Ok(Played {
            statement,
            round,
            answer,
            report,
            rules,
            part,
            fault,
        })
    }

    /// Goes to a round of a line, without playing it.
    pub fn at(&mut self, statement: &Statement, round: u64) {
        self.line = statement.line;
        self.round = round;
    }

    fn fresh(&mut self, level: Level) -> Answer {
        let made = self.tables.fresh(level);
        if made.is_ok() {
            self.restricted.clear();
        }
        done(made)
    }

    fn ruleset_call(&mut self, call: &RulesetCall) -> Result<Answer, Bad> {
        Ok(match call {
            RulesetCall::Create { bytes, flags } => self.create_ruleset(bytes, *flags)?,
            RulesetCall::Close { ruleset } => {
                let ruleset = self.ruleset(ruleset)?;
                done(self.tables.close_ruleset(ruleset))
            }
            RulesetCall::AddPath {
                ruleset,
                entry,
                rights,
                flags,
            } => {
                let (ruleset, entry) = (self.ruleset(ruleset)?, self.entry(entry)?);
                done(self.tables.add_path_rule(ruleset, entry, *rights, *flags))
            }
            RulesetCall::AddPort {
                ruleset,
                port,
                rights,
                flags,
            } => {
                let ruleset = self.ruleset(ruleset)?;
                done(self.tables.add_port_rule(ruleset, *port, *rights, *flags))
            }
            RulesetCall::Restrict {
                thread,
                ruleset,
                flags,
            } => {
                let (thread, ruleset) = (self.thread(thread)?, self.ruleset(ruleset)?);
                let layer = self.tables.restrict(thread, ruleset, *flags);
                if let Ok(layer) = layer {
                    self.restricted.insert(layer, self.line);
                }
                done(layer.map(drop))
            }
        })
    }

    /// Finds a ruleset in policy files or opens it; where they are the reason of a refusal, says so.
    fn policy_call(&mut self, call: &PolicyCall, fault: &mut Option<String>) -> Result<Said, Bad> {
        let (stock, site) = (self.file(&call.stock)?, self.file(&call.site)?);
        let name = call.name.bytes(self.round);
        let found = find_policy(&stock, &site, &name);
        let answered = if call.apply {
            let applied = self.tables.apply_policy(&stock, &site, &name);
            applied.map(|ruleset| Answer::New(ruleset.number()))
        } else {
            found.map(|_| Answer::Done)
        };
        // Of a ruleset that is found and not opened, nothing is reported.
        let found = answered.and(found);
        let report = Report {
            policy: Some(policy_report(found)),
            ..Report::empty(Mask::Files(Rights::NONE))
        };
        let answer = answered.unwrap_or_else(|refusal| {
            *fault = policy_fault(refusal, &stock, &site);
            Answer::Refused(refusal.errno())
        });
        Ok((answer, Some(report)))
    }

    /// The policy file of a ruleset, or why none is written.
    fn write_policy(
        &self,
        ruleset: &Operand,
        name: &Text,
        room: usize,
    ) -> Result<Result<Vec<u8>, (Errno, String)>, Bad> {
        let ruleset = self.ruleset(ruleset)?;
        let mut file = vec![0; room];
        let length = self
            .tables
            .write_policy(ruleset, name.bytes(self.round), &mut file);
        Ok(length
            .map(|length| {
                file.truncate(length);
                file
            })
            .map_err(|errno| (errno, policy::unwritten(&self.tables, ruleset, errno))))
    }

    /// The bytes of a policy file.
    fn file(&self, file: &FileOperand) -> Result<Vec<u8>, Bad> {
        let name = match file {
            FileOperand::Bytes(bytes) => return Ok(bytes.bytes(self.round)),
            FileOperand::Name(name) => OsString::from_vec(name.bytes(self.round)),
        };
        let shown = quoted(&name.to_string_lossy());
        policy::read(&self.folder.join(name)).map_err(|unread| match unread {
            Unread::Io(error) => Bad::new(
                format!("{shown}: {error}"),
                "a policy file that can be read",
            ),
            Unread::Lines(lines) => match lines.into_iter().next() {
                Some(BadLine { line, bad }) => {
                    Bad::new(format!("{shown}, line {line}: {}", bad.found), bad.expected)
                }
                None => Bad::new(shown, "a policy file"),
            },
        })
    }

    fn create_ruleset(&mut self, bytes: &RulesetBytes, flags: u64) -> Result<Answer, Bad> {
        let ruleset = match bytes {
            RulesetBytes::Hex(bytes) => self.tables.create_ruleset(bytes, flags),
            RulesetBytes::Masks(masks) => {
                let bytes = attribute(masks, self.tables.level())?;
                self.tables.create_ruleset(&bytes, flags)
            }
        };
        Ok(new(ruleset.map(Ruleset::number)))
    }

    fn layer_rules(&mut self, layer: Layer, rules: &mut Vec<Rule>) -> Answer {
        let part = self.tables.layer_rules(layer);
        done(part.map(|part| rules.extend(part)))
    }

    fn thread_call(&mut self, thread: &Operand, call: &ThreadCall) -> Result<Said, Bad> {
        let thread = self.thread(thread)?;
        let answer = match call {
            ThreadCall::Clone => new(self.tables.clone_thread(thread).map(Thread::number)),
            ThreadCall::End => done(self.tables.end(thread)),
            ThreadCall::SetNoNewPrivs => done(self.tables.set_no_new_privs(thread)),
            ThreadCall::SetAdmin { on } => done(self.tables.set_admin(thread, *on)),
            ThreadCall::Reach { scope, target } => {
                let target = self.thread(target)?;
                done(reach(&self.tables, *scope, thread, target))
            }
            ThreadCall::Access { entry, rights } => {
                let entry = self.entry(entry)?;
                return Ok(accessed(self.tables.judge(thread, entry, *rights)));
            }
            ThreadCall::Port { port, rights } => {
                let answer = self.tables.port(thread, *port, *rights);
                return Ok(judged(answer.map(|()| Answer::Done), Mask::Ports));
            }
        };
        Ok((answer, None))
    }

    fn tree_call(&mut self, thread: &Operand, call: &TreeCall) -> Result<Said, Bad> {
        let thread = self.thread(thread)?;
        Ok(match call {
            TreeCall::Create { place, kind } => {
                let (directory, name) = self.place(place)?;
                made(self.change(|tables| tables.create(thread, directory, *kind, name)))
            }
            TreeCall::Remove { entry } => {
                let entry = self.entry(entry)?;
                changed(self.change(|tables| tables.remove(thread, entry)))
            }
            TreeCall::Link { source, place } => {
                let source = self.entry(source)?;
                let (directory, name) = self.place(place)?;
                made(self.change(|tables| tables.link(thread, source, directory, name)))
            }
            TreeCall::Rename { source, place } => {
                let source = self.entry(source)?;
                let (directory, name) = self.place(place)?;
                changed(self.change(|tables| tables.rename(thread, source, directory, name)))
            }
            TreeCall::Exchange { source, other } => {
                let source = self.entry(source)?;
                let (directory, entry) = self.other(other)?;
                changed(self.change(|tables| tables.exchange(thread, source, directory, entry)))
            }
        })
    }

    /// Makes a change of the tree, with the log if one is kept.
    fn change<T>(&mut self, change: impl FnOnce(&mut Logged) -> T) -> T {
        match &mut self.log {
            Some(kept) => change(&mut self.tables.logged(&mut kept.log)),
            None => change(&mut self.tables.logged(&mut log::of_one_change())),
        }
    }

    fn log_call(&mut self, call: &LogCall, part: &mut Vec<u8>) -> Result<Answer, Bad> {
        match call {
            LogCall::Start { room, used } => {
                let (tables, restricted) = (self.tables.clone(), self.restricted.clone());
                self.log = Some(Kept::new(*room, *used, tables, restricted));
            }
            LogCall::End => self.log = None,
            LogCall::Cut { length } => self.kept()?.log.cut(*length),
            LogCall::Read => {
                let log = &self.kept()?.log;
                part.extend_from_slice(log.written());
                return Ok(Answer::Count(log.used()));
            }
            LogCall::Restart => {
                let (tables, restricted) = self.kept()?.start();
                (self.tables, self.restricted) = (tables, restricted);
            }
            LogCall::Replay { bytes } => {
                let bytes = match bytes {
                    Some(bytes) => bytes.bytes(self.round),
                    None => self.kept()?.log.written().to_vec(),
                };
                let dropped = self.tables.replay(&bytes);
                return Ok(dropped.map_or_else(Answer::Refused, |n| Answer::Count(count(n))));
            }
        }
        Ok(Answer::Done)
    }

    fn kept(&mut self) -> Result<&mut Kept, Bad> {
        let none = || Bad::new("no log", "a line `log ROOM` above");
        self.log.as_mut().ok_or_else(none)
    }

    /// Asks for a verdict, in a batch of one request.
    fn ask(&self, thread: &Operand, call: &AskedCall) -> Result<Said, Bad> {
        let thread = self.thread(thread)?;
        let mut batch = Batch::new();
        match call {
            AskedCall::Access { entry, rights } => {
                batch.access(thread, self.entry(entry)?, *rights)
            }
            AskedCall::Port { port, rights } => batch.port(thread, *port, *rights),
            AskedCall::Link { source, place } => {
                let source = self.entry(source)?;
                let (directory, name) = self.place(place)?;
                batch.link(thread, source, directory, name)
            }
            AskedCall::Rename { source, place } => {
                let source = self.entry(source)?;
                let (directory, name) = self.place(place)?;
                batch.rename(thread, source, directory, name)
            }
            AskedCall::Exchange { source, other } => {
                let source = self.entry(source)?;
                let (directory, entry) = self.other(other)?;
                batch.exchange(thread, source, directory, entry)
            }
        };
        let verdict = self.tables.batch(&mut batch).iter().next();
        Ok(verdict.map_or((Answer::Refused(Errno::EIO), None), asked_answer))
    }

    /// The directory and the name that a line gives.
    pub fn place(&self, place: &Place) -> Result<(Entry, Vec<u8>), Bad> {
        Ok(match place {
            Place::In { directory, name } => (self.entry(directory)?, name.bytes(self.round)),
            Place::Path(path) => {
                let path = path.bytes(self.round);
                let (directory, name) = split(&path);
                (self.found(directory), name.to_vec())
            }
        })
    }

    /// The directory and the entry that a line gives.
    pub fn other(&self, other: &Other) -> Result<(Entry, Entry), Bad> {
        Ok(match other {
            Other::In { directory, entry } => (self.entry(directory)?, self.entry(entry)?),
            Other::Path(path) => {
                let path = path.bytes(self.round);
                (self.found(split(&path).0), self.found(&path))
            }
        })
    }

    /// The entry of a path, or where there is none the number of one that is not live, so that the call itself is refused.
    fn found(&self, path: &[u8]) -> Entry {
        self.tables.lookup(path).unwrap_or(Entry::new(u64::MAX))
    }

    fn lookup(&self, path: &Text) -> Answer {
        let entry = self.tables.lookup(path.bytes(self.round));
        entry.map_or_else(Answer::Refused, |entry| Answer::Found(entry.number()))
    }

    fn component(&self, path: &Text, place: u64, part: &mut Vec<u8>) -> Said {
        let path = path.bytes(self.round);
        let place = usize::try_from(place).unwrap_or(usize::MAX);
        let range = component_range(&path, place).unwrap_or(0..0);
        let report = Report {
            part: Some((count(range.start), count(range.len()))),
            ..Report::empty(Mask::Files(Rights::NONE))
        };
        part.extend_from_slice(path.get(range).unwrap_or_default());
        (Answer::Done, Some(report))
    }

    fn queue_call(&mut self, call: &QueueCall) -> Result<Said, Bad> {
        Ok(match call {
            QueueCall::Fresh => {
                self.queue = Queue::new();
                (Answer::Done, None)
            }
            QueueCall::Post {
                slot,
                thread,
                entry,
                rights,
            } => {
                let (thread, entry) = (self.thread(thread)?, self.entry(entry)?);
                (done(self.queue.post(*slot, thread, entry, *rights)), None)
            }
            QueueCall::Turn => match self.queue.turn(&self.tables) {
                Ok(Turn::Served(slot)) => (Answer::Served(slot), self.slot(slot).1),
                Ok(Turn::Idle) => (Answer::Idle, None),
                Err(errno) => (Answer::Refused(errno), None),
            },
            QueueCall::Slot { slot } => self.slot(*slot),
        })
    }

    /// The state of a slot, and its request and answer; empty where there is no such slot.
    fn slot(&self, slot: Slot) -> Said {
        let Some(row) = self.queue.slot(slot) else {
            return (Answer::State(SlotState::Empty), None);
        };
        let (answer, report) = accessed(row.kept);
        let of_slot = SlotReport {
            slot,
            thread: row.thread,
            entry: row.entry,
            rights: row.rights,
            state: row.state,
            answer: match answer {
                Answer::Refused(errno) => Err(errno),
                _ => Ok(()),
            },
        };
        let report = report.map(|report| Report {
            slot: Some(of_slot),
            ..report
        });
        (Answer::State(row.state), report)
    }

    fn poke(&mut self, poked: Poked, writes: &[(usize, u64)]) -> Answer {
        // The line was read with cells and values that fit.
        match poked {
            Poked::Table(table) => self.poke_table(table, writes),
            Poked::Queue(part) => {
                let mut cells = self.queue.cells().clone();
                for (cell, value) in writes {
                    cells.set(part, *cell, *value);
                }
                self.queue = Queue::from_cells(cells);
            }
        }
        Answer::Done
    }

    fn poke_table(&mut self, table: Table, writes: &[(usize, u64)]) {
        let mut cells = self.tables.cells().clone();
        for (cell, value) in writes {
            cells.set(table, *cell, *value);
        }
        self.tables = Tables::from_cells(cells);
    }

    fn poke_name(&mut self, first: u64, count: u64, name: &Text) -> Answer {
        let rows = usize::try_from(first).unwrap_or(usize::MAX);
        let mut cells = self.tables.cells().clone();
        let rows = cells.names.chunks_exact_mut(NAME_WIDTH).skip(rows);
        for (row, round) in rows.zip(1..=count) {
            let name = name.bytes(round);
            let length = u8::try_from(name.len()).unwrap_or(u8::MAX);
            let bytes = std::iter::once(length).chain(name);
            for (cell, byte) in row.iter_mut().zip(bytes.chain(std::iter::repeat(0))) {
                *cell = byte;
            }
        }
        self.tables = Tables::from_cells(cells);
        Answer::Done
    }

    pub fn entry(&self, operand: &Operand) -> Result<Entry, Bad> {
        self.number(Space::Entry, operand).map(Entry::new)
    }

    pub fn ruleset(&self, operand: &Operand) -> Result<Ruleset, Bad> {
        self.number(Space::Ruleset, operand).map(Ruleset::new)
    }

    pub fn thread(&self, operand: &Operand) -> Result<Thread, Bad> {
        self.number(Space::Thread, operand).map(Thread::new)
    }

    fn number(&self, space: Space, operand: &Operand) -> Result<u64, Bad> {
        let name = match operand {
            Operand::Number(number) => return Ok(*number),
            Operand::Path(path) => return Ok(self.found(&path.bytes(self.round)).number()),
            Operand::Name(name) => name,
        };
        self.names.number(space, name).ok_or_else(|| {
            let noun = space.noun();
            let found = format!("the {noun} {}, whose call was refused", quoted(name));
            Bad::new(found, "a label that a successful call bound")
        })
    }
}

/// The answer of a call that writes a policy file, with the file or why there is none.
fn said_of_file(
    written: Result<Vec<u8>, (Errno, String)>,
    file: &mut Vec<u8>,
    fault: &mut Option<String>,
) -> Answer {
    match written {
        Ok(bytes) => {
            let answer = Answer::Written(count(bytes.len()));
            *file = bytes;
            answer
        }
        Err((errno, why)) => {
            *fault = Some(why);
            Answer::Refused(errno)
        }
    }
}

/// A number of bytes, or a place among them.
fn count(number: usize) -> u64 {
    u64::try_from(number).unwrap_or(u64::MAX)
}

/// What is said of policy files beside the answer.
fn policy_report(found: Result<PolicyPart, PolicyRefusal>) -> PolicyReport {
    let (file, place, length) = match found {
        Ok(part) => (Some(part.file), part.place, part.bytes.len()),
        Err(PolicyRefusal::Damaged { file, place }) => (Some(file), place, 0),
        Err(PolicyRefusal::TooBig { file }) => (Some(file), 0, 0),
        Err(PolicyRefusal::Missing | PolicyRefusal::Call(_)) => (None, 0, 0),
    };
    PolicyReport {
        file,
        place: count(place),
        length: count(length),
    }
}

/// What is wrong with policy files, in words.
fn policy_fault(refusal: PolicyRefusal, stock: &[u8], site: &[u8]) -> Option<String> {
    match refusal {
        PolicyRefusal::Damaged { file, place } => {
            let bytes = match file {
                PolicyFile::Stock => stock,
                PolicyFile::Site => site,
            };
            let Bad { found, expected } = policy::fault(bytes, place);
            Some(format!(
                "{file} file, byte {place}: found {found}; expected {expected}"
            ))
        }
        PolicyRefusal::TooBig { file } => Some(format!(
            "the {file} file has more than {LONGEST_FILE} bytes"
        )),
        PolicyRefusal::Missing => Some("neither file has a ruleset of that name".to_owned()),
        PolicyRefusal::Call(_) => None,
    }
}

/// The bytes of a row of the names.
const NAME_WIDTH: usize = 49;

/// The path of the directory and the name behind the last slash of a path.
fn split(path: &[u8]) -> (&[u8], &[u8]) {
    let slash = |byte: &u8| *byte == b'/';
    let start = path.iter().rposition(slash).map_or(0, |slash| slash + 1);
    let (above, name) = path.split_at(start);
    // Slashes that close the directory's path would ask for a directory.
    let closing = above.iter().rev().take_while(|byte| slash(byte)).count();
    let end = above.len().saturating_sub(closing).max(1);
    (above.get(..end).unwrap_or(above), name)
}

/// The bytes of an attribute given by its masks: all of them, or as many as the line says.
fn attribute(masks: &Masks, level: Level) -> Result<Vec<u8>, Bad> {
    // Any size above 4,096 is answered alike, so none is made much longer.
    const LONGEST: usize = 4097;
    let mut bytes = masks.attribute.to_bytes().to_vec();
    match masks.size {
        Some(size) => bytes.resize(usize::try_from(size).unwrap_or(LONGEST).min(LONGEST), 0),
        None => must_know(level, masks.attribute)?,
    }
    Ok(bytes)
}

/// That a level knows what a line without a size asks for. Where there are no rulesets, the call itself is refused.
fn must_know(level: Level, asked: Attribute) -> Result<(), Bad> {
    if level == Level::DISABLED || level > Level::LATEST {
        return Ok(());
    }
    let (fs, net) = (Rights::of_level(level), PortRights::of_level(level));
    let scope = Scopes::of_level(level);
    let unknown = [
        (!fs.contains(asked.fs)).then(|| format!("fs={}", asked.fs - fs)),
        (!net.contains(asked.net)).then(|| format!("net={}", asked.net - net)),
        (!scope.contains(asked.scope)).then(|| format!("scope={}", asked.scope - scope)),
    ];
    match unknown.into_iter().flatten().next() {
        None => Ok(()),
        Some(word) => {
            let found = format!("{}, which level {level} does not know", quoted(&word));
            let expected = "what the level knows, or `size=24` for the broker's own answer";
            Err(Bad::new(found, expected))
        }
    }
}
