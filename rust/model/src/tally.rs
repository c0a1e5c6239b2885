//! How often each call got each answer, and which refusals were never met.

use crate::attributes::{Filling, LONGEST};
use crate::batch::{Batch, Sort, ANSWER};
use crate::call::Call;
use crate::compare::Step;
use crate::log::{field, fields};
use crate::odd::Odd;
use crate::policy::met::Met;
use crate::policy::read::DEEPEST;
use crate::policy::write::Writing;
use crate::policy::{File, Wanted};
use crate::queue::event::Event;
use crate::queue::IDLE;
use crate::refusal::{Answer, Refusal};
use crate::sound::Unsound;
use crate::state::{Model, LAST_LEVEL};
use std::collections::{BTreeMap, BTreeSet};
use std::fmt;

use Refusal::*;

/// The refusals of each call, after the one for tables that aren't sound.
const REFUSALS: [(&str, &[Refusal]); 29] = [
    ("fresh", &[WrongLength, UnknownLevel]),
    (
        "create_ruleset",
        &[
            Disabled,
            FlagsNotZero,
            AttributeTooShort,
            AttributeTooLong,
            BytePastKnownSize,
            UnknownBit,
            NothingHandled,
            NoFreeRuleset,
        ],
    ),
    ("close_ruleset", &[RulesetNotOpen]),
    (
        "add_path_rule",
        &[
            Disabled,
            FlagsNotZero,
            RulesetNotOpen,
            NoRights,
            RightsNotHandled,
            RuleEntryNotLive,
            SweepingRule,
            RightsNotForFile,
            RulesetFull,
        ],
    ),
    (
        "add_port_rule",
        &[
            Disabled,
            FlagsNotZero,
            RulesetNotOpen,
            NoRights,
            RightsNotHandled,
            PortOutOfRange,
            RulesetFull,
        ],
    ),
    (
        "restrict",
        &[
            ThreadNotLive,
            Disabled,
            NoMark,
            FlagsNotZero,
            RulesetNotOpen,
            DomainFull,
            NoFreeLayer,
            PoolFull,
        ],
    ),
    ("layer_rules", &[LayerNotInUse]),
    ("clone", &[ThreadNotLive, NoFreeThread]),
    ("end", &[ThreadNotLive, OnlyThread]),
    ("set_no_new_privs", &[ThreadNotLive]),
    ("set_admin", &[ThreadNotLive]),
    (
        "access",
        &[
            ThreadNotLive,
            EntryNotLive,
            EmptyMask,
            UnknownBit,
            RightsNotForFile,
            AccessDenied,
        ],
    ),
    (
        "port",
        &[
            ThreadNotLive,
            PortOutOfRange,
            EmptyMask,
            UnknownBit,
            AccessDenied,
        ],
    ),
    ("signal", &[ThreadNotLive, TargetNotLive, OutOfScope]),
    (
        "abstract_socket",
        &[ThreadNotLive, TargetNotLive, OutOfScope],
    ),
    (
        "create",
        &[
            ThreadNotLive,
            EntryNotLive,
            TargetNotDirectory,
            NameTooLong,
            EmptyName,
            NameOfDots,
            NameWithSlash,
            NameWithZero,
            NameTaken,
            UnknownKind,
            AccessDenied,
            NoFreeEntry,
            NoObjectNumber,
            NoLogRoom,
        ],
    ),
    (
        "remove",
        &[
            ThreadNotLive,
            EntryNotLive,
            RootNamed,
            AccessDenied,
            DirectoryNotEmpty,
            NoLogRoom,
        ],
    ),
    (
        "link",
        &[
            ThreadNotLive,
            EntryNotLive,
            RootNamed,
            TargetNotDirectory,
            NameTooLong,
            EmptyName,
            NameOfDots,
            NameWithSlash,
            NameWithZero,
            NameTaken,
            LinkOfDirectory,
            AccessDenied,
            ReferDenied,
            NotContained,
            NoFreeEntry,
            NoLogRoom,
        ],
    ),
    (
        "rename",
        &[
            ThreadNotLive,
            EntryNotLive,
            RootNamed,
            TargetNotDirectory,
            NameTooLong,
            EmptyName,
            NameOfDots,
            NameWithSlash,
            NameWithZero,
            SourceAboveTarget,
            AccessDenied,
            ReferDenied,
            NotContained,
            DirectoryOverFile,
            FileOverDirectory,
            DirectoryNotEmpty,
            NoLogRoom,
        ],
    ),
    (
        "exchange",
        &[
            ThreadNotLive,
            EntryNotLive,
            RootNamed,
            TargetNotDirectory,
            NotChildOfTarget,
            SourceAboveTarget,
            OtherAboveSource,
            AccessDenied,
            ReferDenied,
            NotContained,
            OtherNotContained,
            NoLogRoom,
        ],
    ),
    ("lookup", &LOOKUP),
    ("component", &[]),
    (
        "post",
        &[
            CursorPastEnd,
            NotEightSlots,
            UnknownState,
            NoSuchSlot,
            SlotWaiting,
        ],
    ),
    ("turn", &[CursorPastEnd, NotEightSlots, UnknownState]),
    ("batch", &[RaggedRequests, UnknownSort, TooFewAnswers]),
    ("replay", &[FieldTag, FieldValue, FieldRefused, FieldIdle]),
    ("find_policy", &[NoSuchRuleset]),
    (
        "apply_policy",
        &[
            NoSuchRuleset,
            Disabled,
            BytePastKnownSize,
            UnknownBit,
            NothingHandled,
            NoFreeRuleset,
            NoRights,
            RightsNotHandled,
            SweepingRule,
            RightsNotForFile,
            RulesetFull,
        ],
    ),
    (
        "write_policy",
        &[
            Disabled,
            RulesetNotOpen,
            FileWithoutName,
            FileNameTooLong,
            SweepingRule,
            NoEntryLeft,
            ChosenPathTooLong,
            FileTooLong,
            NoRoomForFile,
        ],
    ),
];

/// The refusals of a lookup, which an application of a policy file makes too.
const LOOKUP: [Refusal; 8] = [
    EmptyPath,
    PathTooLong,
    RelativePath,
    PathWithZero,
    AfterNonDirectory,
    SlashAfterNonDirectory,
    ComponentTooLong,
    NoSuchName,
];

/// What may be wrong with a policy file.
pub const FAULTS: [Refusal; 18] = [
    FileTooLong,
    StrayBytes,
    ValuePastEnd,
    NoRulesetYet,
    RulesetWithoutName,
    RulesetNameTooLong,
    RulesetTwice,
    MasksMissing,
    NotMasks,
    MasksSize,
    MasksAgain,
    PathRuleTooShort,
    PortRuleSize,
    UnknownTag,
    GroupTooDeep,
    GroupWithoutLevel,
    GroupLevel,
    RulesetInGroup,
];

/// The refusals that come after the verdict.
const LATER: [Refusal; 4] = [
    DirectoryOverFile,
    FileOverDirectory,
    DirectoryNotEmpty,
    NoFreeEntry,
];

/// The calls that tables which aren't sound don't refuse so.
const WITHOUT_SOUNDNESS: [&str; 6] = ["fresh", "component", "post", "turn", "batch", "find_policy"];

/// The names of posts, turns, batches, policy files and replays.
const EVENTS: [&str; 7] = [
    "post",
    "turn",
    "batch",
    "find_policy",
    "apply_policy",
    "write_policy",
    "replay",
];

/// The calls that change the tree.
const CHANGING: [&str; 5] = ["create", "remove", "link", "rename", "exchange"];

/// The lengths of reports, in cells, that are to be met with every answer that says something.
const REPORTS: [u64; 5] = [0, 1, 2, 3, 5];

/// A call with a report: its name, the length of the report, why it was refused.
type Report = (&'static str, u64, Option<Refusal>);

/// How many groups of a ruleset stand inside one another, and whether some of its rules do not count.
type Groups = (usize, bool);

/// A call on policy files, one of them, and its fault.
type Faulty = (&'static str, File, Refusal);

/// A request of a batch that was answered so; or 0, although its call is refused so after the verdict.
#[derive(Clone, Copy, PartialEq, Eq, PartialOrd, Ord)]
enum AskedAnswer {
    Answered(Option<Refusal>),
    LaterRefused(Refusal),
}

/// The answers counted by call, the damage counted by the clause it breaks, and more that is to be
/// met.
#[derive(Default)]
pub struct Tally {
    pub calls: u64,
    answers: BTreeMap<(&'static str, Option<Refusal>), u64>,
    /// Successes of a rename or exchange of one object with itself.
    same_object: BTreeMap<&'static str, u64>,
    /// What turns answered waiting slots.
    served: BTreeMap<Option<Refusal>, u64>,
    /// Turns where no slot waited.
    idle: u64,
    /// What batches answered their requests.
    asked: BTreeMap<(Sort, AskedAnswer), u64>,
    /// Batches by what is said of their lists.
    lists: BTreeMap<Lists, u64>,
    /// Applied rulesets by how deep their groups are and whether some of them do not count.
    groups: BTreeMap<Groups, u64>,
    /// Policy files with a fault, by the call that met it.
    faults: BTreeMap<Faulty, u64>,
    /// Policy files that were written or had no room.
    written: BTreeMap<Met, u64>,
    /// Calls that change the tree by the room that the log had.
    rooms: BTreeMap<(&'static str, Fit), u64>,
    /// Replays by what is said of them.
    replays: BTreeMap<Replayed, u64>,
    /// Calls with a report by its length.
    reports: BTreeMap<Report, u64>,
    damages: BTreeMap<Unsound, u64>,
    harmless: u64,
    /// Calls on odd tables.
    odds: BTreeMap<(Odd, &'static str), u64>,
    /// The lengths of swept attributes by filling and level.
    attributes: BTreeMap<(Filling, u64), BTreeSet<usize>>,
}

impl Tally {
    pub fn count(&mut self, call: &Call, answer: Answer) {
        self.calls += 1;
        let refusal = answer.err();
        *self.answers.entry((call.name(), refusal)).or_default() += 1;
        if let Some(length) = call.report_length() {
            let report = (call.name(), length, refusal);
            *self.reports.entry(report).or_default() += 1;
        }
    }

    /// Counts a post or a turn, and what it answered the slot that it served.
    pub fn count_event(&mut self, event: &Event, answer: Answer, served: Option<Answer>) {
        let Some(name) = event.name() else {
            return;
        };
        self.calls += 1;
        *self.answers.entry((name, answer.err())).or_default() += 1;
        if let Some(served) = served {
            *self.served.entry(served.err()).or_default() += 1;
        }
        self.idle += u64::from(answer == Ok(IDLE));
    }

    /// Counts a batch on sound tables, which show a model, or on others.
    pub fn count_batch(&mut self, batch: &Batch, answer: Answer, model: Option<&Model>) {
        self.calls += 1;
        *self.answers.entry(("batch", answer.err())).or_default() += 1;
        let Ok(asked) = batch.asked() else {
            return;
        };
        let lists = Lists {
            requests: !asked.is_empty(),
            answers_past_them: batch.answers.len() > ANSWER * asked.len(),
        };
        *self.lists.entry(lists).or_default() += 1;
        for asked in asked {
            let (answer, _) = asked.answer(model);
            let later = answer.ok().and(model);
            let later = later.and_then(|model| asked.refused_later(model));
            let answer = AskedAnswer::Answered(answer.err());
            let answer = later.map_or(answer, AskedAnswer::LaterRefused);
            *self.asked.entry((asked.sort, answer)).or_default() += 1;
        }
    }

    /// Counts a call by the room that the log had, if that room is a special one.
    pub fn count_room(&mut self, call: &Call, answer: Answer, room: Room) {
        let Some(field) = field(call) else {
            return;
        };
        let Room { used, end, logged } = room;
        let need = field.len() as u64;
        let fit = match answer {
            Ok(_) if logged && used + need == end => Fit::Exact,
            Ok(_) if !logged && (used > end || need > end - used) => Fit::Idle,
            Err(NoLogRoom) if used > end => Fit::PastEnd,
            Err(NoLogRoom) if need == end - used + 1 => Fit::OneShort,
            _ => return,
        };
        *self.rooms.entry((call.name(), fit)).or_default() += 1;
    }

    /// Counts a replay.
    pub fn count_replay(&mut self, log: &[u8], answer: Answer) {
        self.calls += 1;
        *self.answers.entry(("replay", answer.err())).or_default() += 1;
        let several = fields(log).0.len() > 1;
        let replayed = match answer {
            Ok(dropped) => Replayed::Dropped(dropped.min(4)),
            Err(refusal) if several => Replayed::RefusedOfSeveral(refusal),
            Err(_) => return,
        };
        *self.replays.entry(replayed).or_default() += 1;
    }

    /// Counts a replay of an unbroken log onto its starting tables.
    pub fn count_unbroken(&mut self, log: &[u8]) {
        let (fields, dropped) = fields(log);
        let (several, cut) = (fields.len() > 1, dropped > 0);
        let replayed = Replayed::Unbroken { several, cut };
        *self.replays.entry(replayed).or_default() += 1;
    }

    /// Counts a name that was asked for in policy files.
    pub fn count_policy(
        &mut self,
        call: &'static str,
        wanted: &Wanted,
        answer: Answer,
        level: u64,
    ) {
        self.calls += 1;
        if let (Ok(_), Ok((_, ruleset))) = (answer, wanted.found()) {
            let all = ruleset.rules(LAST_LEVEL).len();
            let groups = (ruleset.depth(), ruleset.rules(level).len() < all);
            *self.groups.entry(groups).or_default() += 1;
        }
        let refusal = answer.err();
        *self.answers.entry((call, refusal)).or_default() += 1;
        let report = (call, wanted.report, refusal);
        *self.reports.entry(report).or_default() += 1;
        let fault = wanted.found().err().and_then(|missing| missing.fault);
        if let (Some(why), Some((file, _))) = (refusal.filter(|why| FAULTS.contains(why)), fault) {
            *self.faults.entry((call, file, why)).or_default() += 1;
        }
    }

    /// Counts a policy file that is written of sound tables, which show a model, or of others.
    pub fn count_written(&mut self, writing: &Writing, answer: Answer, model: Option<&Model>) {
        self.calls += 1;
        let refusal = answer.err();
        *self.answers.entry(("write_policy", refusal)).or_default() += 1;
        let met = model.map(|model| Met::of(writing, answer, model));
        for met in met.into_iter().flatten() {
            *self.written.entry(met).or_default() += 1;
        }
    }

    /// Counts a step on odd tables.
    pub fn count_odd(&mut self, odds: &[Odd], step: &Step) {
        let Some(name) = step.name() else {
            return;
        };
        for odd in odds {
            *self.odds.entry((*odd, name)).or_default() += 1;
        }
    }

    /// Counts an attribute of the sweep.
    pub fn count_attribute(&mut self, filling: Filling, level: u64, length: usize) {
        let lengths = self.attributes.entry((filling, level)).or_default();
        lengths.insert(length);
    }

    pub fn count_same_object(&mut self, call: &Call) {
        *self.same_object.entry(call.name()).or_default() += 1;
    }

    /// Counts damage by the clause it broke, or as harmless.
    pub fn count_damage(&mut self, broken: Option<Unsound>) {
        match broken {
            Some(clause) => *self.damages.entry(clause).or_default() += 1,
            None => self.harmless += 1,
        }
    }

    fn of(&self, call: &'static str, refusal: Option<Refusal>) -> u64 {
        self.answers.get(&(call, refusal)).copied().unwrap_or(0)
    }

    /// The lengths of swept attributes with a filling at a level.
    fn lengths(&self, filling: Filling, level: u64) -> usize {
        let lengths = self.attributes.get(&(filling, level));
        lengths.map_or(0, BTreeSet::len)
    }

    /// What random lists of calls are to meet and did not: refusals, clauses of soundness that
    /// damage breaks first, reports and odd tables.
    pub fn not_met(&self) -> Vec<String> {
        let refusals = refusals().filter(|(call, refusal)| self.of(call, Some(*refusal)) == 0);
        let clauses = Unsound::ALL.iter();
        let unbroken = clauses.filter(|clause| !self.damages.contains_key(clause));
        let reports = reports().filter(|report| !self.reports.contains_key(report));
        let odds = odds().filter(|odd| !self.odds.contains_key(odd));
        let served = served().filter(|answer| !self.served.contains_key(answer));
        let idle = (self.idle == 0).then(|| "a turn where no slot waits".to_string());
        let asked = asked().filter(|asked| !self.asked.contains_key(asked));
        let lists = Lists::ALL.iter();
        let lists = lists.filter(|lists| !self.lists.contains_key(lists));
        // Rules are left out at any depth; that they are is asked for where that is often.
        let depths = (0..=DEEPEST).map(|depth| (depth, false));
        let groups = depths.chain([(1, true), (2, true)]);
        let groups = groups.filter(|groups| !self.groups.contains_key(groups));
        let faults = faults().filter(|faulty| !self.faults.contains_key(faulty));
        let written = Met::ALL.iter();
        let written = written.filter(|met| !self.written.contains_key(met));
        let rooms = rooms().filter(|room| !self.rooms.contains_key(room));
        let replays = replays().filter(|replayed| !self.replays.contains_key(replayed));
        let lines = refusals.map(|(call, refusal)| format!("{call} {}", refusal_text(refusal)));
        lines
            .chain(faults.map(|faulty| fault_text(&faulty)))
            .chain(written.map(|met| format!("written file, {met:?}")))
            .chain(
                groups.map(|groups| format!("ruleset with groups, depth and left out: {groups:?}")),
            )
            .chain(served.map(|answer| format!("turn that serves, {}", answer_text(answer))))
            .chain(idle)
            .chain(asked.map(|asked| format!("request of a batch, {}", asked_text(asked))))
            .chain(lists.map(|lists| format!("batch with {lists:?}")))
            .chain(rooms.map(|(call, fit)| format!("{call} with room of the log {fit:?}")))
            .chain(replays.map(|replayed| format!("replay {replayed:?}")))
            .chain(unbroken.map(|clause| format!("damage {clause:?}")))
            .chain(reports.map(|report| report_text(&report)))
            .chain(odds.map(|(odd, call)| format!("{call} on {odd:?}")))
            .collect()
    }

    /// What the sweep of attributes is to meet and did not.
    pub fn not_swept(&self) -> Vec<String> {
        let levels = Filling::ALL
            .into_iter()
            .flat_map(|filling| (0..=LAST_LEVEL).map(move |level| (filling, level)));
        let lines = levels.filter_map(|(filling, level)| {
            let fit = (0..=LONGEST).filter(|length| filling.fits(level, *length));
            let missing = fit.count() - self.lengths(filling, level);
            let line = format!("{missing} lengths of attributes, {filling:?}, level {level}");
            (missing > 0).then_some(line)
        });
        lines.collect()
    }
}

/// Each call with each of its refusals.
fn refusals() -> impl Iterator<Item = (&'static str, Refusal)> {
    let refusals = REFUSALS.iter().flat_map(|(call, refusals)| {
        let unsound = (!WITHOUT_SOUNDNESS.contains(call)).then_some(NotSound);
        let all = unsound.into_iter().chain(refusals.iter().copied());
        all.map(|refusal| (*call, refusal))
    });
    refusals.chain(LOOKUP.map(|refusal| ("apply_policy", refusal)))
}

/// Each call with a report, with each length and each answer that the report depends on: a success,
/// a refusal by the verdict, tables that aren't sound.
fn reports() -> impl Iterator<Item = Report> {
    const SAID: [Refusal; 8] = [
        LayerNotInUse,
        AccessDenied,
        ReferDenied,
        NotContained,
        OtherNotContained,
        NoSuchRuleset,
        RightsNotHandled,
        NoLogRoom,
    ];
    let reporting = REFUSALS.iter().filter(|(call, refusals)| {
        let saying = ["layer_rules", "component", "find_policy", "apply_policy"];
        saying.contains(call) || refusals.contains(&AccessDenied)
    });
    reporting.flat_map(|(call, refusals)| {
        let unsound = (!WITHOUT_SOUNDNESS.contains(call)).then_some(NotSound);
        let refused = refusals.iter().filter(|refusal| SAID.contains(refusal));
        let of_files = refusals.contains(&NoSuchRuleset);
        let of_files = of_files.then_some([FileTooLong, UnknownTag]);
        let refused = refused.copied().chain(of_files.into_iter().flatten());
        let answers = refused.chain(unsound).map(Some).chain([None]);
        answers.flat_map(|answer| REPORTS.map(|length| (*call, length, answer)))
    })
}

/// Each call on policy files with each fault of each file.
fn faults() -> impl Iterator<Item = Faulty> {
    let calls = ["find_policy", "apply_policy"].into_iter();
    let files = calls.flat_map(|call| File::BOTH.map(|file| (call, file)));
    files.flat_map(|(call, file)| FAULTS.map(|fault| (call, file, fault)))
}

fn fault_text((call, file, fault): &Faulty) -> String {
    format!("{call}, {}: {}", file.name(), refusal_text(*fault))
}

/// Each sort of odd tables with each call.
fn odds() -> impl Iterator<Item = (Odd, &'static str)> {
    Odd::ALL
        .into_iter()
        .flat_map(|odd| names().map(move |call| (odd, call)))
}

/// The lists of a batch that is not refused.
#[derive(Clone, Copy, PartialEq, Eq, PartialOrd, Ord, Debug)]
struct Lists {
    requests: bool,
    /// There are cells past the last answer.
    answers_past_them: bool,
}

impl Lists {
    const ALL: [Lists; 4] = [
        Lists::of(false, false),
        Lists::of(false, true),
        Lists::of(true, false),
        Lists::of(true, true),
    ];

    const fn of(requests: bool, answers_past_them: bool) -> Lists {
        Lists {
            requests,
            answers_past_them,
        }
    }
}

/// Each sort of requests with what it may be answered, by tables that are not sound, too; a batch has no log.
fn asked() -> impl Iterator<Item = (Sort, AskedAnswer)> {
    Sort::ALL.into_iter().flat_map(|sort| {
        let refusals = refusals().filter(move |(call, _)| *call == sort.name());
        let refusals = refusals.filter(|(_, refusal)| *refusal != NoLogRoom);
        let answers = refusals.map(|(_, refusal)| match refusal {
            later if LATER.contains(&later) => AskedAnswer::LaterRefused(later),
            before => AskedAnswer::Answered(Some(before)),
        });
        let outside = sort.has_name().then_some(Some(NameOutside));
        let others = outside.into_iter().chain([None]);
        let answers = answers.chain(others.map(AskedAnswer::Answered));
        answers.map(move |answer| (sort, answer))
    })
}

fn asked_text((sort, answer): (Sort, AskedAnswer)) -> String {
    let answer = match answer {
        AskedAnswer::Answered(answer) => answer_text(answer),
        AskedAnswer::LaterRefused(refusal) => format!("success before {}", refusal_text(refusal)),
    };
    format!("{} {answer}", sort.name())
}

/// The log before a call that changes the tree, and whether the call wrote a field.
pub struct Room {
    pub used: u64,
    pub end: u64,
    pub logged: bool,
}

/// How a field fits into the log that a call has.
#[derive(Clone, Copy, PartialEq, Eq, PartialOrd, Ord, Debug)]
enum Fit {
    Exact,
    OneShort,
    /// The mark lies behind the end.
    PastEnd,
    /// There is no room, and none is needed.
    Idle,
}

/// The calls that change the tree with each room; only a rename or an exchange may succeed and change nothing.
fn rooms() -> impl Iterator<Item = (&'static str, Fit)> {
    let fits = [Fit::Exact, Fit::OneShort, Fit::PastEnd];
    let needed = CHANGING
        .into_iter()
        .flat_map(move |call| fits.map(|fit| (call, fit)));
    needed.chain([("rename", Fit::Idle), ("exchange", Fit::Idle)])
}

/// What is said of a replay.
#[derive(Clone, Copy, PartialEq, Eq, PartialOrd, Ord, Debug)]
enum Replayed {
    /// It succeeds, and so many bytes at the tail are dropped, or more of them than three.
    Dropped(u64),
    /// One of several fields is refused.
    RefusedOfSeveral(Refusal),
    /// An unbroken log onto its starting tables, with several whole fields or fewer, cut within a field or not.
    Unbroken { several: bool, cut: bool },
}

fn replays() -> impl Iterator<Item = Replayed> {
    let dropped = (0..=4).map(Replayed::Dropped);
    let refused = [FieldTag, FieldValue, FieldRefused, FieldIdle].into_iter();
    let refused = refused.map(Replayed::RefusedOfSeveral);
    let both = [true, false];
    let unbroken = both.map(|several| both.map(|cut| Replayed::Unbroken { several, cut }));
    dropped.chain(refused).chain(unbroken.into_iter().flatten())
}

/// The names of all calls, of posts, turns, batches, policy files and replays.
fn names() -> impl Iterator<Item = &'static str> {
    Call::NAMES.iter().copied().chain(EVENTS)
}

/// What a turn may answer the slot that it serves: what an access answers.
fn served() -> impl Iterator<Item = Option<Refusal>> {
    let access = refusals().filter(|(call, _)| *call == "access");
    access.map(|(_, refusal)| Some(refusal)).chain([None])
}

fn refusal_text(refusal: Refusal) -> String {
    format!("{:?} {refusal:?}", refusal.errno())
}

fn answer_text(answer: Option<Refusal>) -> String {
    answer.map_or("success".to_string(), refusal_text)
}

fn report_text((call, length, refusal): &Report) -> String {
    let answer = answer_text(*refusal);
    format!("{call} with a report of {length} cells, {answer}")
}

impl fmt::Display for Tally {
    fn fmt(&self, f: &mut fmt::Formatter) -> fmt::Result {
        self.write_answers(f)?;
        self.write_served(f)?;
        self.write_asked(f)?;
        self.write_faults(f)?;
        self.write_written(f)?;
        self.write_logs(f)?;
        self.write_reports(f)?;
        writeln!(
            f,
            "damaged cells that left the tables sound: {}",
            self.harmless
        )?;
        writeln!(
            f,
            "damaged tables, by the first clause of soundness that failed:"
        )?;
        for (clause, count) in &self.damages {
            writeln!(f, "    {clause:?} {count}")?;
        }
        self.write_odds(f)?;
        self.write_attributes(f)?;
        for line in self.not_met().into_iter().chain(self.not_swept()) {
            writeln!(f, "not met: {line}")?;
        }
        Ok(())
    }
}

impl Tally {
    fn write_answers(&self, f: &mut fmt::Formatter) -> fmt::Result {
        for call in names() {
            writeln!(f, "{call}: {} succeeded", self.of(call, None))?;
            if let Some(count) = self.same_object.get(call) {
                writeln!(f, "    of these on one object {count}")?;
            }
            let refused = self.answers.iter().filter(|((name, _), _)| *name == call);
            for ((_, refusal), count) in refused {
                if let Some(refusal) = refusal {
                    writeln!(f, "    {} {count}", refusal_text(*refusal))?;
                }
            }
        }
        Ok(())
    }

    fn write_served(&self, f: &mut fmt::Formatter) -> fmt::Result {
        writeln!(f, "turns where no slot waited: {}", self.idle)?;
        writeln!(f, "answers that turns gave to slots:")?;
        for (answer, count) in &self.served {
            writeln!(f, "    {} {count}", answer_text(*answer))?;
        }
        Ok(())
    }

    fn write_asked(&self, f: &mut fmt::Formatter) -> fmt::Result {
        writeln!(f, "answers of batches to requests:")?;
        for (asked, count) in &self.asked {
            writeln!(f, "    {} {count}", asked_text(*asked))?;
        }
        Ok(())
    }

    fn write_faults(&self, f: &mut fmt::Formatter) -> fmt::Result {
        writeln!(f, "policy files with a fault:")?;
        for (faulty, count) in &self.faults {
            writeln!(f, "    {} {count}", fault_text(faulty))?;
        }
        Ok(())
    }

    fn write_written(&self, f: &mut fmt::Formatter) -> fmt::Result {
        writeln!(
            f,
            "policy files that were to be written, and what they met:"
        )?;
        for (met, count) in &self.written {
            writeln!(f, "    {met:?} {count}")?;
        }
        Ok(())
    }

    fn write_logs(&self, f: &mut fmt::Formatter) -> fmt::Result {
        writeln!(f, "calls by the room of the log:")?;
        for ((call, fit), count) in &self.rooms {
            writeln!(f, "    {call} {fit:?} {count}")?;
        }
        writeln!(f, "replays:")?;
        for (replayed, count) in &self.replays {
            writeln!(f, "    {replayed:?} {count}")?;
        }
        Ok(())
    }

    fn write_reports(&self, f: &mut fmt::Formatter) -> fmt::Result {
        let mut lengths: BTreeMap<(&str, u64), u64> = BTreeMap::new();
        for ((call, length, _), count) in &self.reports {
            *lengths.entry((call, *length)).or_default() += count;
        }
        writeln!(f, "calls with a report by its length:")?;
        for ((call, length), count) in lengths {
            writeln!(f, "    {call} {length} {count}")?;
        }
        Ok(())
    }

    fn write_odds(&self, f: &mut fmt::Formatter) -> fmt::Result {
        writeln!(f, "calls on odd tables, and how many of these were fresh:")?;
        for odd in Odd::ALL {
            let calls = self.odds.iter().filter(|((other, _), _)| *other == odd);
            let all: u64 = calls.map(|(_, count)| count).sum();
            let fresh = self.odds.get(&(odd, "fresh")).copied().unwrap_or(0);
            writeln!(f, "    {odd:?} {all} {fresh}")?;
        }
        Ok(())
    }

    fn write_attributes(&self, f: &mut fmt::Formatter) -> fmt::Result {
        writeln!(f, "lengths of attributes met at each level from 0:")?;
        for filling in Filling::ALL {
            let levels = (0..=LAST_LEVEL).map(|level| self.lengths(filling, level).to_string());
            let levels: Vec<String> = levels.collect();
            writeln!(f, "    {filling:?} {}", levels.join(" "))?;
        }
        Ok(())
    }
}
