//! What `skein run` shows: each call with its answer.
use crate::json::Json;
use crate::lines::{broken, Row};
use crate::log::in_words;
use crate::paint::Paint;
use crate::play::{Play, Played};
use crate::policy::show;
use crate::scenario::{
    written, Answer, Call, LogCall, Mask, PolicyReport, Report, RulesetCall, SlotReport, Space,
};
use crate::words::{cut, shown};
use skeinrabbit::{Errno, Layer, Rights, Rule, SlotState};

/// All calls, and how many answers differ; with more words, what each access read.
pub fn text(play: &Play, width: usize, verbose: bool, paint: Paint) -> String {
    let layout = Layout {
        verbose,
        ..Layout::of(&play.played, width)
    };
    let mut out = String::new();
    for played in &play.played {
        out.push_str(&layout.line(played, paint));
    }
    out.push_str(&broken(&summary(play), INDENT, width));
    out
}

/// The numbers of calls, expectations and differing answers, with the lines of these.
pub fn summary(play: &Play) -> String {
    const MOST: usize = 10;
    let (calls, expectations) = (play.played.len(), play.expectations());
    let lines: Vec<usize> = play
        .differing()
        .map(|played| played.statement.line)
        .collect();
    let mut summary = format!(
        "{}, {}, {} differing",
        counted(calls, "call"),
        counted(expectations, "expectation"),
        lines.len()
    );
    for (place, line) in lines.iter().take(MOST).enumerate() {
        let before = match (place, lines.len()) {
            (0, 1) => ": line",
            (0, _) => ": lines",
            _ => ",",
        };
        summary.push_str(&format!("{before} {line}"));
    }
    if lines.len() > MOST {
        summary.push_str(&format!(" and {} more", lines.len() - MOST));
    }
    if let Some(stopped) = &play.stopped {
        summary.push_str(&format!("; stopped at line {}", stopped.line));
    }
    summary
}

/// A number with its noun.
pub fn counted(count: usize, noun: &str) -> String {
    let plural = if count == 1 { "" } else { "s" };
    format!("{count} {noun}{plural}")
}

/// What a line says of an answer that it does not allow.
pub fn verdict(played: &Played) -> String {
    let verdict = match &played.statement.expected {
        Some(expected) => {
            let expected = expected.to_string();
            format!(
                "expected {}",
                each_word(&expected, |word| cut(word, WIDEST_PART))
            )
        }
        None => "must succeed".to_owned(),
    };
    match played.statement.rounds {
        Some(_) => format!("{verdict} in round {}", played.round),
        None => verdict,
    }
}

/// Why a call was refused, in a few words.
pub fn reason(played: &Played) -> Option<String> {
    let Answer::Refused(errno) = played.answer else {
        return None;
    };
    if let Some(denial) = denial(played) {
        return Some(format!("{errno}: {denial}"));
    }
    if let Some(fault) = &played.fault {
        return Some(format!("{errno}: {fault}"));
    }
    let reason = match (&played.statement.call, errno) {
        (Call::Queue(_), Errno::EIO) => "the queue is not sound",
        (Call::Queue(_), Errno::EINVAL) => "there is no such slot",
        (Call::Queue(_), Errno::EAGAIN) => "a request waits in the slot",
        (_, Errno::EIO) => "the tables are not sound",
        (Call::Log(_), Errno::EBADMSG) => {
            "a whole field of the log is none that can be made again here"
        }
        (_, Errno::EAGAIN) => "no free thread",
        (Call::Ruleset(RulesetCall::Restrict { .. }), Errno::EPERM) => {
            "the thread has neither no_new_privs nor admin set"
        }
        (Call::Ruleset(RulesetCall::AddPath { .. }), Errno::EPERM) => {
            "a rule on the root asks for a right to change something"
        }
        (Call::Thread { .. }, Errno::EBUSY) => "the only live thread does not end",
        (Call::Thread { .. }, Errno::EPERM) => {
            "a layer that handles the scope is not one of the target's"
        }
        _ => errno.description(),
    };
    Some(format!("{errno}: {reason}"))
}

/// Which layer refused, and for which rights, in words.
fn denial(played: &Played) -> Option<String> {
    let (layer, rights) = named(played)?;
    Some(match (played.answer, rights) {
        (Answer::Refused(Errno::EXDEV), rights) if rights != Mask::Files(Rights::REFER) => {
            format!("under layer {layer} the move would gain {rights}")
        }
        _ => format!("layer {layer} denies {rights}"),
    })
}

/// The request of a slot that was served or read and its answer, in words; of a slot that is not answered what its answer's
/// cells hold.
fn slot_lines(played: &Played) -> Vec<String> {
    let slot = played.report.and_then(|report| report.slot);
    let Some(slot) = slot.filter(|slot| slot.state != SlotState::Empty) else {
        return Vec::new();
    };
    let SlotReport {
        thread,
        entry,
        rights,
        ..
    } = slot;
    let what = if slot.is_answered() { "answer" } else { "kept" };
    let why = denial(played).map_or(String::new(), |denial| format!(": {denial}"));
    vec![
        format!("request: thread {thread}, entry {entry}, {rights}"),
        format!("{what}: {}{why}", slot.answer()),
    ]
}

/// How far a line that goes on is indented.
const INDENT: usize = 4;
/// The widest that a part of a path, a word of a policy file or one of what is expected is shown.
const WIDEST_PART: usize = 40;
/// The widest column of answers. Wider ones have a line of their own.
const WIDEST_ANSWER: usize = 24;

/// The columns.
pub struct Layout {
    width: usize,
    /// Whether to say what each access read.
    verbose: bool,
    /// The widest word that fits in a line that goes on.
    room: usize,
    line: usize,
    /// Where the call, its answer and the verdict start.
    text: usize,
    answer: usize,
    verdict: usize,
}

impl Layout {
    pub fn of(played: &[Played], width: usize) -> Layout {
        // The widest that is not too wide, so that a long call does not push away the answers of the others.
        let widest = |of: &dyn Fn(&Played) -> usize, most: usize| {
            let widths = played.iter().map(of).filter(|width| *width <= most);
            widths.max().unwrap_or(0)
        };
        let gap = 2;
        let line = widest(&|played| played.statement.line.to_string().len(), width);
        let text = line + gap;
        let room = width.saturating_sub(text + INDENT);
        let answers = widest(
            &|played| answer(played, room).chars().count(),
            WIDEST_ANSWER,
        );
        let most = width.saturating_sub(text + gap + answers + gap + "ok".len());
        let texts = widest(&|played| call_text(played, room).chars().count(), most);
        let answer = text + texts + gap;
        let verdict = answer + answers + gap;
        Layout {
            width,
            verbose: false,
            room,
            line,
            text,
            answer,
            verdict,
        }
    }

    /// A call with its answer, marked where it differs. Below stand why it was refused and the rules of a layer.
    pub fn line(&self, played: &Played, paint: Paint) -> String {
        let statement = played.statement;
        let plain = str::to_owned;
        let indent = self.text + INDENT;
        let mut row = Row::new(indent, self.width);
        let number = statement.line.to_string();
        row.cell(self.line.saturating_sub(number.len()), &number, plain);
        row.fill(self.text, &call_text(played, self.room));
        row.cell(self.answer, &answer(played, self.room), plain);
        let mut wide = String::new();
        if played.differs() {
            let verdict = format!("DIFFERS: {}", verdict(played));
            if indent + verdict.chars().count() > self.width {
                wide = self.wide(&verdict, indent, paint);
            } else {
                row.cell(self.verdict, &verdict, |text| paint.differing(text));
            }
        } else if statement.names_an_answer() {
            row.cell(self.verdict, "ok", |text| paint.granted(text));
        }
        let mut out = row.end();
        out.push_str(&wide);
        let read = entries_read(played).filter(|_| self.verbose);
        for line in below(played).into_iter().chain(read) {
            let mut row = Row::new(indent + INDENT, self.width);
            row.fill(indent, &line);
            out.push_str(&row.end());
        }
        out
    }
}

impl Layout {
    /// A verdict that has no room in one line.
    fn wide(&self, verdict: &str, indent: usize, paint: Paint) -> String {
        let mut row = Row::new(indent + INDENT, self.width);
        row.fill(indent, verdict);
        let lines = row.end();
        let painted = lines.lines().map(|line| {
            let words = line.trim_start_matches(' ');
            let blanks = " ".repeat(line.len() - words.len());
            format!("{blanks}{}\n", paint.differing(words))
        });
        painted.collect()
    }
}

/// How many entries' rules an access read, in words.
fn entries_read(played: &Played) -> Option<String> {
    let report = played.report?;
    let read = report.entries_read?;
    if report.slot.is_some_and(|slot| !slot.is_answered()) {
        return None;
    }
    let noun = if read == 1 { "entry" } else { "entries" };
    Some(format!("rules of {read} {noun} read"))
}

/// What stands below a call: why it was refused, if that differs or a layer did it, the rules of a layer, and what a log holds.
fn below(played: &Played) -> Vec<String> {
    let slot = slot_lines(played);
    if !slot.is_empty() {
        return slot;
    }
    let why = if played.differs() {
        reason(played)
    } else {
        denial(played).or_else(|| played.fault.clone())
    };
    let rules = played.rules.iter().map(rule_text);
    let parts = part(played).into_iter().chain(policy_part(played));
    let parts = parts.chain(written_file(played));
    let parts = parts.chain(log_fields(played));
    why.into_iter().chain(rules).chain(parts).collect()
}

/// The fields of a log that was read, in words.
fn log_fields(played: &Played) -> Vec<String> {
    match played.statement.call {
        Call::Log(LogCall::Read) => in_words(&played.part),
        _ => Vec::new(),
    }
}

/// The policy file that was written, as text.
fn written_file(played: &Played) -> Vec<String> {
    match played.answer {
        Answer::Written(_) => {
            let text = show(&played.part);
            let lines = text.lines();
            lines
                .map(|line| each_word(line, |word| cut(word, WIDEST_PART)))
                .collect()
        }
        _ => Vec::new(),
    }
}

/// The part of a policy file that a name means, in words.
fn policy_part(played: &Played) -> Option<String> {
    let PolicyReport {
        file,
        place,
        length,
    } = played.report?.policy?;
    let (file, end) = (file?, place + length);
    (length > 0).then(|| format!("{file} file, bytes {place} to {end}"))
}

/// The part of a path that a call gave, in words.
fn part(played: &Played) -> Option<String> {
    let (start, length) = played.report?.part?;
    let part = cut(&written(&played.part), WIDEST_PART);
    Some(match length {
        0 => "no component".to_owned(),
        _ => format!("start {start}, length {length}: {part}"),
    })
}

/// The call and its arguments, with what is very long cut.
fn call_text(played: &Played, widest: usize) -> String {
    each_word(&played.statement.text, |word| shown(word, widest))
}

/// A text with each of its words, and of joined rights each right, as it is to be shown.
fn each_word(text: &str, shown: impl Fn(&str) -> String) -> String {
    let pieces = text.split_inclusive([' ', '+']);
    let pieces = pieces.map(|piece| {
        let word = piece.trim_end_matches([' ', '+']);
        let end = piece.strip_prefix(word).unwrap_or_default();
        format!("{}{end}", shown(word))
    });
    pieces.collect()
}

/// The answer, with the name that it is bound to.
fn answer(played: &Played, widest: usize) -> String {
    let answer = match (played.answer, &played.statement.binds) {
        (answer @ (Answer::New(_) | Answer::Found(_)), Some((_, name))) => {
            format!("{answer} -> {name}")
        }
        (answer, _) => answer.to_string(),
    };
    shown(&answer, widest)
}

fn rule_text(rule: &Rule) -> String {
    match rule {
        Rule::Path { object, rights } => format!("object {object}: {rights}"),
        Rule::Port { port, rights } => format!("port {port}: {rights}"),
    }
}

/// The members of the JSON document of `skein run`.
pub fn json(file: &str, play: &Play) -> Json {
    Json::Object(vec![
        ("command", Json::text("run")),
        ("file", Json::text(file)),
        ("calls", Json::list(&play.played, call_json)),
        ("expectations", Json::count(play.expectations())),
        ("differing", Json::count(play.differing().count())),
    ])
}

/// A call with its answer.
pub fn call_json(played: &Played) -> Json {
    let statement = played.statement;
    let (number, errno) = match played.answer {
        Answer::Done => (Some(0), None),
        Answer::New(number)
        | Answer::Found(number)
        | Answer::Written(number)
        | Answer::Count(number) => (Some(number), None),
        Answer::Served(slot) => (Some(slot.number()), None),
        Answer::Idle | Answer::State(_) => (None, None),
        Answer::Refused(errno) => (None, Some(errno)),
    };
    let (layer, rights) = named(played).unzip();
    let entries_read = played.report.and_then(|report| report.entries_read);
    let made = match (played.answer, &statement.binds) {
        (Answer::New(_) | Answer::Found(_), Some((space, name))) => Some((*space, name.as_str())),
        _ => None,
    };
    Json::Object(vec![
        ("line", Json::count(statement.line)),
        ("call", Json::text(statement.name)),
        ("text", Json::text(&statement.text)),
        ("rounds", Json::Number(statement.rounds.unwrap_or(1))),
        ("round", Json::Number(played.round)),
        ("answer", Json::text(played.answer.to_string())),
        ("number", Json::option(number, Json::Number)),
        (
            "errno",
            Json::option(errno, |errno| Json::Number(errno.number().into())),
        ),
        (
            "layer",
            Json::option(layer, |layer| Json::Number(layer.number())),
        ),
        ("rights", rights.map_or(Json::List(Vec::new()), mask_json)),
        ("entries_read", Json::option(entries_read, Json::Number)),
        ("bound", Json::option(made, bound_json)),
        (
            "expected",
            Json::option(statement.expected.as_ref(), |expected| {
                Json::text(expected.to_string())
            }),
        ),
        ("differs", Json::Bool(played.differs())),
        ("rules", Json::list(&played.rules, rule_json)),
        (
            "part",
            Json::option(played.report.and_then(|report| report.part), |part| {
                part_json(part, &played.part)
            }),
        ),
        (
            "slot",
            Json::option(played.report.and_then(|report| report.slot), slot_json),
        ),
        (
            "policy",
            Json::option(played.report.and_then(|report| report.policy), |policy| {
                policy_json(policy, played.fault.as_deref())
            }),
        ),
        ("written", Json::option(written_bytes(played), Json::text)),
        ("log", Json::list(log_fields(played), Json::text)),
    ])
}

/// The bytes of the policy file that was written, with the escapes of a scenario.
fn written_bytes(played: &Played) -> Option<String> {
    matches!(played.answer, Answer::Written(_)).then(|| written(&played.part))
}

/// What is said of policy files: the file, the ruleset's part of it or the place of its fault, and what is wrong.
fn policy_json(policy: PolicyReport, fault: Option<&str>) -> Json {
    Json::Object(vec![
        (
            "file",
            Json::option(policy.file, |file| Json::text(file.to_string())),
        ),
        ("place", Json::Number(policy.place)),
        ("length", Json::Number(policy.length)),
        ("fault", Json::option(fault, Json::text)),
    ])
}

/// A slot that was served or read: its request, and its answer or what the cells of one hold.
fn slot_json(slot: SlotReport) -> Json {
    let errno = slot.answer.err();
    Json::Object(vec![
        ("slot", Json::Number(slot.slot.number())),
        ("thread", Json::Number(slot.thread.number())),
        ("entry", Json::Number(slot.entry.number())),
        ("rights", rights_json(slot.rights.iter())),
        ("answered", Json::Bool(slot.is_answered())),
        ("answer", Json::text(slot.answer().to_string())),
        (
            "errno",
            Json::option(errno, |errno| Json::Number(errno.number().into())),
        ),
    ])
}

/// The layer that refused, and for which rights.
fn named(played: &Played) -> Option<(Layer, Mask)> {
    let Report { layer, rights, .. } = played.report?;
    Some((layer?, rights))
}

pub fn mask_json(mask: Mask) -> Json {
    match mask {
        Mask::Files(rights) => rights_json(rights.iter()),
        Mask::Ports(rights) => rights_json(rights.iter()),
    }
}

fn bound_json((space, name): (Space, &str)) -> Json {
    Json::Object(vec![
        ("what", Json::text(space.noun())),
        ("name", Json::text(name)),
    ])
}

/// A part of a path: where it starts, how long it is, and its bytes with the escapes of a scenario.
fn part_json((start, length): (u64, u64), bytes: &[u8]) -> Json {
    Json::Object(vec![
        ("start", Json::Number(start)),
        ("length", Json::Number(length)),
        (
            "text",
            Json::text(if length == 0 {
                String::new()
            } else {
                written(bytes)
            }),
        ),
    ])
}

fn rule_json(rule: &Rule) -> Json {
    let (place, rights) = rule_members(rule);
    Json::Object(vec![place, ("rights", rights)])
}

/// Where a rule is, and its rights.
pub fn rule_members(rule: &Rule) -> ((&'static str, Json), Json) {
    match rule {
        Rule::Path { object, rights } => (
            ("object", Json::Number(*object)),
            rights_json(rights.iter()),
        ),
        Rule::Port { port, rights } => (("port", Json::Number(*port)), rights_json(rights.iter())),
    }
}

/// Rights by their names.
pub fn rights_json(rights: impl Iterator<Item = impl ToString>) -> Json {
    Json::list(rights, |right| Json::text(right.to_string()))
}
