//! The comparison must find brokers with a deliberate fault in their log or their replay, and make the case short.

use model::call::{Broker, Call, Reply};
use model::compare::{compare, Case, Difference, Options, Step};
use model::log::{call_of, field, fields, other_tree, Log};
use model::reference::Rereading;
use model::refusal::{Errno, Refusal};
use model::scenario::scenario;
use model::shrink::shrink;
use model::sound::check;
use model::state::Model;
use model::tables::{Table, Tables};
use model::tally::Tally;

/// The first difference that a comparison with logs finds, made short, and its scenario.
fn found<B: Broker>(broker: &mut B) -> (Case, Difference, String) {
    let options = Options {
        seed: 1,
        calls: 500_000,
        seconds: None,
        policies: &[0],
        writes: false,
        logs: true,
    };
    let case = compare(broker, &options, &mut Tally::default()).expect("no difference found");
    let (case, difference) = shrink(broker, case).expect("the difference is gone");
    let text = scenario(&case, &difference);
    (case, difference, text)
}

/// The step that differs, the last one, with a log before it or with few steps from fresh tables, where shrinking keeps
/// what prepares it.
fn last_step<'a>(case: &'a Case, text: &str) -> &'a Step {
    let fresh = case.start == Model::fresh(case.start.level);
    let short = if fresh { 6 } else { 2 };
    assert!(case.steps.len() <= short, "{text}");
    case.steps.last().expect("a step")
}

/// The call that differs.
fn last_call<'a>(case: &'a Case, text: &str) -> &'a Call {
    match last_step(case, text) {
        Step::Call(call) => call,
        _ => panic!("{text}"),
    }
}

/// The fields whose replay differs.
fn replayed<'a>(case: &'a Case, text: &str) -> Vec<(u8, &'a [u8])> {
    match last_step(case, text) {
        Step::Replay(log) => fields(log).0,
        _ => panic!("{text}"),
    }
}

fn refused(answer: u64) -> bool {
    Errno::ALL.iter().any(|errno| errno.returned() == answer)
}

/// A fault in what a call does with its log.
struct Logging(fn(&mut Change) -> Option<u64>);

/// What the model makes of a call, to be changed; an answer in place of the model's may be given.
struct Change<'a> {
    call: &'a Call,
    /// The number that the model answers.
    answer: u64,
    /// The tables and the log before the call.
    before: (Tables, Log),
    tables: &'a mut Tables,
    log: &'a mut Log,
}

impl Broker for Logging {
    fn answer(&mut self, tables: &mut Tables, call: &Call) -> Reply {
        Rereading.answer(tables, call)
    }

    fn answer_logged(&mut self, tables: &mut Tables, log: &mut Log, call: &Call) -> Reply {
        let before = (tables.clone(), log.clone());
        let mut reply = Rereading.answer_logged(tables, log, call);
        if field(call).is_some() {
            let answer = reply.number;
            let other = (self.0)(&mut Change {
                call,
                answer,
                before,
                tables,
                log,
            });
            reply.number = other.unwrap_or(answer);
        }
        reply
    }
}

impl Change<'_> {
    fn logged(&self) -> bool {
        self.log.used != self.before.1.used
    }

    /// The answer and the tables that the call gives with room.
    fn with_room(&self) -> (u64, Tables) {
        let mut tables = self.before.0.clone();
        let reply = Rereading.answer(&mut tables, self.call);
        (reply.number, tables)
    }
}

/// The tables are changed, and then there is no room.
#[test]
fn a_change_without_room_is_found() {
    let (case, difference, text) = found(&mut Logging(|change| {
        let (answer, tables) = change.with_room();
        if change.answer == Errno::ENOSPC.returned() && answer != change.answer {
            *change.tables = tables;
        }
        None
    }));
    last_call(&case, &text);
    assert!(text.contains("=> ENOSPC layer=none rights=0\n"), "{text}");
    assert!(!difference.cells.is_empty(), "{text}");
    assert_eq!(difference.broker, difference.model, "{text}");
}

/// A change without room succeeds, and is in no log.
#[test]
fn a_change_that_is_not_logged_for_want_of_room_is_found() {
    let (case, _, text) = found(&mut Logging(|change| {
        let (answer, tables) = change.with_room();
        *change.tables = tables;
        Some(answer)
    }));
    last_call(&case, &text);
    assert!(text.contains("=> ENOSPC layer=none rights=0\n"), "{text}");
}

/// The room is tested before the other refusals.
#[test]
fn a_refusal_behind_no_room_is_found() {
    let (case, difference, text) = found(&mut Logging(|change| {
        let log = &change.before.1;
        let need = field(change.call).unwrap_or_default().len() as u64;
        let refused = refused(change.answer) && change.answer != Errno::EIO.returned();
        (refused && log.room() < need).then_some(Errno::ENOSPC.returned())
    }));
    last_call(&case, &text);
    assert_eq!(difference.broker.number, Errno::ENOSPC.returned(), "{text}");
    assert!(difference.cells.is_empty(), "{text}");
}

/// A rename that changes nothing is logged.
#[test]
fn an_idle_rename_that_is_logged_is_found() {
    let (case, difference, text) = found(&mut Logging(|change| {
        let rename = matches!(change.call, Call::Rename { .. }) && change.answer == 0;
        if rename && !other_tree(change.tables, &change.before.0) {
            change.log.append(&field(change.call).unwrap_or_default());
        }
        None
    }));
    let call = last_call(&case, &text);
    assert!(matches!(call, Call::Rename { .. }), "{text}");
    assert_eq!(difference.broker, difference.model, "{text}");
    let [broker, model] = difference.logs.expect("the same logs");
    assert!(broker.used > model.used, "{text}");
}

/// A success that changes nothing is refused where there is no room.
#[test]
fn idle_calls_that_need_room_are_found() {
    let (case, difference, text) = found(&mut Logging(|change| {
        let need = field(change.call).unwrap_or_default().len() as u64;
        let idle = change.answer == 0 && !change.logged();
        (idle && change.log.room() < need).then_some(Errno::ENOSPC.returned())
    }));
    last_call(&case, &text);
    assert_eq!(difference.broker.number, Errno::ENOSPC.returned(), "{text}");
    assert_eq!(difference.model.number, 0, "{text}");
}

/// A change of names alone is in no log.
#[test]
fn a_change_of_names_that_is_not_logged_is_found() {
    let (case, difference, text) = found(&mut Logging(|change| {
        let entries = [&change.before.0, change.tables].map(|tables| tables.of(Table::Entries));
        if entries[0] == entries[1] {
            *change.log = change.before.1.clone();
        }
        None
    }));
    let call = last_call(&case, &text);
    let moved = matches!(call, Call::Rename { .. } | Call::Exchange { .. });
    assert!(moved, "{text}");
    assert_eq!(difference.broker, difference.model, "{text}");
    assert!(text.contains("\nwritten => "), "{text}");
}

/// The bytes are written, and the mark stays.
#[test]
fn a_mark_that_stays_is_found() {
    let (case, difference, text) = found(&mut Logging(|change| {
        change.log.used = change.before.1.used;
        None
    }));
    last_call(&case, &text);
    assert!(difference.cells.is_empty(), "{text}");
    let [broker, model] = difference.logs.expect("the same logs");
    assert_eq!(broker.bytes, model.bytes, "{text}");
    assert!(broker.used < model.used, "{text}");
}

/// Writes over the bytes of a field in one way or another.
fn rewritten(change: &mut Change, rewrite: fn(&Call, &mut [u8])) {
    if change.logged() {
        let (start, end) = (change.before.1.used as usize, change.log.used as usize);
        rewrite(change.call, &mut change.log.bytes[start..end]);
    }
}

/// The source stands where the directory does.
#[test]
fn a_source_behind_its_directory_is_found() {
    let (case, difference, text) = found(&mut Logging(|change| {
        rewritten(change, |call, field| {
            if matches!(call, Call::Link { .. } | Call::Rename { .. }) {
                field[3..7].rotate_left(2);
            }
        });
        None
    }));
    let call = last_call(&case, &text);
    let named = matches!(call, Call::Link { .. } | Call::Rename { .. });
    assert!(named, "{text}");
    assert_eq!(difference.broker, difference.model, "{text}");
}

/// An entry's number is one byte.
#[test]
fn a_missing_high_byte_is_found() {
    let (case, _, text) = found(&mut Logging(|change| {
        rewritten(change, |call, field| {
            if matches!(call, Call::Remove { .. }) {
                field[4] = 0;
            }
        });
        None
    }));
    let call = last_call(&case, &text);
    assert!(
        matches!(call, Call::Remove { entry, .. } if *entry > 255),
        "{text}"
    );
}

/// A byte behind the field is cleared.
#[test]
fn a_byte_behind_a_field_is_found() {
    let (case, difference, text) = found(&mut Logging(|change| {
        let end = change.log.used as usize;
        if let (true, Some(byte)) = (change.logged(), change.log.bytes.get_mut(end)) {
            *byte = 0;
        }
        None
    }));
    last_call(&case, &text);
    let [broker, model] = difference.logs.expect("the same logs");
    assert_eq!(broker.used, model.used, "{text}");
}

/// A mark behind the end is added to and wraps.
#[test]
fn a_sum_that_wraps_is_found() {
    let (case, difference, text) = found(&mut Logging(|change| {
        let log = &change.before.1;
        let need = field(change.call).unwrap_or_default().len() as u64;
        let fits = log.used.wrapping_add(need) <= log.bytes.len() as u64;
        (fits && log.room() < need).then(|| {
            let (answer, tables) = change.with_room();
            *change.tables = tables;
            answer
        })
    }));
    last_call(&case, &text);
    let [.., Step::Log(log), Step::Call(_)] = case.steps.as_slice() else {
        panic!("{text}");
    };
    assert!(log.used > 1 << 63, "{text}");
    assert_eq!(difference.model.number, Errno::ENOSPC.returned(), "{text}");
}

/// A fault in replay: what it answers, and what it makes of the tables.
struct Replaying(fn(&mut Tables, &[u8]) -> u64);

impl Broker for Replaying {
    fn answer(&mut self, tables: &mut Tables, call: &Call) -> Reply {
        Rereading.answer(tables, call)
    }

    fn replay(&mut self, tables: &mut Tables, log: &[u8]) -> u64 {
        (self.0)(tables, log)
    }
}

/// A tail that is no whole field is damage.
#[test]
fn a_refused_tail_is_found() {
    let (case, difference, text) = found(&mut Replaying(|tables, log| {
        let tail = fields(log).1 > 0 && check(tables).is_ok();
        match tail {
            true => Errno::EBADMSG.returned(),
            false => Rereading.replay(tables, log),
        }
    }));
    assert!(replayed(&case, &text).is_empty(), "{text}");
    assert_eq!(difference.model.number, 1, "{text}");
}

/// A tail counts from the first field that is cut or of an unknown tag.
#[test]
fn a_dropped_field_is_found() {
    let (case, difference, text) = found(&mut Replaying(|tables, log| {
        let known = fields(log).0;
        let known = known.iter().take_while(|(tag, _)| (16..=20).contains(tag));
        let length: usize = known.map(|(_, value)| 3 + value.len()).sum();
        let answer = Rereading.replay(tables, &log[..length]);
        match answer {
            0 => (log.len() - length) as u64,
            refused => refused,
        }
    }));
    assert_eq!(replayed(&case, &text).len(), 1, "{text}");
    assert_eq!(difference.model.number, Errno::EBADMSG.returned(), "{text}");
}

/// Fields are applied up to the first bad one.
#[test]
fn fields_before_a_bad_one_are_found() {
    let (case, difference, text) = found(&mut Replaying(|tables, log| {
        let answer = Rereading.replay(tables, log);
        let lengths = fields(log).0.into_iter().map(|(_, value)| 3 + value.len());
        let mut length = 0;
        for next in lengths {
            let mut after = tables.clone();
            length += next;
            if refused(answer) && Rereading.replay(&mut after, &log[..length]) == 0 {
                *tables = after;
                return answer;
            }
        }
        answer
    }));
    assert_eq!(replayed(&case, &text).len(), 2, "{text}");
    assert_eq!(difference.broker, difference.model, "{text}");
    assert!(!difference.cells.is_empty(), "{text}");
}

/// The number of the next object stays.
#[test]
fn a_counter_that_stays_is_found() {
    let (case, difference, text) = found(&mut Replaying(|tables, log| {
        let next = tables.cell(Table::System, 1);
        let answer = Rereading.replay(tables, log);
        tables.poke(Table::System, 1, next);
        answer
    }));
    let fields = replayed(&case, &text);
    assert!(matches!(fields.as_slice(), [(16, _)]), "{text}");
    assert_eq!(difference.cells.len(), 1, "{text}");
}

/// A field whose call changes nothing is passed over.
#[test]
fn an_idle_field_is_found() {
    let (case, difference, text) = found(&mut Replaying(|tables, log| {
        match check(tables).map(|mut model| model.replay(log)) {
            Ok(Err(Refusal::FieldIdle)) => 0,
            _ => Rereading.replay(tables, log),
        }
    }));
    assert!(replayed(&case, &text).len() <= 2, "{text}");
    assert_eq!(difference.model.number, Errno::EBADMSG.returned(), "{text}");
}

/// A value of more than 64 bytes is cut to them, of which a name that is too long is refused; so only a shorter limit shows.
#[test]
fn a_short_limit_of_values_is_found() {
    let (case, difference, text) = found(&mut Replaying(|tables, log| {
        let long = fields(log).0.iter().any(|(_, value)| value.len() > 50);
        match long && check(tables).is_ok() {
            true => Errno::EBADMSG.returned(),
            false => Rereading.replay(tables, log),
        }
    }));
    let fields = replayed(&case, &text);
    assert!(fields.iter().any(|(_, value)| value.len() > 50), "{text}");
    assert_eq!(difference.model.number, 0, "{text}");
}

/// A thread of the tables makes the changes, and its layers deny some.
#[test]
fn a_replay_with_verdicts_is_found() {
    let (case, difference, text) = found(&mut Replaying(|tables, log| {
        let Ok(mut model) = check(tables) else {
            return Rereading.replay(tables, log);
        };
        let calls = fields(log).0.into_iter();
        let mut calls = calls.flat_map(|(tag, value)| call_of(tag, value));
        match calls.any(|call| model.answer(&call).0 == Err(Refusal::AccessDenied)) {
            true => Errno::EBADMSG.returned(),
            false => Rereading.replay(tables, log),
        }
    }));
    assert_eq!(replayed(&case, &text).len(), 1, "{text}");
    assert_eq!(
        difference.broker.number,
        Errno::EBADMSG.returned(),
        "{text}"
    );
    assert_eq!(difference.model.number, 0, "{text}");
}

/// Replay asks for sound tables, too.
#[test]
fn a_replay_on_damaged_tables_is_found() {
    let (_, difference, text) = found(&mut Replaying(|tables, log| match log.is_empty() {
        true => 0,
        false => Rereading.replay(tables, log),
    }));
    assert_eq!(difference.model.number, Errno::EIO.returned(), "{text}");
}
