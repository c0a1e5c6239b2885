//! A case as a scenario file, with what the two sides answered.

use crate::batch::{Asked, Batch};
use crate::call::{Call, Reply, UNWRITTEN};
use crate::compare::{Case, Difference, Step};
use crate::damage::Poke;
use crate::log::Log;
use crate::policy::write::Writing;
use crate::policy::{File, NotFound, Wanted};
use crate::queue::event::Event;
use crate::queue::{Request, IDLE};
use crate::reference::Reference;
use crate::refusal::{Answer, Errno, Refusal};
use crate::state::Model;
use crate::tables::{encode, Table};

/// The bytes in a row that are counted in place of being written one by one.
const MANY: usize = 8;
/// The different cells that are printed at most.
const CELLS: usize = 20;
/// The cells of a report, or the bytes of an output, that are printed at most.
const REPORTED: usize = 256;

/// The scenario of a case; each call is marked with the model's answer.
pub fn scenario(case: &Case, difference: &Difference) -> String {
    let mut lines = vec![format!("fresh {}", case.start.level)];
    lines.extend(start_pokes(&case.start).iter().map(poke_line));
    let names = case.start.names.iter();
    lines.extend(names.map(|(number, name)| format!("poke_name {number} {}", text_word(name))));
    let mut reference = Reference::new(&case.start);
    lines.extend(difference.logs.as_ref().map(|_| log_line(reference.log())));
    for step in &case.steps {
        lines.extend(step_lines(step, &mut reference));
    }
    lines.extend(difference.logs.as_ref().map(|_| written_line(&reference)));
    lines.extend(difference_lines(difference));
    lines.join("\n") + "\n"
}

/// The lines of a step that the model takes, with its answer if it is a call.
fn step_lines(step: &Step, reference: &mut Reference) -> Vec<String> {
    match step {
        Step::Call(call) => {
            let whole = call.clone().with_report(call.reported_cells());
            let (answer, report) = reference.answer(&whole);
            let line = call_line(call, answer, &report);
            report_line(call).into_iter().chain([line]).collect()
        }
        Step::Damage(pokes) => {
            reference.damage(pokes);
            pokes.iter().map(poke_line).collect()
        }
        Step::Resize { table, length } => {
            reference.resize(*table, *length);
            vec![format!(
                "# here the table {} is cut or filled with zeros to {length} cells",
                table.name()
            )]
        }
        Step::Queue(event) => vec![event_line(event, reference)],
        Step::Batch(batch) => batch_lines(batch, reference),
        Step::FindPolicy(wanted) => {
            let (answer, _) = wanted.find();
            policy_lines("find_policy", wanted, answer, &answer_word(answer))
        }
        Step::ApplyPolicy(wanted) => {
            let (answer, _) = reference.apply_policy(wanted);
            let word = match answer {
                Ok(number) => format!("new {number}"),
                Err(_) => answer_word(answer),
            };
            policy_lines("apply_policy", wanted, answer, &word)
        }
        Step::WritePolicy(writing) => vec![writing_line(writing, reference)],
        Step::Log(log) => {
            reference.set_log(log);
            vec![log_line(log)]
        }
        Step::Replay(log) => {
            let answer = answer_word(reference.replay(log));
            vec![format!("replay bytes={} => {answer}", text_word(log))]
        }
    }
}

/// The line of a policy file that is written, with its bytes.
fn writing_line(writing: &Writing, reference: &Reference) -> String {
    let (answer, _) = reference.write_policy(writing);
    let Writing {
        ruleset,
        name,
        room,
    } = writing;
    let model = reference.model().ok().filter(|_| answer.is_ok());
    let file = model.and_then(|model| model.policy_file(*ruleset, name).ok());
    let bytes = file.map(|file| format!(" bytes={}", text_word(&file)));
    let name = text_word(name);
    format!(
        "write_policy {ruleset} {name} room={room} => {}{}",
        answer_word(answer),
        bytes.unwrap_or_default()
    )
}

/// The line after which calls have a log; its bytes are zero in a scenario.
fn log_line(log: &Log) -> String {
    let room = log.bytes.len();
    match log.used {
        0 => format!("log {room}"),
        used => format!("log {room} {used}"),
    }
}

/// The line that reads the log.
fn written_line(reference: &Reference) -> String {
    format!("written => {}", reference.log().used)
}

/// The lines of a name that is asked for in policy files.
fn policy_lines(call: &str, wanted: &Wanted, answer: Answer, word: &str) -> Vec<String> {
    let length = wanted.report;
    let other = length != 3;
    let report = other.then(|| format!("# the report of this call has {length} cells"));
    let files = wanted.files.each_ref().map(|file| match file.len() {
        0 => "none".to_string(),
        _ => format!("bytes={}", text_word(file)),
    });
    let said = match (answer, wanted.found()) {
        (Ok(_), Ok((file, ruleset))) => Some((file, ruleset.part.start, ruleset.part.len())),
        (
            Err(refusal),
            Err(NotFound {
                refusal: of_files,
                fault,
            }),
        ) if refusal == of_files => fault.map(|(file, place)| (file, place, 0)),
        _ => None,
    };
    let (file, place, length) = said.unwrap_or((File::Stock, 0, 0));
    let file = said.map_or("none", |_| file.name());
    let [stock, site] = files;
    let name = text_word(&wanted.name);
    let line =
        format!("{call} {stock} {site} {name} => {word} file={file} place={place} length={length}");
    report.into_iter().chain([line]).collect()
}

/// The lines of a batch: each request with the model's answer, or why they are refused.
fn batch_lines(batch: &Batch, reference: &Reference) -> Vec<String> {
    let room = format!("# a batch with {} cells for answers", batch.answers.len());
    let lines = match batch.asked() {
        Ok(asked) => {
            let asked = asked.iter();
            asked
                .flat_map(|asked| asked_lines(asked, reference))
                .collect()
        }
        Err(refusal) => {
            let (requests, errno) = (&batch.requests, refusal.errno());
            vec![format!(
                "# of requests {requests:?} => {errno:?} {refusal:?}"
            )]
        }
    };
    [room].into_iter().chain(lines).collect()
}

fn asked_lines(asked: &Asked, reference: &Reference) -> Vec<String> {
    let (answer, [_, report @ ..]) = asked.answer(reference.model().ok());
    let outside = asked.name_outside;
    let outside = outside.then(|| "# the name of this request is no part of the names".to_string());
    let line = answered_line(&asked.call, &answer_word(answer), &report);
    outside.into_iter().chain([format!("ask {line}")]).collect()
}

/// The line of something that happens to the queue of the model; a post or a turn with its answer, a turn
/// with what it answered the slot, too.
fn event_line(event: &Event, reference: &mut Reference) -> String {
    let answer = reference.queue_event(event).unwrap_or(Ok(0));
    match *event {
        Event::Post { slot, request } => {
            let Request {
                thread,
                entry,
                rights,
            } = request;
            let answer = answer_word(answer);
            format!("post {slot} {thread} {entry} {rights} => {answer}")
        }
        Event::Turn => {
            let answer = match answer {
                Ok(IDLE) => "idle".to_string(),
                Ok(slot) => served_words(reference, slot),
                Err(_) => answer_word(answer),
            };
            format!("turn => {answer}")
        }
        Event::Poke { part, cell, value } => format!("poke {} {cell} {value}", part.name()),
        Event::Resize { list, length } => format!(
            "# here the queue's {} are cut or filled with zeros to {length} cells",
            list.name()
        ),
    }
}

/// A slot that was served, with its answer.
fn served_words(reference: &Reference, slot: u64) -> String {
    let [_, _, answers] = &reference.queue().lists;
    let answer = &answers[4 * slot as usize..][..4];
    let errno = Errno::ALL
        .into_iter()
        .find(|errno| *errno as u64 == answer[0]);
    let errno = errno.map_or("0".to_string(), |errno| format!("{errno:?}"));
    format!("{slot} answer={errno}{}", verdict_words(&answer[1..]))
}

/// Says how long a report is that a scenario can't ask for.
fn report_line(call: &Call) -> Option<String> {
    let said = call.reported_cells();
    let length = call.report_length().filter(|length| *length != said);
    length.map(|length| format!("# the report of this call has {length} cells"))
}

/// The pokes that make the start of fresh tables of its level, but for the names.
fn start_pokes(start: &Model) -> Vec<Poke> {
    let fresh = encode(&Model::fresh(start.level));
    let tables = encode(start);
    let tables_of_numbers = Table::ALL.into_iter();
    let tables_of_numbers = tables_of_numbers.filter(|table| *table != Table::Names);
    let pokes = tables_of_numbers.flat_map(|table| {
        let cells = (0..table.length()).map(|cell| Poke {
            table,
            cell,
            value: tables.cell(table, cell),
        });
        let other = cells.filter(|poke| poke.value != fresh.cell(table, poke.cell));
        other.collect::<Vec<Poke>>()
    });
    pokes.collect()
}

fn poke_line(poke: &Poke) -> String {
    let value = match poke.table {
        Table::Names => poke.value & 0xff,
        _ => poke.value,
    };
    format!("poke {} {} {value}", poke.table.name(), poke.cell)
}

fn call_line(call: &Call, answer: Answer, report: &[u64]) -> String {
    let makes = ["create_ruleset", "clone", "create", "link"].contains(&call.name());
    let made = if makes && answer.is_ok() { "new " } else { "" };
    answered_line(call, &format!("{made}{}", answer_word(answer)), report)
}

fn answer_word(answer: Answer) -> String {
    let refused = |refusal: Refusal| format!("{:?}", refusal.errno());
    answer.map_or_else(refused, |number| number.to_string())
}

fn answered_line(call: &Call, expected: &str, report: &[u64]) -> String {
    let mut line = call.name().to_string();
    for word in argument_words(call) {
        line.push(' ');
        line += &word;
    }
    format!("{line} => {expected}{}", report_words(call, report))
}

/// What a verdict reports, as a scenario writes it.
fn report_words(call: &Call, report: &[u64]) -> String {
    match (call, report) {
        (Call::LayerRules { .. }, _) => String::new(),
        (Call::Component { .. }, [start, length, ..]) => format!(" start={start} length={length}"),
        _ => verdict_words(report),
    }
}

/// The layer that refused, its set, and of an access how many entries' rules were read.
fn verdict_words(report: &[u64]) -> String {
    let [layer, rights, read @ ..] = report else {
        return String::new();
    };
    let layer = layer.checked_sub(1);
    let layer = layer.map_or("none".to_string(), |layer| layer.to_string());
    let read = read.iter().map(|count| format!(" entries_read={count}"));
    let read: String = read.collect();
    format!(" layer={layer} rights={rights}{read}")
}

/// The arguments as a scenario writes them, without the length of a report.
pub fn argument_words(call: &Call) -> Vec<String> {
    let mut numbers = call.numbers();
    numbers.truncate(numbers.len() - usize::from(call.report_length().is_some()));
    let numbers = numbers.iter().map(u64::to_string);
    let text = call.bytes().map(text_word);
    match call {
        Call::CreateRuleset { bytes, flags } => {
            let flags = (*flags != 0).then(|| format!("flags={flags}"));
            [hex_word(bytes)].into_iter().chain(flags).collect()
        }
        Call::Component { .. } => text.into_iter().chain(numbers).collect(),
        _ => numbers.chain(text).collect(),
    }
}

fn hex_word(bytes: &[u8]) -> String {
    let digits = bytes.iter().map(|byte| format!("{byte:02x}"));
    format!("hex={}", digits.collect::<String>())
}

/// A name or a path as a scenario writes it: bytes that are no plain text by their number, many of
/// one in a row by how many they are.
fn text_word(bytes: &[u8]) -> String {
    if bytes.is_empty() {
        return "\"\"".to_string();
    }
    let runs = bytes.chunk_by(|one, next| one == next);
    let words = runs.map(|run| {
        let byte = match run[0] {
            plain if plain.is_ascii_alphanumeric() || b"/._".contains(&plain) => {
                char::from(plain).to_string()
            }
            other => format!("\\x{other:02x}"),
        };
        match run.len() {
            many if many >= MANY => format!("\\*{many}{{{byte}}}"),
            few => byte.repeat(few),
        }
    });
    words.collect()
}

fn difference_lines(difference: &Difference) -> Vec<String> {
    let mut lines = vec![
        format!(
            "# the last call differs; broker: {}",
            reply_text(&difference.broker)
        ),
        format!("# model: {}", reply_text(&difference.model)),
    ];
    for cell in difference.cells.iter().take(CELLS) {
        lines.push(format!(
            "# cell {} {} (row {}, column {}): broker {}, model {}",
            cell.table.name(),
            cell.cell,
            cell.cell / cell.table.width(),
            cell.cell % cell.table.width(),
            cell.broker,
            cell.model
        ));
    }
    for cell in &difference.queue {
        lines.push(format!(
            "# cell {} {} of the queue: broker {}, model {}",
            cell.part.name(),
            cell.cell,
            cell.broker,
            cell.model
        ));
    }
    if let Some([broker, model]) = &difference.logs {
        lines.push(format!("# log of the broker: {}", log_text(broker)));
        lines.push(format!("# log of the model: {}", log_text(model)));
    }
    if difference.cells.len() > CELLS {
        lines.push(format!("# {} cells differ", difference.cells.len()));
    }
    lines
}

fn log_text(log: &Log) -> String {
    format!("used {}, bytes {}", log.used, text_word(&log.bytes))
}

fn reply_text(reply: &Reply) -> String {
    let errno = Errno::ALL
        .into_iter()
        .find(|errno| errno.returned() == reply.number);
    let number = errno.map_or(reply.number.to_string(), |errno| format!("{errno:?}"));
    if reply.report.is_empty() {
        return number;
    }
    let cells = reply.report.iter().take(REPORTED).map(|cell| match *cell {
        UNWRITTEN => "unwritten".to_string(),
        cell => cell.to_string(),
    });
    let more = reply.report.len().saturating_sub(REPORTED);
    let more = (more > 0).then(|| format!(" and {more} more"));
    let cells = cells.collect::<Vec<_>>().join(" ");
    format!("{number}, report {cells}{}", more.unwrap_or_default())
}
