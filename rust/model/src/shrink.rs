//! Makes a case in which a broker differs from the model as short as it gets.

use crate::batch::{Batch, Sort, REQUEST};
use crate::call::{Broker, Call};
use crate::compare::{first_difference, Case, Difference, Step};
use crate::damage::Poke;
use crate::log::{Log, UNWRITTEN};
use crate::names::Name;
use crate::policy::files::places;
use crate::policy::write::Writing;
use crate::policy::Wanted;
use crate::queue::event::Event;
use crate::queue::Request;
use crate::reference::Reference;
use crate::state::{Key, Model, Thread, ROOT};
use crate::tables::Table;
use std::ops::Range;

/// The calls that shrinking may make on the broker.
const CALLS: usize = 100_000;

/// A short case that still differs, and how.
pub fn shrink(broker: &mut dyn Broker, case: Case) -> Option<(Case, Difference)> {
    let difference = first_difference(broker, &case)?;
    let mut shrinker = Shrinker {
        broker,
        case,
        difference,
        calls: CALLS,
    };
    shrinker.cut();
    shrinker.start_at_difference();
    while shrinker.drop_steps()
        | shrinker.drop_pokes()
        | shrinker.simplify_calls()
        | shrinker.drop_parts()
        | shrinker.simplify_counter()
        | shrinker.simplify_names()
    {}
    Some((shrinker.case, shrinker.difference))
}

struct Shrinker<'a> {
    broker: &'a mut dyn Broker,
    case: Case,
    difference: Difference,
    calls: usize,
}

impl Shrinker<'_> {
    /// Takes a candidate if it still differs.
    fn differs(&mut self, candidate: Case) -> bool {
        if candidate == self.case || self.calls < candidate.steps.len() {
            return false;
        }
        self.calls -= candidate.steps.len();
        let Some(difference) = first_difference(self.broker, &candidate) else {
            return false;
        };
        self.case = candidate;
        self.difference = difference;
        self.cut();
        true
    }

    /// Cuts the steps after the difference.
    fn cut(&mut self) {
        self.case.steps.truncate(self.difference.step + 1);
    }

    /// From tables that aren't fresh, starts as late as possible: at the last sound tables, perhaps with the log there
    /// or with what happened to the queue before.
    fn start_at_difference(&mut self) {
        if self.case.start == Model::fresh(self.case.start.level) {
            return;
        }
        let mut reference = Reference::new(&self.case.start);
        let mut late = self.case.clone();
        let mut log = Log::plenty();
        for (number, step) in self.case.steps.iter().enumerate() {
            if let Ok(model) = reference.model() {
                log = reference.log().clone();
                late = Case {
                    start: model.clone(),
                    steps: self.case.steps[number..].to_vec(),
                };
            }
            reference.take(step);
        }
        let before = self.case.steps.len() - late.steps.len();
        let before = self.case.steps[..before].iter();
        let queue = before.filter(|step| matches!(step, Step::Queue(_)));
        let with_queue = Case {
            steps: queue.chain(&late.steps).cloned().collect(),
            ..late.clone()
        };
        let with_log = Case {
            steps: [&[Step::Log(log)], &late.steps[..]].concat(),
            ..late.clone()
        };
        let mut candidates = [late, with_log, with_queue].into_iter();
        candidates.find(|late| self.differs(late.clone()));
    }

    /// Drops items in ever smaller groups while the case still differs.
    fn drop_groups<T>(
        &mut self,
        items: impl Fn(&Case) -> Vec<T>,
        without: impl Fn(&Case, &[T]) -> Case,
    ) -> bool {
        let mut better = false;
        let mut size = items(&self.case).len();
        while size > 0 {
            let mut at = 0;
            loop {
                let all = items(&self.case);
                if at >= all.len() {
                    break;
                }
                let end = all.len().min(at + size);
                if self.differs(without(&self.case, &all[at..end])) {
                    better = true;
                } else {
                    at += size;
                }
            }
            size /= 2;
        }
        better
    }

    fn drop_steps(&mut self) -> bool {
        self.drop_groups(
            |case| (0..case.steps.len()).collect(),
            |case, dropped| {
                let mut number = 0;
                let mut shorter = case.clone();
                shorter.steps.retain(|_| {
                    number += 1;
                    !dropped.contains(&(number - 1))
                });
                shorter
            },
        )
    }

    fn drop_pokes(&mut self) -> bool {
        self.drop_groups(all_pokes, |case, dropped| {
            let mut shorter = case.clone();
            for (number, step) in shorter.steps.iter_mut().enumerate() {
                if let Step::Damage(pokes) = step {
                    pokes.retain(|poke| !dropped.contains(&(number, *poke)));
                }
            }
            shorter
        })
    }

    /// Replaces arguments by smaller ones.
    fn simplify_calls(&mut self) -> bool {
        let mut better = false;
        let mut number = 0;
        while let Some(step) = self.case.steps.get(number) {
            let simpler = match step {
                Step::Call(call) => simpler_calls(call).into_iter().map(Step::Call).collect(),
                Step::Queue(event) => simpler_events(event),
                Step::Batch(batch) => simpler_batches(batch),
                Step::FindPolicy(wanted) => {
                    let simpler = simpler_files(wanted).into_iter();
                    simpler.map(Step::FindPolicy).collect()
                }
                Step::ApplyPolicy(wanted) => {
                    let simpler = simpler_files(wanted).into_iter();
                    simpler.map(Step::ApplyPolicy).collect()
                }
                Step::WritePolicy(writing) => simpler_writings(writing),
                Step::Log(log) => simpler_logs(log).into_iter().map(Step::Log).collect(),
                Step::Replay(log) => {
                    let simpler = simpler_fields(log).into_iter();
                    simpler.map(Step::Replay).collect()
                }
                _ => Vec::new(),
            };
            let taken = simpler.into_iter().any(|step| {
                let mut candidate = self.case.clone();
                candidate.steps[number] = step;
                self.differs(candidate)
            });
            better |= taken;
            if !taken {
                number += 1;
            }
        }
        better
    }

    fn drop_parts(&mut self) -> bool {
        self.drop_groups(
            |case| parts(&case.start),
            |case, dropped| {
                let mut shorter = case.clone();
                for part in dropped.iter().rev() {
                    drop_part(&mut shorter, part);
                }
                shorter
            },
        )
    }

    /// Gives entries of the start shorter names.
    fn simplify_names(&mut self) -> bool {
        let named: Vec<u64> = self.case.start.names.iter().map(|(n, _)| n).collect();
        let mut better = false;
        for number in named {
            let parent = self.case.start.entries[&number].parent;
            let name = short_name(&self.case.start, parent);
            if name.len() < self.case.start.names.of(number).len() {
                let mut shorter = self.case.clone();
                shorter.start.put_entry(number, parent, &name);
                better |= self.differs(shorter);
            }
        }
        better
    }

    /// Lowers the object counter of the start.
    fn simplify_counter(&mut self) -> bool {
        let mut lowered = self.case.clone();
        lowered.start.next_object = lowest_counter(&lowered.start);
        self.differs(lowered)
    }
}

/// Every poke with the number of its step.
fn all_pokes(case: &Case) -> Vec<(usize, Poke)> {
    let steps = case.steps.iter().enumerate();
    let pokes = steps.flat_map(|(number, step)| {
        let pokes = match step {
            Step::Damage(pokes) => pokes.as_slice(),
            _ => &[],
        };
        pokes.iter().map(move |poke| (number, *poke))
    });
    pokes.collect()
}

/// Smaller numbers than this one.
fn smaller(number: u64) -> impl Iterator<Item = u64> {
    let steps = [number, number / 2, number / 4, number / 16, number / 256, 1];
    let smaller = steps
        .into_iter()
        .filter_map(move |step| number.checked_sub(step));
    smaller.filter(move |smaller| *smaller != number)
}

/// Posts with one argument made smaller.
fn simpler_events(event: &Event) -> Vec<Step> {
    let Event::Post { slot, request } = *event else {
        return Vec::new();
    };
    let post = |slot, request| Step::Queue(Event::Post { slot, request });
    let slots = smaller(slot).map(|slot| post(slot, request));
    let requests = smaller(request.thread)
        .map(|thread| Request { thread, ..request })
        .chain(smaller(request.entry).map(|entry| Request { entry, ..request }))
        .chain(smaller(request.rights).map(|rights| Request { rights, ..request }));
    slots
        .chain(requests.map(|request| post(slot, request)))
        .collect()
}

/// Batches with requests, bytes of names or cells for answers left out, or one cell made smaller.
fn simpler_batches(batch: &Batch) -> Vec<Step> {
    let rows = batch.requests.len() / REQUEST;
    let halves = [rows / 2, rows / 4, rows / 8].into_iter();
    let halves = halves.filter(|size| *size > 1);
    let groups = halves.flat_map(|size| (0..rows).step_by(size).map(move |at| (at, size)));
    let singles = (0..rows).map(|at| (at, 1));
    let fewer = groups.chain(singles).map(|(at, size)| {
        let mut batch = batch.clone();
        let end = rows.min(at + size);
        drop(batch.requests.drain(REQUEST * at..REQUEST * end));
        batch
    });
    let cells = (0..batch.requests.len()).flat_map(|at| {
        smaller(batch.requests[at]).map(move |number| {
            let mut batch = batch.clone();
            batch.requests[at] = number;
            batch
        })
    });
    let cut = (0..batch.names.len()).map(|at| without_byte(batch, at));
    let room = smaller(batch.answers.len() as u64).map(|length| {
        let mut batch = batch.clone();
        batch.answers.truncate(length as usize);
        batch
    });
    let simpler = fewer.chain(room).chain(cut).chain(cells);
    simpler.map(Step::Batch).collect()
}

/// Policy files without one of them, without fields or the last byte, with a shorter value in a field, or a report with
/// fewer cells.
fn simpler_files(wanted: &Wanted) -> Vec<Wanted> {
    let mut simpler = Vec::new();
    for (number, file) in wanted.files.iter().enumerate() {
        for file in simpler_fields(file) {
            let mut wanted = wanted.clone();
            wanted.files[number] = file;
            simpler.push(wanted);
        }
    }
    simpler.extend(smaller(wanted.report).map(|report| Wanted {
        report,
        ..wanted.clone()
    }));
    simpler
}

/// A policy file to write of a ruleset with a smaller number, under a shorter name or into less room.
fn simpler_writings(writing: &Writing) -> Vec<Step> {
    let rulesets = smaller(writing.ruleset).map(|ruleset| Writing {
        ruleset,
        ..writing.clone()
    });
    let names = smaller(writing.name.len() as u64).map(|length| Writing {
        name: writing.name[..length as usize].to_vec(),
        ..writing.clone()
    });
    let rooms = smaller(writing.room as u64).map(|room| Writing {
        room: room as usize,
        ..writing.clone()
    });
    let simpler = rulesets.chain(names).chain(rooms);
    simpler.map(Step::WritePolicy).collect()
}

/// A policy file or a log that is empty, without fields or the last byte, or with a shorter value in a field.
fn simpler_fields(file: &[u8]) -> Vec<Vec<u8>> {
    let mut simpler = vec![Vec::new()];
    let fields = places(file);
    // A ruleset without its rules has two.
    for count in [fields.len() / 2, fields.len() / 4, 2, 1] {
        for range in fields.windows(count + 1) {
            let (start, end) = (range[0], range[count]);
            simpler.push([&file[..start], &file[end..]].concat());
        }
    }
    for pair in fields.windows(2) {
        let value = &file[pair[0] + 3..pair[1]];
        for length in smaller(value.len() as u64) {
            let length = length as usize;
            let bytes = (length as u16).to_le_bytes();
            let (before, after) = (&file[..=pair[0]], &file[pair[1]..]);
            simpler.push([before, &bytes, &value[..length], after].concat());
        }
    }
    if let [shorter @ .., _] = file {
        simpler.push(shorter.to_vec());
    }
    simpler
}

/// Logs with a part of the bytes, or with bytes that all are the same.
fn simpler_logs(log: &Log) -> Vec<Log> {
    let plain = Log {
        bytes: vec![UNWRITTEN; log.bytes.len()],
        used: log.used,
    };
    let front = smaller(log.written().len() as u64).filter(|_| log.room() > 0);
    let front = front.map(|used| Log {
        bytes: log.bytes[log.used as usize - used as usize..].to_vec(),
        used,
    });
    let back = smaller(log.room()).map(|room| Log {
        bytes: log.bytes[..(log.used + room) as usize].to_vec(),
        used: log.used,
    });
    let past_end = smaller(log.used).filter(|used| *used > log.bytes.len() as u64);
    let past_end = past_end.map(|used| Log {
        used,
        ..log.clone()
    });
    let simpler = [plain].into_iter().chain(front).chain(back);
    simpler.chain(past_end).collect()
}

/// A batch without a byte of its names; the names of requests are the same parts, without it.
fn without_byte(batch: &Batch, at: usize) -> Batch {
    let mut batch = batch.clone();
    batch.names.remove(at);
    let at = at as u64;
    for row in batch.requests.chunks_exact_mut(REQUEST) {
        let named = Sort::of_number(row[0]).is_some_and(Sort::has_name);
        if let ([start, length], true) = (&mut row[5..], named) {
            if at < *start {
                *start -= 1;
            } else if at - *start < *length {
                *length -= 1;
            }
        }
    }
    batch
}

/// Calls with one argument made smaller.
fn simpler_calls(call: &Call) -> Vec<Call> {
    let mut simpler = Vec::new();
    for (at, number) in call.numbers().into_iter().enumerate() {
        for smaller in smaller(number) {
            let mut candidate = call.clone();
            *candidate.numbers_mut()[at] = smaller;
            simpler.push(candidate);
        }
    }
    simpler.extend(simpler_bytes(call).into_iter().filter_map(|bytes| {
        let mut candidate = call.clone();
        *candidate.bytes_mut()? = bytes;
        Some(candidate)
    }));
    simpler.retain(|candidate| candidate != call);
    simpler
}

/// A call's bytes with some left out, or of an attribute one cleared.
fn simpler_bytes(call: &Call) -> Vec<Vec<u8>> {
    let bytes = call.bytes().unwrap_or_default();
    let (half, last) = (bytes.len() / 2, bytes.len().saturating_sub(1));
    let cut = [&bytes[..half], &bytes[..last]].map(<[u8]>::to_vec);
    let mut simpler = Vec::from(cut);
    if let Call::CreateRuleset { .. } = call {
        let set = (0..bytes.len()).filter(|at| bytes[*at] != 0);
        simpler.extend(set.map(|at| {
            let mut bytes = bytes.to_vec();
            bytes[at] = 0;
            bytes
        }));
        return simpler;
    }
    for length in [bytes.len() / 2, bytes.len() / 8, 1] {
        let places = (0..bytes.len()).step_by(length.max(1));
        simpler.extend(places.map(|at| {
            let end = bytes.len().min(at + length);
            [&bytes[..at], &bytes[end..]].concat()
        }));
    }
    simpler
}

/// Something that sound tables can do without.
enum Part {
    Entry(u64),
    Ruleset(u64),
    RulesetRule(u64, Key),
    Layer(usize),
    LayerRule(usize, Key),
    Thread(u64),
}

fn parts(model: &Model) -> Vec<Part> {
    let mut parts: Vec<Part> = Vec::new();
    let fresh = (&0, &Thread::default());
    let threads = model.threads.iter().filter(|thread| *thread != fresh);
    parts.extend(threads.map(|(number, _)| Part::Thread(*number)));
    for (number, ruleset) in &model.rulesets {
        parts.push(Part::Ruleset(*number));
        let keys = ruleset.rules.iter().map(|(key, _)| key);
        parts.extend(keys.map(|key| Part::RulesetRule(*number, key)));
    }
    for (number, layer) in &model.layers {
        parts.push(Part::Layer(*number));
        let keys = layer.rules.iter().map(|(key, _)| key);
        parts.extend(keys.map(|key| Part::LayerRule(*number, key)));
    }
    let entries = model.entries.keys().filter(|number| **number != ROOT);
    parts.extend(entries.map(|number| Part::Entry(*number)));
    parts
}

/// Drops a part of the start; pokes of cells that move follow them.
fn drop_part(case: &mut Case, part: &Part) {
    let model = &mut case.start;
    match *part {
        Part::Entry(number) => {
            let name = model.names.of(number).to_vec();
            drop_entry(model, number);
            case.steps
                .iter_mut()
                .for_each(|step| drop_name(step, &name));
        }
        Part::Ruleset(number) => {
            model.rulesets.remove(&number);
        }
        Part::RulesetRule(number, key) => drop_ruleset_rule(case, number, key),
        Part::Layer(number) => drop_layer(case, number),
        Part::LayerRule(number, key) => drop_layer_rule(case, number, key),
        Part::Thread(number) => drop_thread(case, number),
    }
}

/// Lowers the cells that pokes write, where they lie in a part of a table.
fn move_pokes(case: &mut Case, table: Table, cells: Range<usize>, by: usize) {
    for step in &mut case.steps {
        if let Step::Damage(pokes) = step {
            let moved = pokes.iter_mut().filter(|poke| poke.table == table);
            for poke in moved.filter(|poke| cells.contains(&poke.cell)) {
                poke.cell -= by;
            }
        }
    }
}

fn drop_ruleset_rule(case: &mut Case, number: u64, key: Key) {
    let ruleset = case.start.rulesets.get_mut(&number);
    if let Some(place) = ruleset.and_then(|ruleset| ruleset.rules.remove(key)) {
        let row = Table::Rulesets.width() * number as usize;
        let after = row + 4 + 3 * (place + 1)..row + Table::Rulesets.width();
        move_pokes(case, Table::Rulesets, after, 3);
    }
}

/// Takes a rule out of a layer; those behind it in the pool move down.
fn drop_layer_rule(case: &mut Case, number: usize, key: Key) {
    let first = case.start.places()[number];
    let layer = case.start.layers.get_mut(&number);
    let Some(place) = layer.and_then(|layer| layer.rules.remove(key)) else {
        return;
    };
    if case.start.layers[&number].rules.is_empty() {
        case.start.runs.retain(|other| *other != number);
    }
    let after = 3 * (first + place + 1)..Table::Pool.length();
    move_pokes(case, Table::Pool, after, 3);
}

/// Takes an entry out of the tree; its children go to its parent, where one whose name is taken
/// gets another one.
fn drop_entry(model: &mut Model, number: u64) {
    let Ok(dropped) = model.entry(number) else {
        return;
    };
    model.free_entry(number);
    let entries = model.entries.iter();
    let children = entries.filter(|(_, entry)| entry.parent == number);
    let children: Vec<u64> = children.map(|(child, _)| *child).collect();
    for child in children {
        let mut name = model.names.of(child).to_vec();
        if model.names.bearer(dropped.parent, &name).is_some() {
            name = short_name(model, dropped.parent);
        }
        model.put_entry(child, dropped.parent, &name);
    }
}

/// Takes the first component of a name out of the path of a lookup.
fn drop_name(step: &mut Step, name: &[u8]) {
    if let Step::Call(Call::Lookup { path }) = step {
        let mut parts: Vec<&[u8]> = path.split(|byte| *byte == b'/').collect();
        if let Some(place) = parts.iter().position(|part| *part == name) {
            parts.remove(place);
            *path = parts.join(&b'/');
        }
    }
}

/// The first short name that is free in a directory.
fn short_name(model: &Model, directory: u64) -> Name {
    let names = (0..).map(|number: u64| format!("n{number}").into_bytes());
    let mut free = names.filter(|name| model.names.bearer(directory, name).is_none());
    free.next().unwrap_or_default()
}

/// Takes a layer out of all domains.
fn drop_layer(case: &mut Case, number: usize) {
    let Some(layer) = case.start.layers.get(&number) else {
        return;
    };
    let parent = layer.parent;
    let keys: Vec<Key> = layer.rules.iter().map(|(key, _)| key).collect();
    for key in keys {
        drop_layer_rule(case, number, key);
    }
    case.start.layers.remove(&number);
    let layers = case
        .start
        .layers
        .values_mut()
        .map(|layer| &mut layer.parent);
    let threads = case.start.threads.values_mut();
    for held in layers.chain(threads.map(|thread| &mut thread.youngest)) {
        if *held == Some(number) {
            *held = parent;
        }
    }
}

/// Takes a thread out, and the layers that no other one reaches.
fn drop_thread(case: &mut Case, number: u64) {
    case.start.threads.remove(&number);
    let reached = case.start.reached();
    let layers: Vec<usize> = case.start.layers.keys().copied().collect();
    for layer in layers.into_iter().filter(|layer| !reached.contains(layer)) {
        drop_layer(case, layer);
    }
}

/// The least object counter that all entries and rules lie below.
fn lowest_counter(model: &Model) -> u64 {
    let layers = model.layers.values().map(|layer| &layer.rules);
    let rules = layers.chain(model.rulesets.values().map(|ruleset| &ruleset.rules));
    let keys = rules.flat_map(|rules| rules.iter()).map(|(key, _)| key);
    let ruled = keys.filter_map(|key| match key {
        Key::Object(object) => Some(object),
        Key::Port(_) => None,
    });
    let entries = model.entries.values().map(|entry| entry.object);
    1 + ruled.chain(entries).max().unwrap_or(0)
}
