//! The comparison must find brokers with a deliberate fault, and make the case short.

use model::batch::{Asked, Batch, Sort, ANSWER, REQUEST};
use model::call::{Broker, Call, Reply, UNWRITTEN};
use model::compare::{compare, sweep, sweep_files, sweep_written, Case, Difference, Options, Step};
use model::denial::Denial;
use model::judge::Move;
use model::long_run::long_run;
use model::names::component;
use model::policy::read::{rulesets_of, Item, Rule, Written};
use model::policy::{Wanted, LONGEST_FILE};
use model::queue::cells::{QueueCells, QueuePart};
use model::queue::event::Event;
use model::queue::{answered, Queue, Request, SlotAnswer, State, IDLE, SLOTS};
use model::reference::{Reference, Rereading};
use model::refusal::{returned, Answer, Errno, Refusal};
use model::rights::{Masks, Rights};
use model::scenario::scenario;
use model::shrink::shrink;
use model::sound::{check, Unsound};
use model::state::{Key, Kind, Layer, Model};
use model::tables::{encode_into, Table, Tables};
use model::tally::{Tally, FAULTS};
use std::collections::BTreeMap;

/// The first difference that a comparison finds without policy files, made short.
fn found<B: Broker>(broker: &mut B) -> (Case, Difference) {
    first_found(broker, &[0])
}

/// The same with policy files between the calls.
fn found_with_policies<B: Broker>(broker: &mut B) -> (Case, Difference) {
    first_found(broker, &[25])
}

fn first_found<B: Broker>(broker: &mut B, policies: &'static [u64]) -> (Case, Difference) {
    let options = Options {
        seed: 1,
        calls: 500_000,
        seconds: None,
        policies,
        writes: false,
        logs: false,
    };
    let case = compare(broker, &options, &mut Tally::default());
    shortened(broker, case)
}

/// Whether a case is one call, or a few from fresh tables, where shrinking keeps what prepares it.
fn is_short(case: &Case) -> bool {
    let fresh = case.start == Model::fresh(case.start.level);
    case.steps.len() == 1 || fresh && case.steps.len() <= 6
}

/// The layers that a case leaves.
fn layers_of(case: &Case) -> BTreeMap<usize, Layer> {
    let mut reference = Reference::new(&case.start);
    case.steps.iter().for_each(|step| reference.take(step));
    reference.model().unwrap().layers.clone()
}

fn shortened<B: Broker>(broker: &mut B, case: Option<Case>) -> (Case, Difference) {
    shrink(broker, case.expect("no difference found")).expect("the difference is gone")
}

/// Exchanges without asking for the second containment.
struct OneContainment;

impl Broker for OneContainment {
    fn answer(&mut self, tables: &mut Tables, call: &Call) -> Reply {
        if let (Call::Exchange { source, entry, .. }, Ok(mut model)) = (call, check(tables)) {
            if model.answer(call).0 == Err(Refusal::OtherNotContained) {
                let (one, two) = (model.entries[source], model.entries[entry]);
                if one.object != two.object {
                    model.swap_entries(*source, *entry);
                }
                encode_into(&model, tables);
                return Reply::of(Ok(0), call.report_of([0; 3]));
            }
        }
        Rereading.answer(tables, call)
    }
}

#[test]
fn a_missing_containment_is_found() {
    let (case, difference) = found(&mut OneContainment);
    let text = scenario(&case, &difference);
    assert_eq!(case.steps.len(), 1, "{text}");
    assert_eq!(case.start.layers.len(), 1, "{text}");
    assert!(case.start.entries.len() <= 5, "{text}");
    assert!(text.contains("=> EXDEV layer="), "{text}");
}

/// Lets layers without a file system mask handle REFER where their masks are of a sort.
struct ReferWithoutFs(fn(&Masks) -> bool);

impl Broker for ReferWithoutFs {
    fn answer(&mut self, tables: &mut Tables, call: &Call) -> Reply {
        let Ok(mut model) = check(tables) else {
            return Rereading.answer(tables, call);
        };
        let wrong = |masks: &Masks| masks.fs.is_empty() && (self.0)(masks);
        let layers = model.layers.iter_mut();
        let wrong = layers.filter(|(_, layer)| wrong(&layer.masks));
        let mut changed = Vec::new();
        for (number, layer) in wrong {
            layer.masks.fs = Rights::REFER;
            changed.push(*number);
        }
        let (answer, report) = model.answer(call);
        for layer in changed {
            if let Some(layer) = model.layers.get_mut(&layer) {
                layer.masks.fs = Rights::NONE;
            }
        }
        encode_into(&model, tables);
        Reply::of(answer, report)
    }
}

/// A case of one call, which the broker refuses for REFER.
fn found_refused_for_refer<B: Broker>(broker: &mut B) -> (Case, String) {
    let (case, difference) = found(broker);
    let text = scenario(&case, &difference);
    assert_eq!(case.steps.len(), 1, "{text}");
    let refused = [Errno::EACCES, Errno::EXDEV].map(Errno::returned);
    assert!(refused.contains(&difference.broker.number), "{text}");
    (case, text)
}

/// Before request W3 every layer handled REFER; as each has a mask that is not zero, this is also
/// the fault of looking at any mask.
#[test]
fn refer_of_every_layer_is_found() {
    let (case, text) = found_refused_for_refer(&mut ReferWithoutFs(|_| true));
    assert_eq!(case.start.layers.len(), 1, "{text}");
}

#[test]
fn refer_of_a_network_mask_is_found() {
    let net = |masks: &Masks| !masks.net.is_empty();
    let (case, text) = found_refused_for_refer(&mut ReferWithoutFs(net));
    assert_eq!(case.start.layers.len(), 1, "{text}");
}

#[test]
fn refer_of_a_scope_mask_is_found() {
    let scope = |masks: &Masks| !masks.scope.is_empty();
    let (case, text) = found_refused_for_refer(&mut ReferWithoutFs(scope));
    assert_eq!(case.start.layers.len(), 1, "{text}");
}

/// Lets every layer handle REFER as soon as one of its domain has a file system mask.
struct ReferByDomain;

impl Broker for ReferByDomain {
    fn answer(&mut self, tables: &mut Tables, call: &Call) -> Reply {
        if let Ok(model) = check(tables) {
            let (answer, report) = model.answer_by_domain(call);
            if let Err(Refusal::AccessDenied | Refusal::ReferDenied) = answer {
                return Reply::of(answer, report);
            }
        }
        Rereading.answer(tables, call)
    }
}

#[test]
fn refer_by_domain_is_found() {
    let (case, text) = found_refused_for_refer(&mut ReferByDomain);
    assert_eq!(case.start.layers.len(), 2, "{text}");
}

/// Adds rules on the root that ask for a right to change something, where a test holds of the
/// rights that the rule on the root has and of those asked for.
struct Sweeping(fn(Rights, Rights) -> bool);

impl Broker for Sweeping {
    fn answer(&mut self, tables: &mut Tables, call: &Call) -> Reply {
        if let (
            Call::AddPathRule {
                ruleset, rights, ..
            },
            Ok(mut model),
        ) = (call, check(tables))
        {
            let refused = model.answer(call).0 == Err(Refusal::SweepingRule);
            let rules = model.rulesets.get_mut(ruleset).map(|open| &mut open.rules);
            if let (true, Some(rules)) = (refused, rules) {
                let root = Key::Object(0);
                if (self.0)(rules.granted(root), Rights(*rights)) {
                    rules.add(root, Rights(*rights));
                    encode_into(&model, tables);
                    return Reply::of(Ok(0), call.report_of([0; 3]));
                }
            }
        }
        Rereading.answer(tables, call)
    }
}

/// A case of one call, to which the model answers EPERM.
fn found_sweeping(test: fn(Rights, Rights) -> bool) {
    let (case, difference) = found(&mut Sweeping(test));
    let text = scenario(&case, &difference);
    assert!(is_short(&case), "{text}");
    assert!(text.contains("=> EPERM\n"), "{text}");
}

#[test]
fn a_granted_right_that_is_joined_is_found() {
    found_sweeping(|granted, asked| asked.within(granted));
}

#[test]
fn a_right_that_is_left_out_is_found() {
    found_sweeping(|_, asked| {
        let others = Rights::CHANGING.without(Rights::TRUNCATE);
        !asked.meets(others)
    });
}

/// Clones without the admin mark.
struct PlainClone;

impl Broker for PlainClone {
    fn answer(&mut self, tables: &mut Tables, call: &Call) -> Reply {
        let reply = Rereading.answer(tables, call);
        if let (Call::Clone { .. }, Ok(mut model)) = (call, check(tables)) {
            if let Some(thread) = model.threads.get_mut(&reply.number) {
                thread.admin = false;
                encode_into(&model, tables);
            }
        }
        reply
    }
}

#[test]
fn a_lost_mark_is_found() {
    let (case, difference) = found(&mut PlainClone);
    let text = scenario(&case, &difference);
    assert!(case.steps.len() <= 2, "{text}");
    assert_eq!(difference.cells.len(), 1, "{text}");
}

/// Grants every request on tables where a key has two rules.
struct Careless;

impl Broker for Careless {
    fn answer(&mut self, tables: &mut Tables, call: &Call) -> Reply {
        if check(tables) == Err(Unsound::RuleTwice) {
            if let Call::Access { .. } = call {
                return Reply::of(Ok(0), call.report_of([0; 3]));
            }
        }
        Rereading.answer(tables, call)
    }
}

#[test]
fn a_missing_test_of_soundness_is_found() {
    let (case, difference) = found(&mut Careless);
    let text = scenario(&case, &difference);
    assert_eq!(case.steps.len(), 2, "{text}");
    assert!(text.lines().count() <= 26, "{text}");
    let expected = "=> EIO layer=none rights=0 entries_read=0\n";
    assert!(text.contains(expected), "{text}");
}

/// Answers EIO for tables of a sort that are sound.
struct Narrow(fn(&Model) -> bool);

impl Broker for Narrow {
    fn answer(&mut self, tables: &mut Tables, call: &Call) -> Reply {
        match check(tables) {
            Ok(model) if (self.0)(&model) && !matches!(call, Call::Fresh { .. }) => {
                Reply::of(Err(Refusal::NotSound), call.report_of([0; 3]))
            }
            _ => Rereading.answer(tables, call),
        }
    }
}

/// A case of one call on tables of so many layers, to which the broker answers EIO.
fn found_narrow(sort: fn(&Model) -> bool, layers: usize) {
    let (case, difference) = found(&mut Narrow(sort));
    let text = scenario(&case, &difference);
    assert_eq!(case.steps.len(), 1, "{text}");
    assert_eq!(case.start.layers.len(), layers, "{text}");
    assert_eq!(difference.broker.number, Errno::EIO.returned(), "{text}");
}

/// Before request W13 layers in use came first.
#[test]
fn layers_in_use_first_is_found() {
    found_narrow(
        |model| model.layers.keys().zip(0..).any(|(n, m)| *n != m),
        1,
    );
}

/// Before request W13 a layer's parent had a smaller number.
#[test]
fn smaller_parents_are_found() {
    let larger = |model: &Model| {
        let mut layers = model.layers.iter();
        layers.any(|(number, layer)| layer.parent > Some(*number))
    };
    found_narrow(larger, 2);
}

#[test]
fn runs_in_the_order_of_records_are_found() {
    found_narrow(|model| !model.runs.is_sorted(), 2);
}

/// Grants every request on tables that break one clause of soundness.
struct Clauseless(Unsound);

impl Broker for Clauseless {
    fn answer(&mut self, tables: &mut Tables, call: &Call) -> Reply {
        match call {
            Call::Access { .. } if check(tables) == Err(self.0) => {
                Reply::of(Ok(0), call.report_of([0; 3]))
            }
            _ => Rereading.answer(tables, call),
        }
    }
}

#[test]
fn clauses_about_layers_that_are_not_tested_are_found() {
    use Unsound::*;
    found_clauseless(&[FreeLayer, LayersUsed, PoolNotFilled, Holders, DomainTooDeep]);
}

#[test]
fn clauses_about_names_that_are_not_tested_are_found() {
    use Unsound::*;
    found_clauseless(&[NamedRoot, NameOfFreeEntry, NameLength, NamePadding]);
    found_clauseless(&[NameOfDots, NameWithSlash, NameWithZero, NameTwice]);
}

fn found_clauseless(clauses: &[Unsound]) {
    for clause in clauses {
        let (case, difference) = found(&mut Clauseless(*clause));
        let text = scenario(&case, &difference);
        let short = case.steps.len() <= 3 || is_short(&case);
        assert!(short, "{clause:?}: {text}");
        assert!(text.contains("=> EIO layer=none"), "{clause:?}: {text}");
    }
}

/// Writes cells after the successes of some calls, given the tables before and after.
struct Rewriting<F>(F);

impl<F: Fn(&Call, &Tables, &mut Tables)> Broker for Rewriting<F> {
    fn answer(&mut self, tables: &mut Tables, call: &Call) -> Reply {
        let before = tables.clone();
        let reply = Rereading.answer(tables, call);
        if reply.number < 1 << 63 {
            self.0(call, &before, tables);
        }
        reply
    }
}

/// A case of few calls in which cells differ, from a start of so many layers and threads.
fn found_rewriting(fault: impl Fn(&Call, &Tables, &mut Tables), layers: usize, threads: usize) {
    let (case, difference) = found(&mut Rewriting(fault));
    let text = scenario(&case, &difference);
    assert_eq!(case.steps.len(), 1, "{text}");
    assert_eq!(case.start.layers.len(), layers, "{text}");
    // Thread 0 may be there beside them, as in fresh tables.
    let left = case.start.threads.len();
    assert!(left == threads || left == threads + 1, "{text}");
    assert!(!difference.cells.is_empty(), "{text}");
}

/// The layer of a row is in use before and not after.
fn given_back(before: &Tables, after: &Tables, row: usize) -> bool {
    let in_use = |tables: &Tables| tables.row(Table::Layers, row)[6] != 0;
    in_use(before) && !in_use(after)
}

fn copy_row(table: Table, row: usize, from: &Tables, to: &mut Tables) {
    for (column, value) in from.row(table, row).iter().enumerate() {
        to.poke(table, table.width() * row + column, *value);
    }
}

#[test]
fn a_clone_that_is_not_counted_is_found() {
    let fault = |call: &Call, before: &Tables, after: &mut Tables| {
        if let Call::Clone { .. } = call {
            (0..256).for_each(|row| copy_row(Table::Layers, row, before, after));
        }
    };
    found_rewriting(fault, 1, 1);
}

#[test]
fn giving_back_the_youngest_alone_is_found() {
    let fault = |call: &Call, before: &Tables, after: &mut Tables| {
        if let Call::End { thread } = *call {
            let youngest = before.row(Table::Threads, thread as usize)[1];
            let others = (0..256).filter(|row| *row as u64 + 1 != youngest);
            for row in others.collect::<Vec<usize>>() {
                if given_back(before, after, row) {
                    copy_row(Table::Layers, row, before, after);
                }
            }
        }
    };
    found_rewriting(fault, 2, 2);
}

#[test]
fn runs_that_stay_where_they_were_are_found() {
    let fault = |call: &Call, before: &Tables, after: &mut Tables| {
        if let Call::End { .. } = call {
            for row in (0..256)
                .filter(|row| !given_back(before, after, *row))
                .collect::<Vec<_>>()
            {
                let first = before.row(Table::Layers, row)[4];
                after.poke(Table::Layers, Table::Layers.width() * row + 4, first);
            }
        }
    };
    found_rewriting(fault, 2, 2);
}

#[test]
fn an_empty_run_with_a_place_is_found() {
    let fault = |call: &Call, before: &Tables, after: &mut Tables| {
        if let Call::Restrict { thread, .. } = *call {
            let new = after.row(Table::Threads, thread as usize)[1] as usize - 1;
            if after.row(Table::Layers, new)[5] == 0 {
                let used = before.of(Table::System)[3];
                after.poke(Table::Layers, Table::Layers.width() * new + 4, used);
            }
        }
    };
    let (case, difference) = found(&mut Rewriting(fault));
    let text = scenario(&case, &difference);
    assert_eq!(case.steps.len(), 1, "{text}");
    assert_eq!(difference.cells.len(), 1, "{text}");
}

#[test]
fn a_pool_that_is_not_cleared_is_found() {
    let fault = |call: &Call, before: &Tables, after: &mut Tables| {
        if let Call::End { .. } = call {
            let used = |tables: &Tables| tables.of(Table::System)[3] as usize;
            for row in used(after)..used(before) {
                copy_row(Table::Pool, row, before, after);
            }
        }
    };
    found_rewriting(fault, 1, 2);
}

/// Refuses with ENOMEM where the record after the last one in use is no record.
struct NextRecord;

impl Broker for NextRecord {
    fn answer(&mut self, tables: &mut Tables, call: &Call) -> Reply {
        if let (Call::Restrict { .. }, Ok(mut model)) = (call, check(tables)) {
            if model.layers.contains_key(&255) && model.answer(call).0.is_ok() {
                return Reply::of(Err(Refusal::NoFreeLayer), Vec::new());
            }
        }
        Rereading.answer(tables, call)
    }
}

#[test]
fn the_record_after_the_last_is_found() {
    let (case, difference) = found(&mut NextRecord);
    let text = scenario(&case, &difference);
    assert_eq!(case.steps.len(), 1, "{text}");
    assert_eq!(case.start.layers.len(), 1, "{text}");
    let case = long_run(&mut NextRecord, 1, 20_000, &mut Tally::default());
    let (case, difference) = shortened(&mut NextRecord, case);
    let text = scenario(&case, &difference);
    assert_eq!(case.steps.len(), 1, "{text}");
}

/// Tests that a thread is not the only one before that it is live.
struct BusyFirst;

impl Broker for BusyFirst {
    fn answer(&mut self, tables: &mut Tables, call: &Call) -> Reply {
        if let (Call::End { .. }, Ok(model)) = (call, check(tables)) {
            if model.threads.len() == 1 {
                return Reply::of(Err(Refusal::OnlyThread), Vec::new());
            }
        }
        Rereading.answer(tables, call)
    }
}

#[test]
fn a_busy_thread_that_is_not_live_is_found() {
    let (case, difference) = found(&mut BusyFirst);
    let text = scenario(&case, &difference);
    assert_eq!(case.steps.len(), 1, "{text}");
    assert!(text.contains("=> ESRCH\n"), "{text}");
}

#[test]
fn a_long_run_meets_full_tables() {
    let mut tally = Tally::default();
    assert_eq!(long_run(&mut Rereading, 1, 20_000, &mut tally), None);
    let text = tally.to_string();
    for refusal in [
        "DomainFull",
        "NoFreeLayer",
        "PoolFull",
        "NoFreeThread",
        "OnlyThread",
    ] {
        assert!(text.contains(&format!(" {refusal} ")), "{refusal}: {text}");
    }
}

/// Answers as if a longer pool were right.
struct LongPool;

impl Broker for LongPool {
    fn answer(&mut self, tables: &mut Tables, call: &Call) -> Reply {
        let length = tables.cells[4].len();
        if length > 3072 && tables.cells[4][3072..].iter().all(|cell| *cell == 0) {
            tables.cells[4].truncate(3072);
        }
        let reply = Rereading.answer(tables, call);
        tables.cells[4].resize(length, 0);
        reply
    }
}

#[test]
fn a_wrong_length_is_found() {
    let (case, difference) = found(&mut LongPool);
    let text = scenario(&case, &difference);
    assert_eq!(case.steps.len(), 2, "{text}");
    assert!(text.contains("# here the table pool"), "{text}");
}

/// Answers as if tables that are longer, with cells set past the end, were right.
struct FirstCells;

impl Broker for FirstCells {
    fn answer(&mut self, tables: &mut Tables, call: &Call) -> Reply {
        let before = tables.clone();
        let past = Table::ALL.map(|table| table.length()..before.length(table));
        let mut set = Table::ALL.into_iter().zip(past.clone());
        if !set.any(|(table, past)| past.into_iter().any(|cell| before.cell(table, cell) != 0)) {
            return Rereading.answer(tables, call);
        }
        for table in Table::ALL {
            let length = tables.length(table).min(table.length());
            tables.resize(table, length);
        }
        let reply = Rereading.answer(tables, call);
        for (table, past) in Table::ALL.into_iter().zip(past) {
            tables.resize(table, before.length(table));
            past.for_each(|cell| tables.poke(table, cell, before.cell(table, cell)));
        }
        reply
    }
}

#[test]
fn a_look_at_the_first_cells_alone_is_found() {
    let (case, difference) = found(&mut FirstCells);
    let text = scenario(&case, &difference);
    assert_eq!(case.steps.len(), 3, "{text}");
    assert!(text.contains("# here the table "), "{text}");
    assert!(text.contains("=> EIO"), "{text}");
}

/// Grants every request where the lengths of two tables are wrong.
struct EvenLengths;

impl Broker for EvenLengths {
    fn answer(&mut self, tables: &mut Tables, call: &Call) -> Reply {
        let all = Table::ALL.into_iter();
        let wrong = all.filter(|table| tables.length(*table) != table.length());
        match call {
            Call::Access { .. } if wrong.count() == 2 => Reply::of(Ok(0), call.report_of([0; 3])),
            _ => Rereading.answer(tables, call),
        }
    }
}

#[test]
fn two_wrong_lengths_are_found() {
    let (case, difference) = found(&mut EvenLengths);
    let text = scenario(&case, &difference);
    assert_eq!(case.steps.len(), 3, "{text}");
    assert_eq!(text.matches("# here the table ").count(), 2, "{text}");
}

/// Tests the level of fresh tables before their lengths.
struct LevelFirst;

impl Broker for LevelFirst {
    fn answer(&mut self, tables: &mut Tables, call: &Call) -> Reply {
        match *call {
            Call::Fresh { level } if level > 6 => Reply::of(Err(Refusal::UnknownLevel), Vec::new()),
            _ => Rereading.answer(tables, call),
        }
    }
}

#[test]
fn a_level_before_the_lengths_is_found() {
    let (case, difference) = found(&mut LevelFirst);
    let text = scenario(&case, &difference);
    assert_eq!(case.steps.len(), 2, "{text}");
    assert!(text.contains("\nfresh 7 => EIO\n"), "{text}");
}

/// Makes fresh tables by clearing the rows of entries whose first cell isn't 0.
struct UsedRows;

impl Broker for UsedRows {
    fn answer(&mut self, tables: &mut Tables, call: &Call) -> Reply {
        let before = tables.of(Table::Entries).to_vec();
        let reply = Rereading.answer(tables, call);
        if matches!(call, Call::Fresh { .. }) && reply.number == 0 {
            let after = tables.of_mut(Table::Entries).chunks_exact_mut(3);
            let rows = after.zip(before.chunks_exact(3));
            for (row, before) in rows.filter(|(_, before)| before[0] == 0) {
                row[1..].copy_from_slice(&before[1..]);
            }
        }
        reply
    }
}

#[test]
fn a_row_that_is_not_cleared_is_found() {
    let (case, difference) = found(&mut UsedRows);
    let text = scenario(&case, &difference);
    assert_eq!(case.steps.len(), 2, "{text}");
    assert_eq!(difference.cells.len(), 1, "{text}");
}

/// Clears the cells of a report past those that it has to say.
struct WholeReport;

impl Broker for WholeReport {
    fn answer(&mut self, tables: &mut Tables, call: &Call) -> Reply {
        let mut reply = Rereading.answer(tables, call);
        let said = call.reported_cells() as usize;
        reply
            .report
            .iter_mut()
            .skip(said)
            .for_each(|cell| *cell = 0);
        reply
    }
}

#[test]
fn a_report_past_its_cells_is_found() {
    let (case, difference) = found(&mut WholeReport);
    let text = scenario(&case, &difference);
    assert_eq!(case.steps.len(), 1, "{text}");
    assert_eq!(difference.model.report, [0, 0, UNWRITTEN], "{text}");
    assert!(text.contains("report of this call has 3 cells"), "{text}");
}

/// Writes nothing into a report that is too short.
struct FullReport;

impl Broker for FullReport {
    fn answer(&mut self, tables: &mut Tables, call: &Call) -> Reply {
        let mut reply = Rereading.answer(tables, call);
        if reply.report.len() < 2 {
            reply.report = call.unwritten_report();
        }
        reply
    }
}

#[test]
fn a_short_report_left_out_is_found() {
    let (case, difference) = found(&mut FullReport);
    let text = scenario(&case, &difference);
    assert_eq!(case.steps.len(), 1, "{text}");
    assert_eq!(difference.broker.report, [UNWRITTEN], "{text}");
    assert!(text.contains("report of this call has 1 cells"), "{text}");
}

/// Names another layer or another set where a verdict refused; told are the layers with a set that is
/// not empty, the youngest first.
struct Naming(fn(&Model, &Call, &[Denial]) -> Denial);

impl Naming {
    /// What is named in place of the right layer and set.
    fn wrong(&self, model: &Model, call: &Call) -> Option<Denial> {
        let refusal = model.clone().answer(call).0.err()?;
        let mut denials = model.denials(call, refusal);
        denials.retain(|denial| !denial.rights.is_empty());
        (!denials.is_empty()).then(|| (self.0)(model, call, &denials))
    }
}

impl Broker for Naming {
    fn answer(&mut self, tables: &mut Tables, call: &Call) -> Reply {
        let wrong = check(tables)
            .ok()
            .and_then(|model| self.wrong(&model, call));
        let mut reply = Rereading.answer(tables, call);
        if let Some(denial) = wrong {
            let read = reply.report.get(2).copied().unwrap_or(0);
            reply.report = call.report_of([denial.layer as u64 + 1, denial.rights.0, read]);
        }
        reply
    }
}

/// A case of one call and so many layers in which the report alone differs.
fn found_naming(name: fn(&Model, &Call, &[Denial]) -> Denial, layers: usize) -> Case {
    let (case, difference) = found(&mut Naming(name));
    let text = scenario(&case, &difference);
    assert!(is_short(&case), "{text}");
    assert_eq!(layers_of(&case).len(), layers, "{text}");
    assert_eq!(difference.broker.number, difference.model.number, "{text}");
    assert_ne!(difference.broker.report, difference.model.report, "{text}");
    assert!(difference.cells.is_empty(), "{text}");
    case
}

#[test]
fn the_oldest_layer_is_found() {
    let oldest = |_: &Model, _: &Call, denials: &[Denial]| denials[denials.len() - 1];
    found_naming(oldest, 2);
}

/// Since request W13 the youngest layer need not have the largest number.
#[test]
fn the_layer_of_the_largest_number_is_found() {
    let largest = |_: &Model, _: &Call, denials: &[Denial]| {
        let denials = denials.iter().copied();
        denials.max_by_key(|denial| denial.layer).unwrap()
    };
    let layers = layers_of(&found_naming(largest, 2));
    let mut parents = layers.iter();
    assert!(parents.any(|(number, layer)| layer.parent > Some(*number)));
    let case = long_run(&mut Naming(largest), 1, 20_000, &mut Tally::default());
    shortened(&mut Naming(largest), case);
}

#[test]
fn the_set_of_the_whole_domain_is_found() {
    let joined = |_: &Model, _: &Call, denials: &[Denial]| {
        let sets = denials.iter().map(|denial| denial.rights);
        Denial {
            rights: sets.fold(Rights::NONE, Rights::join),
            ..denials[0]
        }
    };
    found_naming(joined, 2);
}

/// What a call moves between two directories.
fn moves(model: &Model, call: &Call) -> Vec<Move> {
    let parent = |entry: u64| model.entries[&entry].parent;
    let there = |entry: u64, to: u64| {
        let from = parent(entry);
        Move { entry, from, to }
    };
    match *call {
        Call::Link {
            source, directory, ..
        }
        | Call::Rename {
            source, directory, ..
        } => vec![there(source, directory)],
        Call::Exchange {
            source,
            directory,
            entry,
            ..
        } => vec![there(source, directory), there(entry, parent(source))],
        _ => Vec::new(),
    }
}

#[test]
fn refer_joined_to_what_fails_containment_is_found() {
    let joined = |model: &Model, call: &Call, denials: &[Denial]| {
        let Denial { layer, rights } = denials[0];
        let failing = moves(model, call)
            .into_iter()
            .map(|moved| model.failing(&model.layers[&layer], moved));
        match rights {
            Rights::REFER => Denial {
                layer,
                rights: failing.fold(rights, Rights::join),
            },
            _ => denials[0],
        }
    };
    found_naming(joined, 1);
}

#[test]
fn one_move_of_an_exchange_is_found() {
    let first = |model: &Model, call: &Call, denials: &[Denial]| {
        let Denial { layer, rights } = denials[0];
        let moves = moves(model, call).into_iter();
        let failing = moves.map(|moved| model.failing(&model.layers[&layer], moved));
        match failing.collect::<Vec<Rights>>()[..] {
            [there, back] if there.join(back) == rights && !there.is_empty() => Denial {
                layer,
                rights: there,
            },
            _ => denials[0],
        }
    };
    found_naming(first, 1);
}

#[test]
fn refer_left_out_of_an_access_is_found() {
    let without = |_: &Model, call: &Call, denials: &[Denial]| {
        let Denial { layer, rights } = denials[0];
        match call {
            Call::Access { .. } => Denial {
                layer,
                rights: rights.without(Rights::REFER),
            },
            _ => denials[0],
        }
    };
    found_naming(without, 1);
}

#[test]
fn refer_joined_to_denied_needs_is_found() {
    let with = |model: &Model, call: &Call, denials: &[Denial]| {
        let Denial { layer, rights } = denials[0];
        let denied = |at| {
            model
                .denied(&model.layers[&layer], at)
                .common(Rights::REFER)
        };
        let ends = moves(model, call)
            .into_iter()
            .flat_map(|moved| [moved.from, moved.to].map(denied));
        Denial {
            layer,
            rights: ends.fold(rights, Rights::join),
        }
    };
    found_naming(with, 1);
}

/// The needs at one directory, where there are denied ones at both.
#[test]
fn the_needs_at_one_directory_are_found() {
    let at_source = |model: &Model, call: &Call, denials: &[Denial]| {
        let Denial { layer, rights } = denials[0];
        let moves = moves(model, call);
        let denied = |at| model.denied(&model.layers[&layer], at).common(rights);
        match moves.first().map(|moved| denied(moved.from)) {
            Some(rights) if !rights.is_empty() && !rights.meets(Rights::FILE) => {
                Denial { layer, rights }
            }
            _ => denials[0],
        }
    };
    found_naming(at_source, 1);
}

/// Writes a report only where a layer is named.
struct SilentReport;

impl Broker for SilentReport {
    fn answer(&mut self, tables: &mut Tables, call: &Call) -> Reply {
        let mut reply = Rereading.answer(tables, call);
        let says_nothing = reply.report.first() == Some(&0);
        if says_nothing && !matches!(call, Call::LayerRules { .. }) {
            reply.report = call.unwritten_report();
        }
        reply
    }
}

#[test]
fn a_report_that_is_not_written_is_found() {
    let (case, difference) = found(&mut SilentReport);
    let text = scenario(&case, &difference);
    assert_eq!(case.steps.len(), 1, "{text}");
    assert_eq!(difference.model.report, [0], "{text}");
    assert_eq!(difference.broker.report, [UNWRITTEN], "{text}");
}

/// Answers another number of entries read, given the access that was judged: the layers of the domain,
/// the youngest first, the entry, and the rights asked for.
struct Counting(fn(&Model, &[&Layer], u64, Rights) -> u64);

impl Counting {
    fn wrong(&self, model: &Model, call: &Call) -> Option<u64> {
        let Call::Access {
            thread,
            entry,
            rights,
            ..
        } = *call
        else {
            return None;
        };
        match model.clone().answer(call).0 {
            Ok(_) | Err(Refusal::AccessDenied) => {}
            Err(_) => return None,
        }
        let domain = model.domain(model.threads[&thread].youngest);
        let layers: Vec<&Layer> = domain.iter().map(|number| &model.layers[number]).collect();
        Some((self.0)(model, &layers, entry, Rights(rights)))
    }
}

impl Broker for Counting {
    fn answer(&mut self, tables: &mut Tables, call: &Call) -> Reply {
        let wrong = check(tables)
            .ok()
            .and_then(|model| self.wrong(&model, call));
        let mut reply = Rereading.answer(tables, call);
        if let (Some(wrong), Some(cell)) = (wrong, reply.report.get_mut(2)) {
            *cell = wrong;
        }
        reply
    }
}

/// A case with so many layers in which the count alone differs.
fn found_counting(count: fn(&Model, &[&Layer], u64, Rights) -> u64, layers: usize) {
    let (case, difference) = found(&mut Counting(count));
    let text = scenario(&case, &difference);
    assert!(is_short(&case), "{text}");
    assert_eq!(layers_of(&case).len(), layers, "{text}");
    let [broker, model] = [&difference.broker, &difference.model];
    assert_eq!(broker.number, model.number, "{text}");
    assert_eq!(broker.report[..2], model.report[..2], "{text}");
    assert_ne!(broker.report[2], model.report[2], "{text}");
}

/// The number of entries that each layer needs.
fn counts(model: &Model, layers: &[&Layer], entry: u64, rights: Rights) -> Vec<u64> {
    let counts = layers.iter();
    counts
        .map(|layer| model.entries_read_by(layer, entry, rights))
        .collect()
}

#[test]
fn a_climb_that_ends_with_the_first_layer_satisfied_is_found() {
    let least = |model: &Model, layers: &[&Layer], entry, rights| {
        let counts = counts(model, layers, entry, rights);
        counts.into_iter().min().unwrap_or(0)
    };
    found_counting(least, 2);
    let youngest = |model: &Model, layers: &[&Layer], entry, rights| {
        let counts = counts(model, layers, entry, rights);
        counts.first().copied().unwrap_or(0)
    };
    found_counting(youngest, 2);
}

/// The count that is right, and that of all entries.
fn right_and_all(model: &Model, layers: &[&Layer], entry: u64, rights: Rights) -> (u64, u64) {
    let counts = counts(model, layers, entry, rights);
    let all = model.way_up(entry).len() as u64;
    (counts.into_iter().max().unwrap_or(0), all)
}

#[test]
fn a_root_that_is_counted_twice_is_found() {
    let twice = |model: &Model, layers: &[&Layer], entry, rights| {
        let (right, all) = right_and_all(model, layers, entry, rights);
        right + u64::from(right == all)
    };
    found_counting(twice, 1);
    // Without the root.
    let never = |model: &Model, layers: &[&Layer], entry, rights| {
        let (right, all) = right_and_all(model, layers, entry, rights);
        right - u64::from(right == all)
    };
    found_counting(never, 1);
}

#[test]
fn one_entry_in_place_of_none_is_found() {
    let one = |model: &Model, layers: &[&Layer], entry, rights| {
        right_and_all(model, layers, entry, rights).0.max(1)
    };
    found_counting(one, 0);
    let one_with_a_layer = |model: &Model, layers: &[&Layer], entry, rights| {
        let right = right_and_all(model, layers, entry, rights).0;
        right.max(layers.len().min(1) as u64)
    };
    found_counting(one_with_a_layer, 1);
}

#[test]
fn rules_in_place_of_entries_are_found() {
    let rules = |model: &Model, layers: &[&Layer], entry, rights| {
        let way = model.way_up(entry);
        let read = right_and_all(model, layers, entry, rights).0 as usize;
        let objects = way[..read].iter().map(|at| model.entries[at].object);
        let keys: Vec<Key> = objects.map(Key::Object).collect();
        let ruled = |layer: &Layer| {
            let ruled = keys.iter().filter(|key| layer.rules.contains(**key));
            ruled.count() as u64
        };
        layers.iter().map(|layer| ruled(layer)).max().unwrap_or(0)
    };
    found_counting(rules, 1);
}

#[test]
fn reads_of_every_layer_added_up_are_found() {
    let sum = |model: &Model, layers: &[&Layer], entry, rights| {
        counts(model, layers, entry, rights).into_iter().sum()
    };
    found_counting(sum, 2);
}

#[test]
fn a_climb_that_goes_on_to_the_root_is_found() {
    let all = |model: &Model, layers: &[&Layer], entry, rights| {
        let (right, all) = right_and_all(model, layers, entry, rights);
        if right == 0 {
            0
        } else {
            all
        }
    };
    found_counting(all, 1);
}

/// Stops where nothing is missing that was asked for, handled by the layer or not.
#[test]
fn rights_that_are_not_handled_are_found() {
    let unhandled = |model: &Model, layers: &[&Layer], entry, rights| {
        let wide = |layer: &&Layer| {
            let mut layer = Layer::clone(layer);
            layer.masks.fs = Rights::ALL;
            model.entries_read_by(&layer, entry, rights)
        };
        layers.iter().map(wide).max().unwrap_or(0)
    };
    found_counting(unhandled, 1);
}

/// The scope that a call between threads is for, with its two threads.
fn reached(call: &Call) -> Option<(Rights, u64, u64)> {
    match *call {
        Call::Signal { thread, target } => Some((Rights::SIGNAL, thread, target)),
        Call::AbstractSocket { thread, target } => {
            Some((Rights::ABSTRACT_UNIX_SOCKET, thread, target))
        }
        _ => None,
    }
}

/// The layers of a thread's domain, the youngest first; none where the thread is not live.
fn domain(model: &Model, thread: u64) -> Vec<usize> {
    let thread = model.threads.get(&thread);
    model.domain(thread.and_then(|thread| thread.youngest))
}

/// Whether a layer handles a scope.
fn handles(model: &Model, layer: usize, scope: Rights) -> bool {
    model.layers[&layer].masks.scope.meets(scope)
}

/// Answers calls between threads by another rule, which is told the scope and the domains of both
/// threads; the liveness of those in the list is not asked.
struct Reaching<const N: usize>([Refusal; N], fn(&Model, Rights, [&[usize]; 2]) -> bool);

impl<const N: usize> Broker for Reaching<N> {
    fn answer(&mut self, tables: &mut Tables, call: &Call) -> Reply {
        let right = Rereading.answer(tables, call);
        let (Some((scope, thread, target)), Ok(mut model)) = (reached(call), check(tables)) else {
            return right;
        };
        match model.answer(call).0 {
            Err(refusal) if refusal != Refusal::OutOfScope && !self.0.contains(&refusal) => right,
            _ => {
                let domains = [thread, target].map(|thread| domain(&model, thread));
                let reaches = (self.1)(&model, scope, domains.each_ref().map(Vec::as_slice));
                let answer = if reaches {
                    Ok(0)
                } else {
                    Err(Refusal::OutOfScope)
                };
                Reply::of(answer, Vec::new())
            }
        }
    }
}

/// The rule of request W10.
fn reaches(model: &Model, scope: Rights, [from, to]: [&[usize]; 2]) -> bool {
    let mut handling = from.iter().filter(|layer| handles(model, **layer, scope));
    handling.all(|layer| to.contains(layer))
}

/// A short case of so many layers, to which the two sides answer these numbers.
fn found_reaching<B: Broker>(mut broker: B, layers: usize, answers: [u64; 2]) {
    let (case, difference) = found(&mut broker);
    let text = scenario(&case, &difference);
    assert!(is_short(&case), "{text}");
    assert_eq!(layers_of(&case).len(), layers, "{text}");
    let numbers = [difference.broker.number, difference.model.number];
    assert_eq!(numbers, answers, "{text}");
    assert!(difference.cells.is_empty(), "{text}");
}

const EPERM: u64 = (Errno::EPERM as u64).wrapping_neg();
const ESRCH: u64 = (Errno::ESRCH as u64).wrapping_neg();

#[test]
fn a_look_at_the_youngest_layers_alone_is_found() {
    let callers_youngest = |model: &Model, scope, [from, to]: [&[usize]; 2]| {
        let youngest = from.len().min(1);
        reaches(model, scope, [&from[..youngest], to])
    };
    found_reaching(Reaching([], callers_youngest), 2, [0, EPERM]);
    let targets_youngest = |model: &Model, scope, [from, to]: [&[usize]; 2]| {
        let youngest = to.len().min(1);
        reaches(model, scope, [from, &to[..youngest]])
    };
    found_reaching(Reaching([], targets_youngest), 2, [EPERM, 0]);
    let the_same = |_: &Model, _, [from, to]: [&[usize]; 2]| from.first() == to.first();
    found_reaching(Reaching([], the_same), 1, [EPERM, 0]);
}

#[test]
fn the_subset_reversed_is_found() {
    let reversed =
        |model: &Model, scope, [from, to]: [&[usize]; 2]| reaches(model, scope, [to, from]);
    let (case, difference) = found(&mut Reaching([], reversed));
    let text = scenario(&case, &difference);
    assert!(is_short(&case), "{text}");
    assert_eq!(layers_of(&case).len(), 1, "{text}");
}

#[test]
fn one_layer_in_common_is_found() {
    let common = |model: &Model, scope, [from, to]: [&[usize]; 2]| {
        reaches(model, scope, [from, to]) || from.iter().any(|layer| to.contains(layer))
    };
    found_reaching(Reaching([], common), 2, [0, EPERM]);
}

#[test]
fn layers_that_do_not_handle_the_scope_are_found() {
    let all = |_: &Model, _, [from, to]: [&[usize]; 2]| from.iter().all(|layer| to.contains(layer));
    found_reaching(Reaching([], all), 1, [EPERM, 0]);
}

#[test]
fn the_other_scope_is_found() {
    let other = |model: &Model, scope: Rights, domains: [&[usize]; 2]| {
        reaches(model, Rights::SCOPES.without(scope), domains)
    };
    let (case, difference) = found(&mut Reaching([], other));
    let text = scenario(&case, &difference);
    assert!(is_short(&case), "{text}");
    assert_eq!(layers_of(&case).len(), 1, "{text}");
    let either = |model: &Model, _, domains: [&[usize]; 2]| reaches(model, Rights::SCOPES, domains);
    found_reaching(Reaching([], either), 1, [EPERM, 0]);
}

#[test]
fn a_target_that_is_not_live_is_found() {
    found_reaching(
        Reaching([Refusal::TargetNotLive], |_, _, _| true),
        0,
        [0, ESRCH],
    );
    found_reaching(Reaching([Refusal::TargetNotLive], reaches), 0, [0, ESRCH]);
    found_reaching(Reaching([Refusal::ThreadNotLive], reaches), 0, [0, ESRCH]);
}

/// Tests the scope before that the target is live.
struct ScopeFirst;

impl Broker for ScopeFirst {
    fn answer(&mut self, tables: &mut Tables, call: &Call) -> Reply {
        let mut unasked = Reaching([Refusal::TargetNotLive], reaches);
        let reply = unasked.answer(&mut tables.clone(), call);
        match reply.number {
            EPERM => reply,
            _ => Rereading.answer(tables, call),
        }
    }
}

#[test]
fn a_scope_before_a_target_that_is_not_live_is_found() {
    found_reaching(ScopeFirst, 1, [EPERM, ESRCH]);
}

/// Answers with a number of its own where the rule, given the call, the model before it and its
/// answer, has one.
struct Answering(fn(&Model, &Call, Answer) -> Option<Answer>);

impl Broker for Answering {
    fn answer(&mut self, tables: &mut Tables, call: &Call) -> Reply {
        let other = check(tables).ok().and_then(|model| {
            let (answer, _) = model.clone().answer(call);
            (self.0)(&model, call, answer)
        });
        match other {
            Some(answer) => Reply::of(answer, call.report_of([0; 3])),
            None => Rereading.answer(tables, call),
        }
    }
}

/// A short case, to which the two sides answer these numbers.
fn found_answering(rule: fn(&Model, &Call, Answer) -> Option<Answer>, answers: [u64; 2]) -> Case {
    let (case, difference) = found(&mut Answering(rule));
    let text = scenario(&case, &difference);
    assert!(is_short(&case), "{text}");
    let numbers = [difference.broker.number, difference.model.number];
    assert_eq!(numbers, answers, "{text}");
    case
}

/// The path of a lookup.
fn looked_up(call: &Call) -> Option<&[u8]> {
    match call {
        Call::Lookup { path } => Some(path),
        _ => None,
    }
}

const ENOENT: u64 = (Errno::ENOENT as u64).wrapping_neg();
const ENOTDIR: u64 = (Errno::ENOTDIR as u64).wrapping_neg();
const ENAMETOOLONG: u64 = (Errno::ENAMETOOLONG as u64).wrapping_neg();
const EEXIST: u64 = (Errno::EEXIST as u64).wrapping_neg();
const EINVAL: u64 = (Errno::EINVAL as u64).wrapping_neg();

#[test]
fn a_root_without_a_parent_is_found() {
    let rule = |_: &Model, call: &Call, _: Answer| {
        let path = looked_up(call)?;
        path.starts_with(b"/..")
            .then_some(Err(Refusal::NoSuchName))
            .filter(|_| path.len() == 3 || path[3] == b'/')
    };
    let (case, difference) = found(&mut Answering(rule));
    let text = scenario(&case, &difference);
    assert_eq!(case.steps.len(), 1, "{text}");
    assert_eq!(difference.broker.number, ENOENT, "{text}");
    assert_ne!(difference.model.number, ENOENT, "{text}");
}

#[test]
fn dots_after_a_file_are_found() {
    let dot = |model: &Model, call: &Call, answer: Answer| {
        let path = looked_up(call)?.strip_suffix(b"/.")?;
        (answer == Err(Refusal::AfterNonDirectory)).then(|| model.lookup(path))
    };
    let [Step::Call(Call::Lookup { path }), ..] = &found_answering_of_file(dot).steps[..] else {
        panic!("no lookup");
    };
    assert!(path.ends_with(b"/."));
    let dots = |model: &Model, call: &Call, answer: Answer| {
        let path = looked_up(call)?.strip_suffix(b"/..")?;
        let file = model.lookup(path).ok()?;
        (answer == Err(Refusal::AfterNonDirectory)).then(|| Ok(model.entries[&file].parent))
    };
    found_answering_of_file(dots);
}

#[test]
fn a_closing_slash_after_a_file_is_found() {
    let rule = |model: &Model, call: &Call, answer: Answer| {
        let path = looked_up(call)?;
        let end = path.iter().rposition(|byte| *byte != b'/')?;
        (answer == Err(Refusal::SlashAfterNonDirectory)).then(|| model.lookup(&path[..=end]))
    };
    found_answering_of_file(rule);
}

/// One lookup, which the broker answers with an entry or more refusals than ENOTDIR.
fn found_answering_of_file(rule: fn(&Model, &Call, Answer) -> Option<Answer>) -> Case {
    let (case, difference) = found(&mut Answering(rule));
    let text = scenario(&case, &difference);
    assert_eq!(case.steps.len(), 1, "{text}");
    assert!(case.start.entries.len() <= 3, "{text}");
    assert_eq!(difference.model.number, ENOTDIR, "{text}");
    assert!(difference.broker.number < 1024, "{text}");
    case
}

/// The order of a lookup: what is after a file, what is too long, what is not there.
#[test]
fn refusals_of_a_lookup_in_another_order_are_found() {
    let before_all = |_: &Model, call: &Call, answer: Answer| {
        let path = looked_up(call).filter(|path| path.len() <= 4095)?;
        let mut parts = path.split(|byte| *byte == b'/');
        let other = [Refusal::AfterNonDirectory, Refusal::NoSuchName].map(Err);
        let early = other.contains(&answer) && parts.any(|part| part.len() > 48);
        early.then_some(Err(Refusal::ComponentTooLong))
    };
    let (case, difference) = found(&mut Answering(before_all));
    let text = scenario(&case, &difference);
    assert_eq!(case.steps.len(), 1, "{text}");
    assert_eq!(difference.broker.number, ENAMETOOLONG, "{text}");
    let unknown = |_: &Model, call: &Call, answer: Answer| {
        looked_up(call)?;
        (answer == Err(Refusal::ComponentTooLong)).then_some(Err(Refusal::NoSuchName))
    };
    found_answering(unknown, [ENOENT, ENAMETOOLONG]);
    let zero_late = |model: &Model, call: &Call, answer: Answer| {
        let path = looked_up(call)?;
        let late = answer == Err(Refusal::PathWithZero);
        let shown: Vec<u8> = path.iter().map(|byte| byte.max(&1)).copied().collect();
        late.then(|| model.lookup(&shown).err().map(Err))?
    };
    let (_, difference) = found(&mut Answering(zero_late));
    assert_eq!(difference.model.number, EINVAL);
    let one_more = |model: &Model, call: &Call, answer: Answer| {
        let path = looked_up(call).filter(|path| path.len() == 4096)?;
        let late = answer == Err(Refusal::PathTooLong);
        late.then(|| model.lookup(path.strip_prefix(b"/").unwrap_or(path)))
    };
    let (_, difference) = found(&mut Answering(one_more));
    assert_eq!(difference.model.number, ENAMETOOLONG);
}

/// Follows a path to the root wherever a symlink stands in it.
#[test]
fn a_symlink_that_is_followed_is_found() {
    let followed = |model: &Model, call: &Call, answer: Answer| {
        let path = looked_up(call)?.strip_suffix(b"/")?;
        let entry = model.lookup(path).ok()?;
        let symlink = model.entries[&entry].kind == Kind::Symlink;
        (symlink && answer.is_err()).then_some(Ok(0))
    };
    found_answering(followed, [0, ENOTDIR]);
}

/// Reports another part of a path, given the path and the place.
struct Part(fn(&[u8], u64) -> (u64, u64));

impl Broker for Part {
    fn answer(&mut self, tables: &mut Tables, call: &Call) -> Reply {
        match call {
            Call::Component { path, place, .. } => {
                let (start, length) = (self.0)(path, *place);
                Reply::of(Ok(0), call.report_of([start, length, 0]))
            }
            _ => Rereading.answer(tables, call),
        }
    }
}

/// A case of one component, of a path of few bytes.
fn found_part(part: fn(&[u8], u64) -> (u64, u64)) {
    let (case, difference) = found(&mut Part(part));
    let text = scenario(&case, &difference);
    let [Step::Call(Call::Component { path, .. })] = &case.steps[..] else {
        panic!("{text}");
    };
    assert!(path.len() <= 4, "{text}");
    assert_ne!(difference.broker.report, difference.model.report, "{text}");
}

#[test]
fn a_wrong_part_of_a_path_is_found() {
    // The rest of the component that a place lies in.
    found_part(|path, place| {
        let from = (place as usize).min(path.len());
        let (start, length) = component(&path[from..], 0);
        (start + if length == 0 { 0 } else { from as u64 }, length)
    });
    // The component that a place lies in.
    found_part(|path, place| {
        let starts = (0..=place.min(path.len() as u64)).rev();
        let mut parts = starts.map(|start| component(path, start));
        let around = parts.find(|(start, length)| *length > 0 && *start <= place);
        let around = around.filter(|(start, length)| place < start + length);
        around.unwrap_or_else(|| component(path, place))
    });
    // All that is left of the path.
    found_part(|path, place| match component(path, place) {
        (_, 0) => (0, 0),
        (start, _) => (start, path.len() as u64 - start),
    });
    // The next one after the place.
    found_part(|path, place| component(path, place.saturating_add(1)));
    // A place behind the path where there is none.
    found_part(|path, place| match component(path, place) {
        (_, 0) => (path.len() as u64, 0),
        part => part,
    });
}

/// The name of a call that makes an entry, and the directory.
fn made(call: &Call) -> Option<(&[u8], u64)> {
    match call {
        Call::Create {
            name, directory, ..
        }
        | Call::Link {
            name, directory, ..
        } => Some((name, *directory)),
        _ => None,
    }
}

#[test]
fn a_taken_name_tested_late_is_found() {
    // After the check that a link is not one of a directory.
    let after_eperm = |model: &Model, call: &Call, answer: Answer| {
        let Call::Link { source, .. } = call else {
            return None;
        };
        let directory = model.entries.get(source)?.kind.is_directory();
        let late = directory && answer == Err(Refusal::NameTaken);
        late.then_some(Err(Refusal::LinkOfDirectory))
    };
    found_answering(after_eperm, [EPERM, EEXIST]);
    let after_kind = |_: &Model, call: &Call, answer: Answer| {
        let Call::Create { kind, .. } = call else {
            return None;
        };
        let late = Kind::of_number(*kind).is_none() && answer == Err(Refusal::NameTaken);
        late.then_some(Err(Refusal::UnknownKind))
    };
    found_answering(after_kind, [EINVAL, EEXIST]);
    // Before the name is known to be one.
    let before_the_target = |_: &Model, call: &Call, answer: Answer| {
        let (name, _) = made(call)?;
        let late = name.len() > 48 && answer == Err(Refusal::TargetNotDirectory);
        late.then_some(Err(Refusal::NameTooLong))
    };
    found_answering(before_the_target, [ENAMETOOLONG, ENOTDIR]);
}

#[test]
fn a_name_that_is_unique_in_the_whole_tree_is_found() {
    let rule = |model: &Model, call: &Call, answer: Answer| {
        let (name, _) = made(call)?;
        let late = answer.is_ok() && model.names.iter().any(|(_, other)| other == name);
        late.then_some(Err(Refusal::NameTaken))
    };
    let (case, difference) = found(&mut Answering(rule));
    let text = scenario(&case, &difference);
    assert!(is_short(&case), "{text}");
    assert_eq!(difference.broker.number, EEXIST, "{text}");
    // And in the tables.
    let narrow = |model: &Model| {
        let mut names: Vec<&[u8]> = model.names.iter().map(|(_, name)| name).collect();
        let all = names.len();
        names.sort();
        names.dedup();
        names.len() < all
    };
    let (case, difference) = found(&mut Narrow(narrow));
    let text = scenario(&case, &difference);
    assert!(case.start.entries.len() <= 4, "{text}");
    assert_eq!(difference.broker.number, Errno::EIO.returned(), "{text}");
}

#[test]
fn names_of_other_lengths_are_found() {
    // Of 49 bytes, cut to what a row has room for.
    let longer = |model: &Model, call: &Call, answer: Answer| {
        let mut shorter = call.clone();
        let name = shorter.bytes_mut()?;
        let one_more = name.len() == 49 && answer == Err(Refusal::NameTooLong);
        name.truncate(48);
        one_more.then(|| model.clone().answer(&shorter).0)
    };
    let (_, difference) = found(&mut Answering(longer));
    assert_eq!(difference.model.number, ENAMETOOLONG);
    let shorter = |_: &Model, call: &Call, answer: Answer| {
        let (name, _) = made(call)?;
        let late = name.len() == 48 && answer.is_ok();
        late.then_some(Err(Refusal::NameTooLong))
    };
    let (_, difference) = found(&mut Answering(shorter));
    assert_eq!(difference.broker.number, ENAMETOOLONG);
    // The length in one byte.
    let by_a_byte = |model: &Model, call: &Call, answer: Answer| {
        let mut shorter = call.clone();
        let name = shorter.bytes_mut()?;
        name.truncate(name.len() % 256);
        (answer == Err(Refusal::NameTooLong)).then(|| model.clone().answer(&shorter).0)
    };
    let (_, difference) = found(&mut Answering(by_a_byte));
    assert_eq!(difference.model.number, ENAMETOOLONG);
}

#[test]
fn an_exchange_that_keeps_names_is_found() {
    let fault = |call: &Call, before: &Tables, after: &mut Tables| {
        if let Call::Exchange { .. } = call {
            after.names.clone_from(&before.names);
        }
    };
    found_rewriting(fault, 0, 0);
    // Only where both stand in one directory.
    let fault = |call: &Call, before: &Tables, after: &mut Tables| {
        if let Call::Exchange { .. } = call {
            if before.of(Table::Entries) == after.of(Table::Entries) {
                after.names.clone_from(&before.names);
            }
        }
    };
    found_rewriting(fault, 0, 0);
}

#[test]
fn names_of_freed_rows_are_found() {
    let freed = |before: &Tables, after: &Tables| {
        let live = |tables: &Tables, row: usize| tables.row(Table::Entries, row)[0] != 0;
        (0..1024).find(|row| live(before, *row) && !live(after, *row))
    };
    for of_rename in [false, true] {
        let fault = move |call: &Call, before: &Tables, after: &mut Tables| {
            let made = matches!(call, Call::Rename { .. }) == of_rename;
            let fresh = matches!(call, Call::Fresh { .. });
            if let Some(row) = freed(before, after).filter(|_| made && !fresh) {
                let first = Table::Names.width() * row;
                let cells = first..first + Table::Names.width();
                after.names[cells.clone()].copy_from_slice(&before.names[cells]);
            }
        };
        found_rewriting(fault, 0, 0);
    }
}

#[test]
fn a_name_that_is_not_padded_is_found() {
    let fault = |call: &Call, before: &Tables, after: &mut Tables| {
        if let Call::Rename { name, source, .. } = call {
            let first = Table::Names.width() * *source as usize;
            let rest = first + 1 + name.len()..first + Table::Names.width();
            if before.names != after.names {
                after.names[rest.clone()].copy_from_slice(&before.names[rest]);
            }
        }
    };
    found_rewriting(fault, 0, 0);
}

/// Renames by freeing whatever bears the name, the source too.
struct FreeingTheSource;

impl Broker for FreeingTheSource {
    fn answer(&mut self, tables: &mut Tables, call: &Call) -> Reply {
        if let (
            Call::Rename {
                name,
                source,
                directory,
                ..
            },
            Ok(mut model),
        ) = (call, check(tables))
        {
            let own = model.names.bearer(*directory, name) == Some(*source);
            if own && model.answer(call).0 == Ok(0) && !model.has_children(*source) {
                model.free_entry(*source);
                encode_into(&model, tables);
                return Reply::of(Ok(0), call.report_of([0; 3]));
            }
        }
        Rereading.answer(tables, call)
    }
}

#[test]
fn a_source_that_is_freed_is_found() {
    let (case, difference) = found(&mut FreeingTheSource);
    let text = scenario(&case, &difference);
    assert_eq!(case.steps.len(), 1, "{text}");
    assert!(case.start.entries.len() <= 3, "{text}");
    assert!(!difference.cells.is_empty(), "{text}");
}

#[test]
fn a_rename_without_a_new_name_is_found() {
    let in_place = |_: &Model, call: &Call, answer: Answer| {
        let Call::Rename { .. } = call else {
            return None;
        };
        answer.ok().map(Ok)
    };
    let (case, difference) = found(&mut Answering(in_place));
    let text = scenario(&case, &difference);
    assert_eq!(case.steps.len(), 1, "{text}");
    assert!(!difference.cells.is_empty(), "{text}");
    // EEXIST in place of a replacement.
    let taken = |model: &Model, call: &Call, answer: Answer| {
        let Call::Rename {
            name, directory, ..
        } = call
        else {
            return None;
        };
        let late = answer.is_ok() && model.names.bearer(*directory, name).is_some();
        late.then_some(Err(Refusal::NameTaken))
    };
    found_answering(taken, [EEXIST, 0]);
}

/// Names the replaced entry's kind in the verdict only where it isn't the source.
#[test]
fn the_needs_of_a_replaced_entry_are_found() {
    let rule = |model: &Model, call: &Call, answer: Answer| {
        let Call::Rename {
            name,
            source,
            directory,
            ..
        } = call
        else {
            return None;
        };
        let replaced = model.names.bearer(*directory, name)?;
        let mut without = model.clone();
        let other = replaced != *source && !model.has_children(replaced);
        if answer != Err(Refusal::AccessDenied) || !other {
            return None;
        }
        without.free_entry(replaced);
        without.answer(call).0.ok().map(Ok)
    };
    found_answering(rule, [0, Errno::EACCES.returned()]);
}

/// What the model answers a request on tables.
fn answered_by(tables: &Tables, request: Request) -> SlotAnswer {
    answered(check(tables).ok().as_ref(), request).1
}

/// Posts otherwise than the model.
struct Posting<F>(F);

impl<F: Fn(&mut QueueCells, u64, Request) -> u64> Broker for Posting<F> {
    fn answer(&mut self, tables: &mut Tables, call: &Call) -> Reply {
        Rereading.answer(tables, call)
    }

    fn post(&mut self, queue: &mut QueueCells, slot: u64, request: Request) -> u64 {
        (self.0)(queue, slot, request)
    }
}

/// Takes turns otherwise than the model.
struct Turning<F>(F);

impl<F: Fn(&mut QueueCells, &Tables) -> u64> Broker for Turning<F> {
    fn answer(&mut self, tables: &mut Tables, call: &Call) -> Reply {
        Rereading.answer(tables, call)
    }

    fn turn(&mut self, queue: &mut QueueCells, tables: &Tables) -> u64 {
        (self.0)(queue, tables)
    }
}

/// A case of at most so many steps, with what the last one must be answered and is, and its scenario.
fn found_in_queue<B: Broker>(broker: &mut B, steps: usize) -> (Case, Difference, String) {
    let (case, difference) = found(broker);
    let text = scenario(&case, &difference);
    assert!(case.steps.len() <= steps, "{text}");
    let last = case.steps.last();
    assert!(matches!(last, Some(Step::Queue(_))), "{text}");
    (case, difference, text)
}

/// A wrong post: the sides answer alike, and so many cells of the queue differ, all of one part.
fn found_post(fault: impl Fn(&mut QueueCells, u64, Request) -> u64, part: QueuePart, steps: usize) {
    let (_, difference, text) = found_in_queue(&mut Posting(fault), steps);
    assert_eq!(difference.broker, difference.model, "{text}");
    assert!(
        difference.queue.iter().all(|cell| cell.part == part),
        "{text}"
    );
}

#[test]
fn posts_that_write_more_or_less_are_found() {
    // The old answer is cleared.
    let cleared = |queue: &mut QueueCells, slot: u64, request: Request| {
        let answer = queue.post(slot, request);
        if answer.is_ok() {
            queue.lists[2][4 * slot as usize..][..4].fill(0);
        }
        returned(answer)
    };
    found_post(cleared, QueuePart::Answers, 3);
    let moving = |queue: &mut QueueCells, slot: u64, request: Request| {
        let answer = queue.post(slot, request);
        if answer.is_ok() {
            queue.cursor = (slot + 7) % 8;
        }
        returned(answer)
    };
    found_post(moving, QueuePart::Cursor, 1);
    // Over an answered slot the request stays.
    let keeping = |queue: &mut QueueCells, slot: u64, request: Request| {
        let before = queue.clone();
        let answer = queue.post(slot, request);
        if answer.is_ok() && before.lists[1][slot as usize] == State::Answered as u64 {
            queue.lists[0].clone_from(&before.lists[0]);
        }
        returned(answer)
    };
    found_post(keeping, QueuePart::Requests, 3);
}

/// A wrong answer to a post, where the model answers with this number.
fn found_refusal_of_post(fault: fn(&Queue, u64) -> Option<u64>, numbers: [u64; 2]) {
    let fault = |queue: &mut QueueCells, slot: u64, request: Request| {
        let kept = queue.decode().unwrap_or_else(|_| Queue::fresh());
        match fault(&kept, slot) {
            Some(number) => number,
            None => returned(queue.post(slot, request)),
        }
    };
    let (_, difference, text) = found_in_queue(&mut Posting(fault), 4);
    let answered = [difference.broker.number, difference.model.number];
    assert_eq!(answered, numbers, "{text}");
}

#[test]
fn refusals_of_posts_in_another_order_are_found() {
    let (eio, eagain) = (Errno::EIO.returned(), Errno::EAGAIN.returned());
    // The slot's number before the queue's soundness.
    found_refusal_of_post(
        |_, slot| (slot > 7).then_some(Errno::EINVAL.returned()),
        [EINVAL, eio],
    );
    // An answer that nobody read is no reason to refuse.
    let unread = |queue: &Queue, slot: u64| {
        let slot = queue.slots.get(slot as usize)?;
        let refused = Errno::EAGAIN.returned();
        (slot.state == State::Answered).then_some(refused)
    };
    found_refusal_of_post(unread, [eagain, 0]);
    // Nor is another slot that waits.
    let any = |queue: &Queue, slot: u64| {
        let mut slots = queue.slots.iter();
        let waits = slot < 8 && slots.any(|slot| slot.state == State::Waiting);
        waits.then_some(Errno::EAGAIN.returned())
    };
    found_refusal_of_post(any, [eagain, 0]);
    // The slot of a number's lowest bits.
    let bits = |queue: &mut QueueCells, slot: u64, request: Request| {
        returned(queue.post(slot % 8, request))
    };
    let (_, difference, text) = found_in_queue(&mut Posting(bits), 1);
    assert_eq!(difference.model.number, EINVAL, "{text}");
}

/// Waits before it is answered, though the queue isn't sound.
#[test]
fn a_waiting_slot_of_a_damaged_queue_is_found() {
    let fault = |queue: &mut QueueCells, slot: u64, request: Request| {
        let waits = queue.lists[1].get(slot as usize) == Some(&(State::Waiting as u64));
        if waits {
            return Errno::EAGAIN.returned();
        }
        returned(queue.post(slot, request))
    };
    let (_, difference, text) = found_in_queue(&mut Posting(fault), 3);
    assert_eq!(difference.model.number, Errno::EIO.returned(), "{text}");
}

/// Serves the slot that a search finds among the waiting ones, and moves the cursor as it says.
fn served_by(
    queue: &mut QueueCells,
    tables: &Tables,
    search: impl Fn(&Queue) -> (Option<usize>, usize),
) -> u64 {
    let Ok(mut state) = queue.decode() else {
        return Errno::EIO.returned();
    };
    let (found, last) = search(&state);
    state.last = last;
    if let Some(number) = found {
        let slot = &mut state.slots[number];
        slot.answer = answered_by(tables, slot.request);
        slot.state = State::Answered;
    }
    *queue = QueueCells::of(&state);
    found.map_or(IDLE, |slot| slot as u64)
}

/// A wrong search of the next slot: the cases are short and the queue is sound.
fn found_search(
    search: fn(&Queue) -> (Option<usize>, usize),
    steps: usize,
) -> (Difference, String) {
    let fault = |queue: &mut QueueCells, tables: &Tables| served_by(queue, tables, search);
    let (_, difference, text) = found_in_queue(&mut Turning(fault), steps);
    assert!(difference.model.number <= IDLE, "{text}");
    (difference, text)
}

/// The first waiting slot from one on, going round.
fn waiting_from(queue: &Queue, first: usize) -> Option<usize> {
    let round = (first..first + SLOTS).map(|number| number % SLOTS);
    let mut waiting = round.filter(|number| queue.slots[*number].state == State::Waiting);
    waiting.next()
}

#[test]
fn wrong_searches_of_the_next_slot_are_found() {
    // From the slot that was served last, itself.
    let (difference, text) = found_search(
        |queue| {
            let found = waiting_from(queue, queue.last);
            (found, found.unwrap_or(queue.last))
        },
        5,
    );
    assert_ne!(difference.broker.number, difference.model.number, "{text}");
    // Always the lowest.
    let (difference, text) = found_search(
        |queue| {
            let found = waiting_from(queue, 0);
            (found, found.unwrap_or(queue.last))
        },
        5,
    );
    assert!(difference.broker.number < difference.model.number, "{text}");
    // Not the last one served, though it alone waits.
    let (difference, text) = found_search(
        |queue| {
            let found = waiting_from(queue, (queue.last + 1) % SLOTS);
            let found = found.filter(|slot| *slot != queue.last);
            (found, found.unwrap_or(queue.last))
        },
        4,
    );
    assert_eq!(difference.broker.number, IDLE, "{text}");
    // Without going round.
    let (difference, text) = found_search(
        |queue| {
            let found = waiting_from(queue, (queue.last + 1) % SLOTS);
            let found = found.filter(|slot| *slot > queue.last || queue.last == 7);
            (found, found.unwrap_or(queue.last))
        },
        4,
    );
    assert_eq!(difference.broker.number, IDLE, "{text}");
}

#[test]
fn a_cursor_that_stays_or_moves_otherwise_is_found() {
    let moved: [fn(&Queue, Option<usize>) -> usize; 3] = [
        |queue, _| queue.last,
        |queue, _| (queue.last + 1) % SLOTS,
        |_, found| found.unwrap_or(SLOTS - 1),
    ];
    for moved in moved {
        let fault = |queue: &mut QueueCells, tables: &Tables| {
            served_by(queue, tables, |queue| {
                let found = queue.next();
                (found, moved(queue, found))
            })
        };
        let (_, difference, text) = found_in_queue(&mut Turning(fault), 3);
        assert_eq!(difference.broker, difference.model, "{text}");
        assert_eq!(difference.queue.len(), 1, "{text}");
        assert_eq!(difference.queue[0].part, QueuePart::Cursor, "{text}");
    }
}

#[test]
fn unsound_tables_that_a_turn_refuses_are_found() {
    let fault = |queue: &mut QueueCells, tables: &Tables| {
        if check(tables).is_err() {
            return Errno::EIO.returned();
        }
        returned(queue.turn(|request| answered_by(tables, request)))
    };
    let (case, difference, text) = found_in_queue(&mut Turning(fault), 3);
    assert_eq!(case.steps.last(), Some(&Step::Queue(Event::Turn)), "{text}");
    assert_eq!(difference.broker.number, Errno::EIO.returned(), "{text}");
    assert!(difference.model.number <= IDLE, "{text}");
}

/// A wrong answer of a turn to a slot, of which some cells differ.
fn found_answer(fault: fn(&Tables, Request) -> SlotAnswer, steps: usize) {
    let fault = |queue: &mut QueueCells, tables: &Tables| {
        returned(queue.turn(|request| fault(tables, request)))
    };
    let (_, difference, text) = found_in_queue(&mut Turning(fault), steps);
    assert_eq!(difference.broker, difference.model, "{text}");
    assert!(
        difference
            .queue
            .iter()
            .all(|cell| cell.part == QueuePart::Answers),
        "{text}"
    );
}

#[test]
fn wrong_answers_to_slots_are_found() {
    // 2^64 minus the error number, the layer's own number, no count, no report at all.
    let faults: [fn(SlotAnswer) -> SlotAnswer; 4] = [
        |[number, layer, rights, read]| [number.wrapping_neg(), layer, rights, read],
        |[number, layer, rights, read]| [number, layer.saturating_sub(1), rights, read],
        |[number, layer, rights, _]| [number, layer, rights, 0],
        |[number, ..]| [number, 0, 0, 0],
    ];
    for fault in faults {
        let fault = |queue: &mut QueueCells, tables: &Tables| {
            returned(queue.turn(|request| fault(answered_by(tables, request))))
        };
        let (_, difference, text) = found_in_queue(&mut Turning(fault), 2);
        assert_eq!(difference.broker, difference.model, "{text}");
    }
    // Unsound tables grant everything, or answer another error.
    found_answer(
        |tables, request| match check(tables) {
            Ok(model) => answered(Some(&model), request).1,
            Err(_) => [0; 4],
        },
        3,
    );
}

/// Answers a slot by the tables at the post, which it keeps beside the queue.
#[derive(Default)]
struct AnsweringAtThePost {
    tables: Tables,
    kept: [SlotAnswer; SLOTS],
}

impl Broker for AnsweringAtThePost {
    fn answer(&mut self, tables: &mut Tables, call: &Call) -> Reply {
        let reply = Rereading.answer(tables, call);
        self.tables.clone_from(tables);
        reply
    }

    fn post(&mut self, queue: &mut QueueCells, slot: u64, request: Request) -> u64 {
        let answer = queue.post(slot, request);
        if answer.is_ok() {
            self.kept[slot as usize] = answered_by(&self.tables, request);
        }
        returned(answer)
    }

    fn turn(&mut self, queue: &mut QueueCells, _: &Tables) -> u64 {
        let next = queue.decode().ok().and_then(|queue| queue.next());
        returned(queue.turn(|_| self.kept[next.unwrap_or(0)]))
    }
}

#[test]
fn answers_by_the_tables_at_the_post_are_found() {
    let (_, difference) = found(&mut AnsweringAtThePost::default());
    assert_eq!(difference.broker, difference.model);
    assert!(!difference.queue.is_empty());
}

/// Turns over a queue that is not sound, read as a sound one.
fn found_unsound(mended: fn(&mut QueueCells), steps: usize) {
    let fault = |queue: &mut QueueCells, tables: &Tables| {
        mended(queue);
        returned(queue.turn(|request| answered_by(tables, request)))
    };
    let (_, difference, text) = found_in_queue(&mut Turning(fault), steps);
    assert_eq!(difference.model.number, Errno::EIO.returned(), "{text}");
    let fault = |queue: &mut QueueCells, slot: u64, request: Request| {
        mended(queue);
        returned(queue.post(slot, request))
    };
    let (_, difference, text) = found_in_queue(&mut Posting(fault), steps);
    assert_eq!(difference.model.number, Errno::EIO.returned(), "{text}");
}

#[test]
fn queues_that_are_not_sound_and_are_taken_are_found() {
    found_unsound(|queue| queue.cursor = queue.cursor.min(7), 2);
    found_unsound(|queue| queue.cursor %= 8, 2);
    let states = |queue: &mut QueueCells| {
        for state in queue.lists[1].iter_mut().filter(|state| **state > 2) {
            *state = 0;
        }
    };
    found_unsound(states, 2);
    // The state of the first byte alone.
    found_unsound(
        |queue| queue.lists[1].iter_mut().for_each(|state| *state %= 256),
        2,
    );
    // Lists that are longer.
    for list in QueuePart::LISTS {
        let longer = match list {
            QueuePart::Requests => |queue: &mut QueueCells| queue.lists[0].truncate(24),
            QueuePart::States => |queue: &mut QueueCells| queue.lists[1].truncate(8),
            _ => |queue: &mut QueueCells| queue.lists[2].truncate(32),
        };
        found_unsound(longer, 2);
    }
    // And shorter.
    found_unsound(
        |queue| {
            for list in QueuePart::LISTS {
                let length = queue.length(list).max(list.length());
                queue.resize(list, length);
            }
        },
        2,
    );
}

/// Answers batches otherwise than the model.
struct Batching<F>(F);

impl<F: Fn(&mut Tables, &Batch) -> Reply> Broker for Batching<F> {
    fn answer(&mut self, tables: &mut Tables, call: &Call) -> Reply {
        Rereading.answer(tables, call)
    }

    fn batch(&mut self, tables: &mut Tables, batch: &Batch) -> Reply {
        (self.0)(tables, batch)
    }
}

/// A wrong batch: a case of it alone, perhaps on damaged tables, or after a few calls from fresh ones, where the sides answer
/// with these numbers.
fn found_batch(fault: impl Fn(&mut Tables, &Batch) -> Reply, numbers: [u64; 2]) -> (Batch, String) {
    let (case, difference) = found(&mut Batching(fault));
    let text = scenario(&case, &difference);
    let (last, before) = case.steps.split_last().unwrap();
    let damage = |step: &Step| matches!(step, Step::Damage(_) | Step::Resize { .. });
    let alone = before.len() <= 1 && before.iter().all(damage);
    let fresh = case.start == Model::fresh(case.start.level);
    assert!(alone || fresh && before.len() <= 8, "{text}");
    let found = [&difference.broker, &difference.model].map(|reply| reply.number);
    assert_eq!(found, numbers, "{text}");
    let Step::Batch(batch) = last else {
        panic!("{text}");
    };
    (batch.clone(), text)
}

/// Wrong answers to the requests of a batch on sound tables; the case has so many requests.
fn found_asked(fault: impl Fn(&Model, &[Asked], &mut [u64]), requests: usize) -> (Batch, String) {
    let fault = |tables: &mut Tables, batch: &Batch| {
        let mut reply = Rereading.batch(tables, batch);
        if let (Ok(model), Ok(asked)) = (check(tables), batch.asked()) {
            fault(&model, &asked, &mut reply.report);
        }
        reply
    };
    let (batch, text) = found_batch(fault, [0, 0]);
    assert_eq!(batch.requests.len(), REQUEST * requests, "{text}");
    (batch, text)
}

#[test]
fn answers_that_are_written_before_einval_are_found() {
    let written = |refused: Refusal| {
        move |tables: &mut Tables, batch: &Batch| {
            let mut reply = Rereading.batch(tables, batch);
            if batch.asked().err() == Some(refused) {
                let sorts = batch.requests.chunks_exact(REQUEST);
                let known = sorts.take_while(|row| Sort::of_number(row[0]).is_some());
                let room = batch.answers.len() / ANSWER;
                let first = known.count().min(room);
                let fitting = Batch {
                    requests: batch.requests[..REQUEST * first].to_vec(),
                    ..batch.clone()
                };
                reply.report = Rereading.batch(tables, &fitting).report;
            }
            reply
        }
    };
    for refused in [
        Refusal::RaggedRequests,
        Refusal::UnknownSort,
        Refusal::TooFewAnswers,
    ] {
        found_batch(written(refused), [EINVAL; 2]);
    }
}

#[test]
fn batches_that_are_not_refused_are_found() {
    // What follows the last whole request is left out.
    let ragged = |tables: &mut Tables, batch: &Batch| {
        let whole = batch.requests.len() / REQUEST * REQUEST;
        let requests = batch.requests[..whole].to_vec();
        Rereading.batch(
            tables,
            &Batch {
                requests,
                ..batch.clone()
            },
        )
    };
    found_batch(ragged, [0, EINVAL]);
    // Of the sort its last byte is read.
    let last_byte = |tables: &mut Tables, batch: &Batch| {
        let mut batch = batch.clone();
        let rows = batch.requests.chunks_exact_mut(REQUEST);
        rows.for_each(|row| row[0] &= 255);
        Rereading.batch(tables, &batch)
    };
    found_batch(last_byte, [0, EINVAL]);
    // The answers that fit are given.
    let fitting = |tables: &mut Tables, batch: &Batch| {
        let room = batch.answers.len() / ANSWER;
        let mut batch = batch.clone();
        if batch.asked().err() == Some(Refusal::TooFewAnswers) {
            batch.requests.truncate(REQUEST * room);
        }
        Rereading.batch(tables, &batch)
    };
    found_batch(fitting, [0, EINVAL]);
}

#[test]
fn batches_that_are_refused_for_nothing_are_found() {
    let empty = |tables: &mut Tables, batch: &Batch| {
        let mut reply = Rereading.batch(tables, batch);
        if batch.requests.is_empty() {
            reply.number = EINVAL;
        }
        reply
    };
    found_batch(empty, [EINVAL, 0]);
    let exact = |tables: &mut Tables, batch: &Batch| {
        if batch.answers.len() / ANSWER > batch.requests.len() / REQUEST {
            let report = batch.answers.clone();
            return Reply {
                number: EINVAL,
                report,
            };
        }
        Rereading.batch(tables, batch)
    };
    found_batch(exact, [EINVAL, 0]);
}

#[test]
fn unsound_tables_that_a_batch_refuses_are_found() {
    let eio = Errno::EIO.returned();
    let refused = |first: bool| {
        move |tables: &mut Tables, batch: &Batch| {
            if check(tables).is_err() && (first || batch.asked().is_ok()) {
                let report = batch.answers.clone();
                return Reply {
                    number: Errno::EIO.returned(),
                    report,
                };
            }
            Rereading.batch(tables, batch)
        }
    };
    found_batch(refused(false), [eio, 0]);
    // Also before the batch's own refusals.
    let before = refused(true);
    let only_before = |tables: &mut Tables, batch: &Batch| match batch.asked() {
        Ok(_) => Rereading.batch(tables, batch),
        Err(_) => before(tables, batch),
    };
    found_batch(only_before, [eio, EINVAL]);
    // Only the first answer is EIO.
    let first = |tables: &mut Tables, batch: &Batch| {
        let mut reply = Rereading.batch(tables, batch);
        if check(tables).is_err() && reply.number == 0 && !batch.requests.is_empty() {
            reply.report[ANSWER..].copy_from_slice(&batch.answers[ANSWER..]);
        }
        reply
    };
    found_batch(first, [0, 0]);
}

#[test]
fn later_checks_that_a_batch_answers_are_found() {
    for later in [
        Refusal::DirectoryOverFile,
        Refusal::FileOverDirectory,
        Refusal::DirectoryNotEmpty,
        Refusal::NoFreeEntry,
    ] {
        let fault = |model: &Model, asked: &[Asked], answers: &mut [u64]| {
            for (asked, answer) in asked.iter().zip(answers.chunks_exact_mut(ANSWER)) {
                if answer[0] == 0 && asked.refused_later(model) == Some(later) {
                    answer[0] = later.errno() as u64;
                }
            }
        };
        found_asked(fault, 1);
    }
}

#[test]
fn a_batch_that_stops_at_the_first_refusal_is_found() {
    let stopping = |tables: &mut Tables, batch: &Batch| {
        let mut reply = Rereading.batch(tables, batch);
        if reply.number == 0 {
            let count = batch.requests.len() / REQUEST;
            let mut answers = reply.report.chunks_exact(ANSWER).take(count);
            if let Some(refused) = answers.position(|answer| answer[0] != 0) {
                let rest = ANSWER * (refused + 1);
                reply.report[rest..].copy_from_slice(&batch.answers[rest..]);
            }
        }
        reply
    };
    let (batch, text) = found_batch(stopping, [0, 0]);
    assert_eq!(batch.requests.len(), 2 * REQUEST, "{text}");
}

#[test]
fn layers_of_another_request_are_found() {
    // What was named for the last refused request stays.
    let kept = |_: &Model, asked: &[Asked], answers: &mut [u64]| {
        let mut last = [0; 2];
        for answer in answers.chunks_exact_mut(ANSWER).take(asked.len()) {
            if answer[1] == 0 {
                answer[1..].copy_from_slice(&last);
            }
            last.copy_from_slice(&answer[1..]);
        }
    };
    found_asked(kept, 2);
    // The layer's set is that of the request before, where both name the layer.
    let set = |_: &Model, asked: &[Asked], answers: &mut [u64]| {
        let mut last = [0; 2];
        for answer in answers.chunks_exact_mut(ANSWER).take(asked.len()) {
            let named = [answer[1], answer[2]];
            if last[0] == named[0] {
                answer[2] = last[1];
            }
            last = named;
        }
    };
    found_asked(set, 2);
    // The layer's number without 1 added.
    let number = |_: &Model, asked: &[Asked], answers: &mut [u64]| {
        for answer in answers.chunks_exact_mut(ANSWER).take(asked.len()) {
            answer[1] = answer[1].saturating_sub(1);
        }
    };
    found_asked(number, 1);
}

#[test]
fn the_domain_of_another_thread_is_found() {
    // What a layer grants an entry is kept for the whole batch, whichever thread asks.
    let kept = |model: &Model, asked: &[Asked], answers: &mut [u64]| {
        let mut first = None;
        for (asked, answer) in asked.iter().zip(answers.chunks_exact_mut(ANSWER)) {
            if let Call::Access {
                thread,
                entry,
                rights,
                report,
            } = asked.call
            {
                let known = answer[0] == 0 || answer[1] != 0;
                let first = *first.get_or_insert(if known { thread } else { continue });
                let call = Call::Access {
                    thread: first,
                    entry,
                    rights,
                    report,
                };
                let of_first = Asked {
                    sort: Sort::Access,
                    call,
                    name_outside: false,
                };
                if known {
                    answer.copy_from_slice(&of_first.answer(Some(model)).1);
                }
            }
        }
    };
    found_asked(kept, 2);
}

#[test]
fn a_batch_that_changes_tables_is_found() {
    // The changes are made.
    let making = |tables: &mut Tables, batch: &Batch| {
        let reply = Rereading.batch(tables, batch);
        if let (Ok(mut model), Ok(asked)) = (check(tables), batch.asked()) {
            for asked in &asked {
                let _ = model.answer(&asked.call);
            }
            encode_into(&model, tables);
        }
        reply
    };
    let (batch, text) = found_batch(making, [0, 0]);
    assert_eq!(batch.requests.len(), REQUEST, "{text}");
    // Each request is answered by the tables that the ones before it would leave.
    let following = |model: &Model, asked: &[Asked], answers: &mut [u64]| {
        let mut model = model.clone();
        for (asked, answer) in asked.iter().zip(answers.chunks_exact_mut(ANSWER)) {
            answer.copy_from_slice(&asked.answer(Some(&model)).1);
            let _ = model.answer(&asked.call);
        }
    };
    found_asked(following, 2);
}

#[test]
fn cells_past_the_last_answer_that_are_written_are_found() {
    let cleared = |_: &Model, asked: &[Asked], answers: &mut [u64]| {
        answers[ANSWER * asked.len()..].fill(0);
    };
    found_asked(cleared, 0);
}

#[test]
fn cells_that_a_sort_does_not_use_and_are_read_are_found() {
    for (sort, cell) in [
        (Sort::Access, 4),
        (Sort::Port, 6),
        (Sort::Link, 4),
        (Sort::Rename, 4),
        (Sort::Exchange, 5),
    ] {
        let read = |tables: &mut Tables, batch: &Batch| {
            let mut reply = Rereading.batch(tables, batch);
            if reply.number == 0 {
                let rows = batch.requests.chunks_exact(REQUEST);
                for (row, answer) in rows.zip(reply.report.chunks_exact_mut(ANSWER)) {
                    if row[0] == sort as u64 && row[cell] != 0 && answer[0] == 0 {
                        answer[0] = Errno::EINVAL as u64;
                    }
                }
            }
            reply
        };
        found_batch(read, [0, 0]);
    }
}

/// A batch that takes other parts of the names, by their start and length.
fn found_parts(part: fn(&[u8], u64, u64) -> Vec<u8>) -> (Batch, String) {
    let fault = |tables: &mut Tables, batch: &Batch| {
        let mut named = batch.clone();
        for row in named.requests.chunks_exact_mut(REQUEST) {
            if Sort::of_number(row[0]).is_some_and(Sort::has_name) {
                let name = part(&batch.names, row[5], row[6]);
                row[5] = named.names.len() as u64;
                row[6] = name.len() as u64;
                named.names.extend(name);
            }
        }
        Rereading.batch(tables, &named)
    };
    let (batch, text) = found_batch(fault, [0, 0]);
    assert_eq!(batch.requests.len(), REQUEST, "{text}");
    (batch, text)
}

/// A part of bytes, if it lies in them.
fn part(bytes: &[u8], start: u64, length: u64) -> Option<&[u8]> {
    let end = usize::try_from(start.checked_add(length)?).ok()?;
    bytes.get(start as usize..end)
}

#[test]
fn other_parts_of_the_names_are_found() {
    // Cut where the names end.
    found_parts(|names, start, length| {
        let end = start.saturating_add(length).min(names.len() as u64);
        part(names, start.min(end), end - start.min(end)).map_or(vec![], <[u8]>::to_vec)
    });
    // The end is counted with 64 bits.
    let (batch, text) = found_parts(|names, start, length| {
        let end = start.wrapping_add(length) as usize;
        match part(names, start, length) {
            Some(name) => name.to_vec(),
            None if end <= names.len() => b"n".to_vec(),
            None => Vec::new(),
        }
    });
    let row = &batch.requests;
    assert_eq!(row[5].checked_add(row[6]), None, "{text}");
    // A long name outside is too long.
    let (_, text) = found_parts(|names, start, length| match part(names, start, length) {
        Some(name) => name.to_vec(),
        None if length > 48 => vec![b'n'; 49],
        None => Vec::new(),
    });
    assert!(text.contains("=> EINVAL layer=none"), "{text}");
    // The length is a byte.
    let (_, text) = found_parts(|names, start, length| match part(names, start, length) {
        Some(name) => name[..name.len() & 255].to_vec(),
        None => Vec::new(),
    });
    assert!(text.contains("=> ENAMETOOLONG"), "{text}");
    // The names start one byte later.
    found_parts(|names, start, length| match part(names, start, length) {
        Some(_) => part(names, start + 1, length).unwrap_or_default().to_vec(),
        None => Vec::new(),
    });
}

#[test]
fn a_name_outside_that_is_tested_first_is_found() {
    let first = |_: &Model, asked: &[Asked], answers: &mut [u64]| {
        for (asked, answer) in asked.iter().zip(answers.chunks_exact_mut(ANSWER)) {
            if asked.name_outside {
                answer[0] = Errno::EINVAL as u64;
            }
        }
    };
    let (_, text) = found_asked(first, 1);
    assert!(!text.contains("=> EINVAL"), "{text}");
}

/// Reads policy files otherwise than the model.
struct Reading<F>(F);

impl<F: Fn(&Wanted) -> (Answer, [u64; 3])> Broker for Reading<F> {
    fn answer(&mut self, tables: &mut Tables, call: &Call) -> Reply {
        Rereading.answer(tables, call)
    }

    fn find_policy(&mut self, wanted: &Wanted) -> Reply {
        let (answer, report) = (self.0)(wanted);
        Reply::of(answer, wanted.report_of(report))
    }
}

/// A wrong reader: found among swept files, in a case of one step. What the sides answer there.
fn found_reading(fault: impl Fn(&Wanted) -> (Answer, [u64; 3])) -> (Wanted, [Reply; 2]) {
    let mut broker = Reading(fault);
    let case = sweep_files(&mut broker, &mut Tally::default());
    found_in_files(&mut broker, case)
}

/// The files of a case that is one search, when it is short, and what the sides answer.
fn found_in_files<B: Broker>(broker: &mut B, case: Option<Case>) -> (Wanted, [Reply; 2]) {
    let (case, difference) = shortened(broker, case);
    let text = scenario(&case, &difference);
    let [Step::FindPolicy(wanted)] = case.steps.as_slice() else {
        panic!("{text}");
    };
    (wanted.clone(), [difference.broker, difference.model])
}

/// A wrong reader, which answers and is to be answered with these numbers.
fn found_reading_of(fault: impl Fn(&Wanted) -> (Answer, [u64; 3]), numbers: [u64; 2]) -> Wanted {
    let (wanted, replies) = found_reading(fault);
    assert_eq!(replies.map(|reply| reply.number), numbers, "{wanted:?}");
    wanted
}

/// A file without its fault's reason, as a reader takes it that does not test for it; what is found there.
fn found_without(wanted: &Wanted, why: Refusal) -> Option<(Answer, [u64; 3])> {
    let missing = wanted.found().err()?;
    (missing.refusal == why).then_some((Ok(0), [0; 3]))
}

const EBADMSG: u64 = Errno::EBADMSG.returned();

#[test]
fn places_of_other_fields_are_found() {
    // The ruleset that a fault is in.
    let enclosing = |wanted: &Wanted| {
        let (answer, [file, place, length]) = wanted.find();
        if returned(answer) != EBADMSG {
            return (answer, [file, place, length]);
        }
        let bytes = &wanted.files[file as usize];
        let places = model::policy::files::places(bytes);
        let before = places.into_iter().filter(|at| *at as u64 <= place);
        let opening = before.filter(|at| bytes.get(*at) == Some(&1)).last();
        (answer, [file, opening.unwrap_or(0) as u64, 0])
    };
    found_reading_of(enclosing, [EBADMSG; 2]);
    // Among random files, too.
    let (case, difference) = found_with_policies(&mut Reading(enclosing));
    assert_eq!(case.steps.len(), 1, "{}", scenario(&case, &difference));
    // A name whose masks are missing at the end.
    let name = |wanted: &Wanted| {
        let (answer, [file, place, length]) = wanted.find();
        match answer {
            Err(Refusal::MasksMissing) => {
                let bytes = &wanted.files[file as usize];
                let places = model::policy::files::places(bytes);
                (answer, [file, places[places.len() - 2] as u64, 0])
            }
            _ => (answer, [file, place, length]),
        }
    };
    found_reading_of(name, [EBADMSG; 2]);
    // The end of the file in place of stray bytes there, and of a name that is taken at the end.
    for why in [Refusal::StrayBytes, Refusal::RulesetTwice] {
        let end = |wanted: &Wanted| match wanted.find() {
            (Err(refusal), [file, place, _]) if refusal == why => {
                let length = wanted.files[file as usize].len() as u64;
                let last = length - place < 36;
                (Err(refusal), [file, if last { length } else { place }, 0])
            }
            found => found,
        };
        found_reading_of(end, [EBADMSG; 2]);
    }
}

#[test]
fn files_in_another_order_are_found() {
    let swapped = |wanted: &Wanted| {
        let [stock, site] = wanted.files.clone();
        Wanted {
            files: [site, stock],
            ..wanted.clone()
        }
    };
    let of_other = |(answer, [file, place, length]): (Answer, [u64; 3])| {
        let file = if length == 0 && answer == Err(Refusal::NoSuchRuleset) {
            file
        } else {
            1 - file
        };
        (answer, [file, place, length])
    };
    // The stock's ruleset wins.
    let stock_wins = |wanted: &Wanted| match (wanted.find(), of_other(swapped(wanted).find())) {
        ((Ok(0), _), (Ok(0), other)) => (Ok(0), other),
        (right, _) => right,
    };
    found_reading_of(stock_wins, [0, 0]);
    // The site's damage is reported first.
    let site_first = |wanted: &Wanted| match (wanted.find(), of_other(swapped(wanted).find())) {
        ((Err(right), _), other) if right != Refusal::NoSuchRuleset => other,
        (right, _) => right,
    };
    found_reading(site_first);
    // A ruleset of the stock file is found before the site file is read.
    let unread = |wanted: &Wanted| {
        let stock_alone = Wanted {
            files: [wanted.files[0].clone(), Vec::new()],
            ..wanted.clone()
        };
        match (wanted.find(), stock_alone.find()) {
            ((Err(_), _), (Ok(0), found)) => (Ok(0), found),
            (right, _) => right,
        }
    };
    found_reading(unread);
}

#[test]
fn faults_that_are_not_tested_are_found() {
    for why in FAULTS {
        let untested = |wanted: &Wanted| found_without(wanted, why).unwrap_or(wanted.find());
        let wanted = found_reading_of(untested, [0, why.errno().returned()]);
        let longest = wanted.files.iter().map(Vec::len).max();
        assert!(
            why == Refusal::FileTooLong || longest <= Some(100),
            "{why:?}: {wanted:?}"
        );
    }
}

#[test]
fn other_limits_of_files_are_found() {
    let shorter = |wanted: &Wanted| {
        let long = wanted
            .files
            .iter()
            .position(|file| file.len() >= LONGEST_FILE);
        match (wanted.find(), long) {
            ((Ok(0), _), Some(file)) => (Err(Refusal::FileTooLong), [file as u64, 0, 0]),
            (right, _) => right,
        }
    };
    found_reading_of(shorter, [Errno::E2BIG.returned(), 0]);
    let short_names = |wanted: &Wanted| match wanted.name.len() {
        32 => (Err(Refusal::NoSuchRuleset), [0; 3]),
        _ => wanted.find(),
    };
    found_reading(short_names);
    let no_path = |wanted: &Wanted| match wanted.found() {
        Ok((file, ruleset))
            if ruleset
                .rules(6)
                .iter()
                .any(|rule| matches!(rule, Rule::Path { path, .. } if path.is_empty())) =>
        {
            (Err(Refusal::PathRuleTooShort), [file as u64, 0, 0])
        }
        _ => wanted.find(),
    };
    found_reading_of(no_path, [EBADMSG, 0]);
}

#[test]
fn parts_of_other_lengths_are_found() {
    // Up to the rules; to the end of the file; with the next ruleset.
    let up_to_rules = |wanted: &Wanted| match wanted.found() {
        Ok((file, ruleset)) => {
            let length = 3 + ruleset.name.len() + 27;
            (
                Ok(0),
                [file as u64, ruleset.part.start as u64, length as u64],
            )
        }
        Err(_) => wanted.find(),
    };
    found_reading_of(up_to_rules, [0, 0]);
    let to_the_end = |wanted: &Wanted| match wanted.found() {
        Ok((file, ruleset)) => {
            let length = wanted.files[file as usize].len() - ruleset.part.start;
            (
                Ok(0),
                [file as u64, ruleset.part.start as u64, length as u64],
            )
        }
        Err(_) => wanted.find(),
    };
    found_reading_of(to_the_end, [0, 0]);
    // A name that begins as the one that is asked for.
    let prefix = |wanted: &Wanted| {
        let rulesets = rulesets_of(&wanted.files[0]).unwrap_or_default();
        let like = rulesets
            .iter()
            .find(|ruleset| ruleset.name.starts_with(&wanted.name));
        match (wanted.find(), like) {
            ((Err(Refusal::NoSuchRuleset), _), Some(like)) => {
                (Ok(0), [0, like.part.start as u64, like.part.len() as u64])
            }
            (right, _) => right,
        }
    };
    found_reading_of(prefix, [0, Errno::ENOENT.returned()]);
}

/// Applies rulesets of policy files otherwise than the model, where these find one.
struct Applying<F>(F);

impl<F: Fn(&mut Model, &Wanted, &Written) -> (Answer, [u64; 3])> Broker for Applying<F> {
    fn answer(&mut self, tables: &mut Tables, call: &Call) -> Reply {
        Rereading.answer(tables, call)
    }

    fn apply_policy(&mut self, tables: &mut Tables, wanted: &Wanted) -> Reply {
        let (Ok(mut model), Ok((_, ruleset))) = (check(tables), wanted.found()) else {
            return Rereading.apply_policy(tables, wanted);
        };
        let (answer, report) = (self.0)(&mut model, wanted, &ruleset);
        encode_into(&model, tables);
        Reply::of(answer, wanted.report_of(report))
    }
}

/// A wrong application, which ends with one; how many cells differ, and what the sides answer.
fn found_applying(
    fault: impl Fn(&mut Model, &Wanted, &Written) -> (Answer, [u64; 3]),
) -> (usize, [u64; 2]) {
    let (case, difference) = found_with_policies(&mut Applying(fault));
    let text = scenario(&case, &difference);
    let last = case.steps.last();
    assert!(matches!(last, Some(Step::ApplyPolicy(_))), "{text}");
    assert!(is_short(&case), "{text}");
    let numbers = [difference.broker.number, difference.model.number];
    (difference.cells.len(), numbers)
}

#[test]
fn a_ruleset_that_is_left_open_is_found() {
    let left_open = |model: &mut Model, wanted: &Wanted, ruleset: &Written| {
        let (answer, report) = model.apply_policy(wanted);
        if answer.is_err() {
            // Its create is refused where that was the reason.
            let _ = model.create_ruleset(&ruleset.attribute(model.level), 0);
        }
        (answer, report)
    };
    let (cells, [broker, model]) = found_applying(left_open);
    assert!(cells > 0 && broker == model);
}

#[test]
fn a_refused_rule_that_is_passed_over_is_found() {
    let passed_over = |model: &mut Model, wanted: &Wanted, ruleset: &Written| {
        let mut after = model.clone();
        let Ok(number) = after.create_ruleset(&ruleset.attribute(model.level), 0) else {
            return model.apply_policy(wanted);
        };
        for rule in &ruleset.rules(model.level) {
            let _ = after.add_written(number, rule);
        }
        *model = after;
        (Ok(number), wanted.find().1)
    };
    let (_, [broker, model]) = found_applying(passed_over);
    assert!(broker < 16 && model > 16);
}

/// The first refusal of calls in an order of their own; else the right answer.
fn refused_first(
    model: &mut Model,
    wanted: &Wanted,
    refusals: impl IntoIterator<Item = Refusal>,
) -> (Answer, [u64; 3]) {
    match (
        model.clone().apply_policy(wanted).0,
        refusals.into_iter().next(),
    ) {
        (Err(_), Some(refusal)) => (Err(refusal), [0; 3]),
        _ => model.apply_policy(wanted),
    }
}

#[test]
fn calls_in_another_order_are_found() {
    // All paths are looked up before a rule is added.
    let lookups_first = |model: &mut Model, wanted: &Wanted, ruleset: &Written| {
        let (before, rules) = (model.clone(), ruleset.rules(model.level));
        let refused = rules.iter().filter_map(|rule| match rule {
            Rule::Path { path, .. } => before.lookup(path).err(),
            Rule::Port { .. } => None,
        });
        let created = model
            .clone()
            .create_ruleset(&ruleset.attribute(model.level), 0);
        refused_first(model, wanted, created.err().into_iter().chain(refused))
    };
    found_applying(lookups_first);
    // Empty rights are refused before the path is looked up.
    let rights_first = |model: &mut Model, wanted: &Wanted, ruleset: &Written| {
        let rules = ruleset.rules(model.level);
        let empty = matches!(rules.first(), Some(Rule::Path { rights: 0, .. }));
        let created = model
            .clone()
            .create_ruleset(&ruleset.attribute(model.level), 0);
        let refused = empty.then_some(Refusal::NoRights);
        refused_first(model, wanted, created.err().into_iter().chain(refused))
    };
    let (cells, numbers) = found_applying(rights_first);
    assert_eq!((cells, numbers[0]), (0, Errno::ENOMSG.returned()));
    // Ports before paths.
    let ports_first = |model: &mut Model, wanted: &Wanted, ruleset: &Written| {
        let mut sorted = ruleset.rules(model.level);
        sorted.sort_by_key(|rule| matches!(rule, Rule::Path { .. }));
        let mut after = model.clone();
        let Ok(number) = after.create_ruleset(&ruleset.attribute(model.level), 0) else {
            return model.apply_policy(wanted);
        };
        for rule in &sorted {
            if let Err(refusal) = after.add_written(number, rule) {
                return (Err(refusal), [0; 3]);
            }
        }
        *model = after;
        (Ok(number), wanted.find().1)
    };
    found_applying(ports_first);
}

#[test]
fn reports_of_refused_applications_are_found() {
    let reported = |model: &mut Model, wanted: &Wanted, _: &Written| {
        let (answer, _) = model.apply_policy(wanted);
        (answer, wanted.find().1)
    };
    let (cells, [broker, model]) = found_applying(reported);
    assert!(cells == 0 && broker == model);
}

/// The place of the field of a file, outside all groups, that a place is in.
fn outer_place(file: &[u8], place: u64) -> u64 {
    let places = model::policy::files::places(file);
    let before = places.into_iter().map(|at| at as u64);
    before.filter(|at| *at <= place).max().unwrap_or(0)
}

#[test]
fn faults_in_groups_that_are_placed_otherwise_are_found() {
    let outer = |wanted: &Wanted| match wanted.find() {
        (answer @ Err(_), [file, place, 0]) if returned(answer) == EBADMSG => {
            let outer = outer_place(&wanted.files[file as usize], place);
            (answer, [file, outer, 0])
        }
        found => found,
    };
    found_reading_of(outer, [EBADMSG; 2]);
    // The next field behind a group, for one that goes past its group's end.
    let past = |wanted: &Wanted| match wanted.find() {
        (Err(Refusal::ValuePastEnd), [file, place, _]) => {
            let bytes = &wanted.files[file as usize];
            let outer = outer_place(bytes, place);
            let next = model::policy::files::places(bytes).into_iter();
            let next = next.map(|at| at as u64).find(|at| *at > place);
            let place = if outer == place {
                place
            } else {
                next.unwrap_or(place)
            };
            (Err(Refusal::ValuePastEnd), [file, place, 0])
        }
        found => found,
    };
    found_reading_of(past, [EBADMSG; 2]);
}

#[test]
fn groups_that_do_not_count_and_are_not_checked_are_found() {
    // By a reader that knows only level 3: what stands in a group of a higher one is passed over.
    let unchecked = |wanted: &Wanted| match wanted.find() {
        (Err(refusal), [file, place, _]) if returned(Err(refusal)) == EBADMSG => {
            let bytes = &wanted.files[file as usize];
            let outer = outer_place(bytes, place) as usize;
            match (bytes.get(outer), bytes.get(outer + 3)) {
                (Some(5), Some(4..=6)) if outer as u64 != place => (Ok(0), [0; 3]),
                _ => wanted.find(),
            }
        }
        found => found,
    };
    found_reading_of(unchecked, [0, EBADMSG]);
}

/// A wrong application of rulesets with other masks or other rules.
fn found_applied(
    masks: impl Fn(&Written, u64) -> Vec<u8>,
    rules: impl Fn(&Written, u64) -> Vec<Rule>,
) -> (usize, [u64; 2]) {
    found_applying(|model: &mut Model, wanted: &Wanted, ruleset: &Written| {
        let mut after = model.clone();
        let created = after.create_ruleset(&masks(ruleset, model.level), 0);
        let added = created.and_then(|number| {
            let mut rules = rules(ruleset, model.level).into_iter();
            rules.try_for_each(|rule| after.add_written(number, &rule))?;
            Ok(number)
        });
        match added {
            Ok(number) => {
                *model = after;
                (Ok(number), wanted.find().1)
            }
            Err(refusal) => (Err(refusal), [0; 3]),
        }
    })
}

#[test]
fn masks_that_are_cut_otherwise_are_found() {
    let rules = |ruleset: &Written, level| ruleset.rules(level);
    let with_group = |ruleset: &Written| Written {
        items: vec![Item::Group {
            level: 1,
            items: Vec::new(),
        }],
        ..ruleset.clone()
    };
    // Also without groups.
    let (_, [broker, model]) =
        found_applied(|ruleset, level| with_group(ruleset).attribute(level), rules);
    assert_ne!(broker, model);
    // Never.
    let (_, [broker, model]) = found_applied(|ruleset, _| ruleset.masks.clone(), rules);
    assert_ne!(broker, model);
    // Only where a group counts.
    let counted = |ruleset: &Written, level: u64| {
        let mut items = ruleset.items.iter();
        let counts =
            items.any(|item| matches!(item, Item::Group { level: lowest, .. } if *lowest <= level));
        match counts {
            true => ruleset.attribute(level),
            false => ruleset.masks.clone(),
        }
    };
    found_applied(counted, rules);
    // Bits that no level knows are cut, too.
    let known = |ruleset: &Written, level: u64| {
        let cut = ruleset.attribute(level);
        let known = Masks::known(level);
        let known = [known.fs.0, known.net.0, known.scope.0]
            .map(u64::to_le_bytes)
            .concat();
        match ruleset.has_groups() {
            true => cut
                .iter()
                .zip(known)
                .map(|(byte, known)| byte & known)
                .collect(),
            false => cut,
        }
    };
    let (_, [broker, model]) = found_applied(known, rules);
    assert_ne!(broker, model);
}

#[test]
fn rules_that_count_otherwise_are_found() {
    let masks = |ruleset: &Written, level| ruleset.attribute(level);
    // All of them.
    found_applied(masks, |ruleset, _| ruleset.rules(6));
    // Those of groups whose own level is reached, whatever stands around them.
    fn own(items: &[Item], level: u64, counts: bool) -> Vec<Rule> {
        let rules = items.iter().flat_map(|item| match item {
            Item::Rule(rule) => Vec::from_iter(counts.then(|| rule.clone())),
            Item::Group {
                level: lowest,
                items,
            } => own(items, level, *lowest <= level),
        });
        rules.collect()
    }
    found_applied(masks, |ruleset, level| own(&ruleset.items, level, true));
    // Those of groups last.
    let groups_last = |ruleset: &Written, level: u64| {
        let mut ruleset = ruleset.clone();
        ruleset
            .items
            .sort_by_key(|item| matches!(item, Item::Group { .. }));
        ruleset.rules(level)
    };
    found_applied(masks, groups_last);
    // A level that is one below is enough.
    found_applied(masks, |ruleset, level| ruleset.rules(level + 1));
    // Rights that the level does not know are left out.
    let cut = |ruleset: &Written, level: u64| {
        let mut rules = ruleset.rules(level);
        for rule in &mut rules {
            if let (Rule::Path { rights, .. }, true) = (rule, ruleset.has_groups()) {
                *rights &= Masks::known(level).fs.0 | !0xffff;
            }
        }
        rules
    };
    found_applied(masks, cut);
}

/// Reads the files before it tests the tables.
struct FilesFirst;

impl Broker for FilesFirst {
    fn answer(&mut self, tables: &mut Tables, call: &Call) -> Reply {
        Rereading.answer(tables, call)
    }

    fn apply_policy(&mut self, tables: &mut Tables, wanted: &Wanted) -> Reply {
        match wanted.find() {
            (Err(refusal), report) => Reply::of(Err(refusal), wanted.report_of(report)),
            _ => Rereading.apply_policy(tables, wanted),
        }
    }
}

#[test]
fn files_before_soundness_are_found() {
    let (case, difference) = found_with_policies(&mut FilesFirst);
    let text = scenario(&case, &difference);
    assert_eq!(difference.model.number, Errno::EIO.returned(), "{text}");
    assert!(case.steps.len() <= 2, "{text}");
}

/// Looks at the first bytes of an attribute alone.
struct FirstBytes;

impl Broker for FirstBytes {
    fn answer(&mut self, tables: &mut Tables, call: &Call) -> Reply {
        let mut call = call.clone();
        if let Call::CreateRuleset { bytes, .. } = &mut call {
            bytes.iter_mut().skip(3000).for_each(|byte| *byte = 0);
        }
        Rereading.answer(tables, &call)
    }
}

#[test]
fn a_byte_of_a_long_attribute_is_found() {
    let case = sweep(&mut FirstBytes, 1, &mut Tally::default());
    let (case, difference) = shortened(&mut FirstBytes, case);
    let text = scenario(&case, &difference);
    let [Step::Call(Call::CreateRuleset { bytes, .. })] = case.steps.as_slice() else {
        panic!("{text}");
    };
    let set: Vec<usize> = (0..bytes.len()).filter(|at| bytes[*at] != 0).collect();
    assert!(set.len() == 1 && set[0] >= 3000, "{text}");
    assert!(text.contains("=> E2BIG\n"), "{text}");
}

#[test]
fn the_model_does_not_differ_from_itself_and_meets_everything() {
    let options = Options {
        seed: 1,
        calls: 80_000,
        seconds: None,
        policies: &[0, 5, 25],
        writes: true,
        logs: true,
    };
    let mut tally = Tally::default();
    assert_eq!(sweep_written(&mut Rereading, 1, &mut tally), None);
    assert_eq!(compare(&mut Rereading, &options, &mut tally), None);
    assert!(tally.not_met().is_empty(), "{tally}");
}

#[test]
fn the_sweep_meets_every_length() {
    let mut tally = Tally::default();
    assert!(!tally.not_swept().is_empty(), "{tally}");
    assert_eq!(sweep(&mut Rereading, 1, &mut tally), None);
    assert!(tally.not_swept().is_empty(), "{tally}");
}

#[test]
fn the_model_does_not_differ_from_itself_in_swept_files() {
    let mut tally = Tally::default();
    assert_eq!(sweep_files(&mut Rereading, &mut tally), None);
    assert!(tally.calls > 10_000, "{tally}");
}
