//! The proved core as a broker, and beside the model.

use crate::batch::Batch;
use crate::call::{Broker, Call, Reply};
use crate::log::{Log, LONGEST_FIELD};
use crate::policy::write::{cells_of, Writing};
use crate::policy::Wanted;
use crate::queue::cells::QueueCells;
use crate::queue::Request;
use crate::reference::Rereading;
use crate::tables::Tables;
use skeinrabbit_sys::{Cells, SharedCells};

/// The proved core.
pub struct Core;

impl Broker for Core {
    fn answer(&mut self, tables: &mut Tables, call: &Call) -> Reply {
        self.answer_logged(tables, &mut Log::empty(LONGEST_FIELD), call)
    }

    fn answer_logged(&mut self, tables: &mut Tables, log: &mut Log, call: &Call) -> Reply {
        let mut report = call.unwritten_report();
        let log = &mut skeinrabbit_sys::Log {
            bytes: &mut log.bytes,
            used: &mut log.used,
        };
        let number = core_answer(&mut cells(tables), call, log, &mut report);
        Reply { number, report }
    }

    fn replay(&mut self, tables: &mut Tables, log: &[u8]) -> u64 {
        skeinrabbit_sys::replay(&mut cells(tables), log)
    }

    fn post(&mut self, queue: &mut QueueCells, slot: u64, request: Request) -> u64 {
        let Request {
            thread,
            entry,
            rights,
        } = request;
        skeinrabbit_sys::post(&mut queue_cells(queue), slot, thread, entry, rights)
    }

    fn turn(&mut self, queue: &mut QueueCells, tables: &Tables) -> u64 {
        skeinrabbit_sys::turn(shared_cells(tables), &mut queue_cells(queue))
    }

    fn batch(&mut self, tables: &mut Tables, batch: &Batch) -> Reply {
        let mut report = batch.answers.clone();
        let tables = shared_cells(tables);
        let number = skeinrabbit_sys::batch(tables, &batch.requests, &batch.names, &mut report);
        Reply { number, report }
    }

    fn find_policy(&mut self, wanted: &Wanted) -> Reply {
        let mut report = wanted.unwritten_report();
        let [stock, site] = &wanted.files;
        let number = skeinrabbit_sys::find_policy(stock, site, &wanted.name, &mut report);
        Reply { number, report }
    }

    fn apply_policy(&mut self, tables: &mut Tables, wanted: &Wanted) -> Reply {
        let mut report = wanted.unwritten_report();
        let [stock, site] = &wanted.files;
        let tables = &mut cells(tables);
        let number = skeinrabbit_sys::apply_policy(tables, stock, site, &wanted.name, &mut report);
        Reply { number, report }
    }

    fn write_policy(&mut self, tables: &mut Tables, writing: &Writing) -> Reply {
        let mut out = writing.unwritten();
        let tables = shared_cells(tables);
        let number =
            skeinrabbit_sys::write_policy(tables, writing.ruleset, &writing.name, &mut out);
        let report = cells_of(&out);
        Reply { number, report }
    }
}

/// The proved core, which must answer as the model does and leave the same cells.
pub struct Both;

impl Both {
    /// The number that answers a call, which must change no cell.
    pub fn unchanging(tables: &Tables, call: &Call) -> u64 {
        let mut after = tables.clone();
        let reply = Both.answer(&mut after, call);
        assert!(after == *tables, "cells change: {call:?}");
        reply.number
    }
}

impl Broker for Both {
    fn answer(&mut self, tables: &mut Tables, call: &Call) -> Reply {
        self.answer_logged(tables, &mut Log::empty(LONGEST_FIELD), call)
    }

    fn answer_logged(&mut self, tables: &mut Tables, log: &mut Log, call: &Call) -> Reply {
        let (mut by_model, mut model_log) = (tables.clone(), log.clone());
        let model = Rereading.answer_logged(&mut by_model, &mut model_log, call);
        let core = Core.answer_logged(tables, log, call);
        assert_eq!(core, model, "core and model answer differently: {call:?}");
        assert!(
            *tables == by_model,
            "core and model leave other cells: {call:?}"
        );
        assert_eq!(*log, model_log, "core and model log differently: {call:?}");
        core
    }

    fn replay(&mut self, tables: &mut Tables, log: &[u8]) -> u64 {
        let mut by_model = tables.clone();
        let model = Rereading.replay(&mut by_model, log);
        let core = Core.replay(tables, log);
        assert_eq!(core, model, "core and model answer differently: {log:?}");
        assert!(
            *tables == by_model,
            "core and model leave other cells: {log:?}"
        );
        core
    }

    fn post(&mut self, queue: &mut QueueCells, slot: u64, request: Request) -> u64 {
        let mut by_model = queue.clone();
        let model = Rereading.post(&mut by_model, slot, request);
        let core = Core.post(queue, slot, request);
        assert_eq!((core, &*queue), (model, &by_model), "{slot}: {request:?}");
        core
    }

    fn turn(&mut self, queue: &mut QueueCells, tables: &Tables) -> u64 {
        let mut by_model = queue.clone();
        let model = Rereading.turn(&mut by_model, tables);
        let core = Core.turn(queue, tables);
        assert_eq!((core, &*queue), (model, &by_model));
        core
    }

    fn batch(&mut self, tables: &mut Tables, batch: &Batch) -> Reply {
        let before = tables.clone();
        let model = Rereading.batch(tables, batch);
        let core = Core.batch(tables, batch);
        assert_eq!(core, model, "core and model answer differently: {batch:?}");
        assert!(*tables == before, "cells change: {batch:?}");
        core
    }

    fn find_policy(&mut self, wanted: &Wanted) -> Reply {
        let model = Rereading.find_policy(wanted);
        let core = Core.find_policy(wanted);
        assert_eq!(core, model, "core and model answer differently: {wanted:?}");
        core
    }

    fn apply_policy(&mut self, tables: &mut Tables, wanted: &Wanted) -> Reply {
        let mut by_model = tables.clone();
        let model = Rereading.apply_policy(&mut by_model, wanted);
        let core = Core.apply_policy(tables, wanted);
        assert_eq!(core, model, "core and model answer differently: {wanted:?}");
        assert!(
            *tables == by_model,
            "core and model leave other cells: {wanted:?}"
        );
        core
    }

    fn write_policy(&mut self, tables: &mut Tables, writing: &Writing) -> Reply {
        let before = tables.clone();
        let model = Rereading.write_policy(tables, writing);
        let core = Core.write_policy(tables, writing);
        assert_eq!(
            core, model,
            "core and model answer differently: {writing:?}"
        );
        assert!(*tables == before, "cells change: {writing:?}");
        core
    }
}

fn queue_cells(queue: &mut QueueCells) -> skeinrabbit_sys::QueueCells<'_> {
    let [requests, states, answers] = &mut queue.lists;
    let cursor = &mut queue.cursor;
    skeinrabbit_sys::QueueCells {
        requests,
        states,
        answers,
        cursor,
    }
}

fn shared_cells(tables: &Tables) -> SharedCells<'_> {
    let [system, entries, rulesets, layers, pool, threads] = &tables.cells;
    let names = &tables.names;
    SharedCells {
        system,
        entries,
        rulesets,
        layers,
        pool,
        threads,
        names,
    }
}

fn cells(tables: &mut Tables) -> Cells<'_> {
    let [system, entries, rulesets, layers, pool, threads] = &mut tables.cells;
    let names = &mut tables.names;
    Cells {
        system,
        entries,
        rulesets,
        layers,
        pool,
        threads,
        names,
    }
}

/// Calls the core's function for each of the calls; listed are those of numbers alone that may change the tables, with `log` and
/// `report` last where they have them.
macro_rules! core_answer {
    (
        $tables:ident, $call:ident, $log:ident, $report:ident;
        $($variant:ident $function:ident($($field:ident),*) $($reported:ident)*;)*
    ) => {
        match *$call {
            Call::CreateRuleset { ref bytes, flags } => {
                skeinrabbit_sys::create_ruleset($tables, bytes, flags)
            }
            Call::LayerRules { layer, .. } => {
                skeinrabbit_sys::layer_rules($tables.shared(), layer, $report)
            }
            Call::Access { thread, entry, rights, .. } => {
                skeinrabbit_sys::access($tables.shared(), thread, entry, rights, $report)
            }
            Call::Port { thread, port, rights, .. } => {
                skeinrabbit_sys::port($tables.shared(), thread, port, rights, $report)
            }
            Call::Signal { thread, target } => {
                skeinrabbit_sys::signal($tables.shared(), thread, target)
            }
            Call::AbstractSocket { thread, target } => {
                skeinrabbit_sys::abstract_socket($tables.shared(), thread, target)
            }
            Call::Create { ref name, thread, directory, kind, .. } => {
                skeinrabbit_sys::create($tables, thread, directory, kind, name, $log, $report)
            }
            Call::Link { ref name, thread, source, directory, .. } => {
                skeinrabbit_sys::link($tables, thread, source, directory, name, $log, $report)
            }
            Call::Rename { ref name, thread, source, directory, .. } => {
                skeinrabbit_sys::rename($tables, thread, source, directory, name, $log, $report)
            }
            Call::Lookup { ref path } => skeinrabbit_sys::lookup($tables.shared(), path),
            Call::Component { ref path, place, .. } => {
                skeinrabbit_sys::component(path, place, $report)
            }
            $(Call::$variant { $($field,)* .. } => {
                skeinrabbit_sys::$function($tables, $($field,)* $($reported),*)
            })*
        }
    };
}

fn core_answer(
    tables: &mut Cells,
    call: &Call,
    log: &mut skeinrabbit_sys::Log,
    report: &mut [u64],
) -> u64 {
    core_answer! {
        tables, call, log, report;
        Fresh fresh(level);
        CloseRuleset close_ruleset(ruleset);
        AddPathRule add_path_rule(ruleset, entry, rights, flags);
        AddPortRule add_port_rule(ruleset, port, rights, flags);
        Restrict restrict(thread, ruleset, flags);
        Clone clone(thread);
        End end(thread);
        SetNoNewPrivs set_no_new_privs(thread);
        SetAdmin set_admin(thread, on);
        Remove remove(thread, entry) log report;
        Exchange exchange(thread, source, directory, entry) log report;
    }
}
