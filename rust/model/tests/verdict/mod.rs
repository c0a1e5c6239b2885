//! Whether tables are sound, asked of the proved core and of the model by every call.

use model::call::{Broker, Call};
use model::proved::Both;
use model::refusal::Errno;
use model::sound::check;
use model::tables::{encode, Table, Tables};

/// Fresh tables: a root directory that is its own parent, thread 0, and the first object number
/// that is not the root's.
pub fn fresh(level: u64) -> Tables {
    let mut tables = Tables::default();
    tables.of_mut(Table::System)[..2].copy_from_slice(&[level, 1]);
    tables.of_mut(Table::Entries)[0] = 2;
    tables.of_mut(Table::Threads)[0] = 1;
    tables
}

/// Every call but `fresh`, and `component`, which has no tables.
fn calls() -> Vec<Call> {
    let (thread, ruleset, flags) = (0, 0, 0);
    let (source, entry, directory) = (1, 1, 0);
    let (name, path) = (b"new".to_vec(), b"/".to_vec());
    let (port, rights, kind) = (80, 1, 1);
    let report = 5;
    let calls = vec![
        Call::CreateRuleset {
            bytes: vec![1, 0, 0, 0, 0, 0, 0, 0],
            flags,
        },
        Call::CloseRuleset { ruleset },
        Call::AddPathRule {
            ruleset,
            entry,
            rights,
            flags,
        },
        Call::AddPortRule {
            ruleset,
            port,
            rights,
            flags,
        },
        Call::Restrict {
            thread,
            ruleset,
            flags,
        },
        Call::LayerRules { layer: 0, report },
        Call::Clone { thread },
        Call::End { thread },
        Call::SetNoNewPrivs { thread },
        Call::SetAdmin { thread, on: 1 },
        Call::Access {
            thread,
            entry,
            rights,
            report,
        },
        Call::Port {
            thread,
            port,
            rights,
            report,
        },
        Call::Signal {
            thread,
            target: thread,
        },
        Call::AbstractSocket {
            thread,
            target: thread,
        },
        Call::Create {
            name: name.clone(),
            thread,
            directory,
            kind,
            report,
        },
        Call::Remove {
            thread,
            entry,
            report,
        },
        Call::Link {
            name: name.clone(),
            thread,
            source,
            directory,
            report,
        },
        Call::Rename {
            name,
            thread,
            source,
            directory,
            report,
        },
        Call::Exchange {
            thread,
            source,
            directory,
            entry,
            report,
        },
        Call::Lookup { path },
    ];
    // Beside these, component, which has no tables.
    assert_eq!(calls.len() + 2, Call::NAMES.len());
    calls
}

/// No call answers EIO, and each leaves sound tables.
pub fn sound(tables: &Tables, case: &str) {
    let shown = check(tables).map(|model| encode(&model));
    assert!(shown.as_ref() == Ok(tables), "{case}: {:?}", shown.err());
    for call in calls() {
        let mut after = tables.clone();
        let reply = Both.answer(&mut after, &call);
        assert_ne!(reply.number, Errno::EIO.returned(), "{case}: {call:?}");
        assert_eq!(check(&after).err(), None, "{case}: {call:?}");
    }
}

/// Every call answers EIO and changes no cell, but `fresh` on tables of the right lengths.
pub fn unsound(tables: &Tables, case: &str) {
    let refused = |call: &Call| {
        let number = Both::unchanging(tables, call);
        assert_eq!(number, Errno::EIO.returned(), "{case}: {call:?}");
    };
    calls().iter().for_each(refused);
    let call = Call::Fresh { level: 6 };
    if !tables.right_lengths() {
        return refused(&call);
    }
    let mut after = tables.clone();
    assert_eq!(Both.answer(&mut after, &call).number, 0, "{case}");
    assert!(after == fresh(6), "{case}");
}
