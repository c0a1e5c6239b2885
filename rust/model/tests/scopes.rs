//! Request W10: which thread may signal which, and reach which one's abstract socket. The model and
//! the proved core are both asked.

use model::call::Call;
use model::proved::Both;
use model::refusal::Refusal::{OutOfScope, TargetNotLive, ThreadNotLive};
use model::refusal::{returned, Answer, Errno};
use model::rights::Rights;
use model::state::{Model, MAX_THREADS};
use model::tables::{encode, Table};

const SOCKET: u64 = Rights::ABSTRACT_UNIX_SOCKET.0;
const SIGNAL: u64 = Rights::SIGNAL.0;
const BOTH: u64 = SOCKET | SIGNAL;
const NEITHER: u64 = 0;

/// Thread 0 without a layer.
fn bare(level: u64) -> Model {
    let mut model = Model::fresh(level);
    model.set_no_new_privs(0).unwrap();
    model
}

/// Gives a thread a layer that handles EXECUTE and scopes.
fn restrict(model: &mut Model, thread: u64, scopes: u64) {
    let fields = [Rights::EXECUTE.0, 0, scopes];
    let bytes: Vec<u8> = fields.into_iter().flat_map(u64::to_le_bytes).collect();
    let ruleset = model.create_ruleset(&bytes, 0).unwrap();
    model.restrict(thread, ruleset, 0).unwrap();
    model.close_ruleset(ruleset).unwrap();
}

/// A clone of a thread, with one layer more for each of the scopes.
fn grown(model: &mut Model, thread: u64, layers: &[u64]) -> u64 {
    let clone = model.clone_thread(thread).unwrap();
    for scopes in layers {
        restrict(model, clone, *scopes);
    }
    clone
}

/// Both calls have the answers, the socket's first, and everything stays as it was.
fn answered(model: &Model, thread: u64, target: u64, answers: [Answer; 2]) {
    let calls = [
        Call::AbstractSocket { thread, target },
        Call::Signal { thread, target },
    ];
    for (call, answer) in calls.into_iter().zip(answers) {
        let mut after = model.clone();
        assert_eq!(after.answer(&call), (answer, Vec::new()), "{call:?}");
        assert_eq!(&after, model, "{call:?}");
        let number = Both::unchanging(&encode(model), &call);
        assert_eq!(number, returned(answer), "{call:?}");
    }
}

/// Of these scopes the requests are refused, and granted of the others.
fn denied(model: &Model, thread: u64, target: u64, scopes: u64) {
    let answer = |scope| match scopes & scope {
        0 => Ok(0),
        _ => Err(OutOfScope),
    };
    answered(model, thread, target, [SOCKET, SIGNAL].map(answer));
}

#[test]
fn domains_of_one_layer() {
    for scopes in [NEITHER, SOCKET, SIGNAL, BOTH] {
        let mut model = bare(6);
        let one = grown(&mut model, 0, &[scopes]);
        let same = grown(&mut model, one, &[]);
        let other = grown(&mut model, 0, &[scopes]);
        for thread in [0, one, same, other] {
            denied(&model, thread, thread, NEITHER);
            denied(&model, 0, thread, NEITHER);
        }
        denied(&model, one, same, NEITHER);
        denied(&model, same, one, NEITHER);
        // Another layer, though of the same masks.
        denied(&model, one, other, scopes);
        denied(&model, one, 0, scopes);
    }
}

#[test]
fn nested_domains() {
    for (outer, inner) in [(SOCKET, SIGNAL), (BOTH, NEITHER), (SIGNAL, BOTH)] {
        let mut model = bare(6);
        let parent = grown(&mut model, 0, &[outer]);
        let child = grown(&mut model, parent, &[inner]);
        denied(&model, parent, child, NEITHER);
        denied(&model, child, parent, inner);
        denied(&model, child, 0, outer | inner);
    }
}

#[test]
fn siblings_have_a_layer_in_common() {
    let mut model = bare(6);
    let parent = grown(&mut model, 0, &[BOTH]);
    let quiet = grown(&mut model, parent, &[NEITHER, SIGNAL]);
    let loud = grown(&mut model, parent, &[NEITHER]);
    denied(&model, loud, quiet, NEITHER);
    denied(&model, quiet, loud, SIGNAL);
    denied(&model, loud, 0, BOTH);
    // An older layer that handles a scope, and a younger one in common with nobody that does not.
    let deep = grown(&mut model, quiet, &[NEITHER; 3]);
    denied(&model, deep, quiet, NEITHER);
    denied(&model, deep, parent, SIGNAL);
}

#[test]
fn longest_domains() {
    let mut model = bare(6);
    let mut scopes = [NEITHER; 63];
    scopes[62] = SIGNAL;
    let long = grown(&mut model, 0, &scopes);
    let longer = grown(&mut model, long, &[SOCKET]);
    denied(&model, long, longer, NEITHER);
    denied(&model, longer, long, SOCKET);
    denied(&model, longer, 0, BOTH);
    // The oldest layer alone handles something.
    let other = grown(&mut model, 0, &[SOCKET]);
    let others = grown(&mut model, other, &[NEITHER; 63]);
    denied(&model, others, other, NEITHER);
    denied(&model, others, long, SOCKET);
}

#[test]
fn threads_that_end() {
    let mut model = bare(6);
    let one = grown(&mut model, 0, &[BOTH]);
    let two = grown(&mut model, one, &[]);
    denied(&model, one, two, NEITHER);
    model.end_thread(two).unwrap();
    answered(&model, one, two, [Err(TargetNotLive); 2]);
    answered(&model, two, one, [Err(ThreadNotLive); 2]);
    answered(&model, two, two, [Err(ThreadNotLive); 2]);
    // The number is another thread's now, and so is a record that is given back.
    assert_eq!(grown(&mut model, 0, &[]), two);
    denied(&model, one, two, BOTH);
    model.end_thread(one).unwrap();
    assert_eq!(grown(&mut model, two, &[NEITHER]), one);
    denied(&model, one, two, NEITHER);
    restrict(&mut model, two, SIGNAL);
    denied(&model, two, one, SIGNAL);
}

#[test]
fn threads_that_are_not_live() {
    let mut model = bare(6);
    let one = grown(&mut model, 0, &[BOTH]);
    for number in [2, 7, MAX_THREADS, MAX_THREADS + 1, 1 << 63, u64::MAX] {
        for thread in [0, one] {
            answered(&model, thread, number, [Err(TargetNotLive); 2]);
            answered(&model, number, thread, [Err(ThreadNotLive); 2]);
        }
    }
}

#[test]
fn levels_without_scopes() {
    for level in 1..6 {
        let mut model = bare(level);
        let one = model.clone_thread(0).unwrap();
        let ruleset = model.create_ruleset(&1u64.to_le_bytes(), 0).unwrap();
        model.restrict(one, ruleset, 0).unwrap();
        denied(&model, one, 0, NEITHER);
        answered(&model, one, 2, [Err(TargetNotLive); 2]);
    }
    denied(&bare(0), 0, 0, NEITHER);
}

#[test]
fn tables_that_are_not_sound_come_first() {
    let mut model = bare(6);
    let one = grown(&mut model, 0, &[BOTH]);
    let mut tables = encode(&model);
    // A layer may handle no scope above bit 1.
    tables.of_mut(Table::Layers)[3] = 4;
    for (thread, target) in [(one, 0), (0, 0), (0, 2), (9, 9)] {
        for call in [
            Call::Signal { thread, target },
            Call::AbstractSocket { thread, target },
        ] {
            let number = Both::unchanging(&tables, &call);
            assert_eq!(number, Errno::EIO.returned(), "{call:?}");
        }
    }
}
