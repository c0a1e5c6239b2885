//! Very many calls on the same tables: threads are cloned, restricted and ended again and again, and
//! the tables are full only while live threads fill them. Requests between these name layers of chains
//! whose numbers are in any order.

use crate::call::{Broker, Call, Reply};
use crate::compare::{Case, Step};
use crate::refusal::Refusal;
use crate::state::{Model, MAX_LAYERS, MAX_THREADS, POOL_PLACES, ROOT};
use crate::tables::{encode, Tables};
use crate::tally::Tally;
use random::Random;

/// The calls between two comparisons of all cells.
const SPAN: usize = 100;
/// The calls between two changes of what is called most.
const PHASE: usize = 800;
/// How many in a hundred calls are requests.
const REQUESTS: u64 = 10;
/// The rules of the rulesets that layers are made of.
const RULES: [u64; 12] = [0, 0, 0, 1, 1, 2, 3, 5, 13, 34, 63, 64];
const LEVEL: u64 = 6;

/// Drives both sides through so many calls on the same tables; answers the calls since the cells
/// were last the same, if the sides differ.
pub fn long_run(broker: &mut dyn Broker, seed: u64, calls: u64, tally: &mut Tally) -> Option<Case> {
    let model = beginning();
    let mut run = LongRun {
        tables: encode(&model),
        case: Case {
            start: model.clone(),
            steps: Vec::new(),
        },
        model,
        broker,
    };
    let mut random = Random::new(seed);
    let mut phase = Phase::Layers;
    for number in 0..calls as usize {
        if number % PHASE == 0 {
            phase = random.pick(&Phase::ALL);
        }
        let call = phase.call(&run.model, &mut random);
        if !run.take(call, tally) || number % SPAN == SPAN - 1 && !run.same_cells() {
            return Some(run.case);
        }
    }
    (!run.same_cells()).then_some(run.case)
}

/// One thread that may restrict itself, and the rulesets.
fn beginning() -> Model {
    let mut model = Model::fresh(LEVEL);
    let ready = model.set_no_new_privs(0).and_then(|_| {
        RULES.iter().try_fold(0, |_, count| {
            let scopes = model.rulesets.len() as u64 % 4;
            let handled = [1, 3, scopes].into_iter().flat_map(u64::to_le_bytes);
            let ruleset = model.create_ruleset(&handled.collect::<Vec<u8>>(), 0)?;
            (0..*count).try_fold(0, |_, port| {
                model.add_port_rule(ruleset, port_of(ruleset, port), 1 + port % 3, 0)
            })
        })
    });
    assert_eq!(ready, Ok(0));
    model
}

/// The port of a rule of a ruleset.
fn port_of(ruleset: u64, rule: u64) -> u64 {
    100 * ruleset + rule
}

/// A request that some layers grant, of one of the threads.
fn request(live: &[u64], random: &mut Random) -> Call {
    let [thread, target] = [(); 2].map(|()| random.pick(live));
    match random.below(4) {
        0 => Call::Signal { thread, target },
        1 => Call::AbstractSocket { thread, target },
        _ => judged_request(thread, random),
    }
}

/// A request about an entry or a port.
fn judged_request(thread: u64, random: &mut Random) -> Call {
    let report = random.pick(&[0, 1, 2, 3, 5]);
    if random.chance(20) {
        let rights = random.pick(&[1, 2, 0x2001]);
        return Call::Access {
            thread,
            entry: ROOT,
            rights,
            report,
        };
    }
    let ruleset = random.below(RULES.len() as u64);
    Call::Port {
        thread,
        port: port_of(ruleset, random.below(64)),
        rights: random.between(1, 3),
        report,
    }
}

/// What is called most for a while.
#[derive(Clone, Copy)]
enum Phase {
    /// Layers without rules: the records run out.
    Layers,
    /// Layers of many rules: the pool runs out.
    Rules,
    Mixed,
    Ends,
}

impl Phase {
    const ALL: [Phase; 5] = [
        Phase::Layers,
        Phase::Rules,
        Phase::Mixed,
        Phase::Mixed,
        Phase::Ends,
    ];

    /// A call, mostly of a live thread. The last thread without a layer stays so, and lives while
    /// there are others: as domains only grow, all would be full in the end without it.
    fn call(self, model: &Model, random: &mut Random) -> Call {
        let live: Vec<u64> = model.threads.keys().copied().collect();
        let bare = last_bare(model);
        let mut others = live.clone();
        others.retain(|number| Some(*number) != bare);
        let other = match random.pick_some(&others) {
            Some(thread) if random.chance(98) => thread,
            _ => random.between(MAX_THREADS, 9),
        };
        let (clones, restricts) = match self {
            Phase::Layers | Phase::Rules => (6, 90),
            Phase::Mixed => (30, 45),
            Phase::Ends => (20, 20),
        };
        if random.chance(REQUESTS) {
            return request(&live, random);
        }
        let sort = random.below(100);
        if sort < clones || others.is_empty() && random.chance(95) {
            let thread = match bare {
                Some(bare) if random.chance(60) => bare,
                _ => random.pick(&live),
            };
            Call::Clone { thread }
        } else if sort < clones + restricts {
            Call::Restrict {
                thread: other,
                ruleset: self.ruleset(random),
                flags: 0,
            }
        } else if others.is_empty() {
            Call::End { thread: live[0] }
        } else {
            Call::End { thread: other }
        }
    }

    fn ruleset(self, random: &mut Random) -> u64 {
        let all = RULES.len() as u64;
        match self {
            Phase::Layers => random.below(3),
            Phase::Rules => random.between(all - 4, all - 1),
            _ => random.below(all),
        }
    }
}

/// The thread without a layer, if there is just one.
fn last_bare(model: &Model) -> Option<u64> {
    let threads = model.threads.iter();
    let mut bare = threads.filter(|(_, thread)| thread.youngest.is_none());
    let first = bare.next().map(|(number, _)| *number);
    first.filter(|_| bare.next().is_none())
}

/// Both sides, and the calls since their cells were last compared.
struct LongRun<'a> {
    broker: &'a mut dyn Broker,
    tables: Tables,
    model: Model,
    case: Case,
}

impl LongRun<'_> {
    /// Makes a call on both sides; answers whether they answer alike.
    fn take(&mut self, call: Call, tally: &mut Tally) -> bool {
        let room = room(&self.model, &call);
        let (answer, report) = self.model.answer(&call);
        let reply = self.broker.answer(&mut self.tables, &call);
        tally.count(&call, answer);
        let exact = match answer {
            Ok(_) => room,
            Err(Refusal::NoFreeLayer | Refusal::PoolFull) => !room,
            Err(_) => true,
        };
        assert!(exact, "{call:?} with room {room}: {answer:?}");
        self.case.steps.push(Step::Call(call));
        reply == Reply::of(answer, report)
    }

    /// Whether the cells are the same; if so the next calls start from here.
    fn same_cells(&mut self) -> bool {
        let same = self.tables == encode(&self.model);
        if same {
            self.case.start.clone_from(&self.model);
            self.case.steps.clear();
        }
        same
    }
}

/// Whether the domains of the live threads leave room for a layer of the call's ruleset.
fn room(model: &Model, call: &Call) -> bool {
    let Call::Restrict { ruleset, .. } = call else {
        return true;
    };
    let reached = model.reached();
    let rules = reached.iter().map(|layer| model.layers[layer].rules.len());
    let new = model.rulesets[ruleset].rules.len();
    reached.len() < MAX_LAYERS && rules.sum::<usize>() + new <= POOL_PLACES
}
