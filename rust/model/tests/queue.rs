//! Request W14: a queue of eight slots. The values are written down from the papers; the model and the proved
//! core must both leave them.

use model::call::Broker;
use model::proved::Both;
use model::queue::cells::{QueueCells, QueuePart};
use model::queue::{Request, State, IDLE};
use model::refusal::Errno::{self, *};
use model::state::Model;
use model::tables::{encode, Table, Tables};
use random::Random;

const READ: u64 = 1 << 2;
const WRITE: u64 = 1 << 1;
const REGULAR: u64 = 1;
const DIRECTORY: u64 = 2;

const fn request(thread: u64, entry: u64, rights: u64) -> Request {
    Request {
        thread,
        entry,
        rights,
    }
}

/// What thread 0 asks where nothing is refused.
const PLAIN: Request = request(0, 0, READ);

/// 1 /docs, 2 /docs/page; thread 0 may read below /docs and write nowhere, thread 1 may do everything.
fn restricted() -> Model {
    let mut model = Model::fresh(6);
    model.create(0, 0, DIRECTORY, b"docs").unwrap();
    model.create(0, 1, REGULAR, b"page").unwrap();
    assert_eq!(model.clone_thread(0), Ok(1));
    restrict(&mut model, READ | WRITE);
    model
}

/// Gives thread 0 a layer that grants reading below entry 1.
fn restrict(model: &mut Model, fs: u64) {
    model.set_no_new_privs(0).unwrap();
    let ruleset = model.create_ruleset(&fs.to_le_bytes(), 0).unwrap();
    model.add_path_rule(ruleset, 1, READ, 0).unwrap();
    model.restrict(0, ruleset, 0).unwrap();
    model.close_ruleset(ruleset).unwrap();
}

/// Both sides post, and answer so.
fn posted(queue: &mut QueueCells, slot: u64, request: Request, answer: Result<(), Errno>) {
    let number = Both.post(queue, slot, request);
    let expected = answer.err().map_or(0, Errno::returned);
    assert_eq!(number, expected, "{slot}: {request:?}");
}

/// Both sides take a turn, serve the slot and answer it so.
fn serves(queue: &mut QueueCells, tables: &Tables, slot: u64, answer: [u64; 4]) {
    assert_eq!(Both.turn(queue, tables), slot);
    assert_eq!(queue.cursor, slot);
    assert_eq!(state(queue, slot), State::Answered as u64);
    assert_eq!(answer_of(queue, slot), answer);
}

/// Both sides say that nothing waits, and change nothing.
fn idle(queue: &mut QueueCells, tables: &Tables) {
    let before = queue.clone();
    assert_eq!(Both.turn(queue, tables), IDLE);
    assert_eq!(*queue, before);
}

/// Both sides refuse a post of every slot and a turn, and change nothing.
fn unsound(queue: &QueueCells, tables: &Tables) {
    for slot in (0..9).chain([u64::MAX]) {
        let mut after = queue.clone();
        posted(&mut after, slot, PLAIN, Err(EIO));
        assert_eq!(after, *queue);
    }
    let mut after = queue.clone();
    assert_eq!(Both.turn(&mut after, tables), EIO.returned());
    assert_eq!(after, *queue);
}

fn state(queue: &QueueCells, slot: u64) -> u64 {
    queue.cell(QueuePart::States, slot as usize)
}

fn answer_of(queue: &QueueCells, slot: u64) -> [u64; 4] {
    let first = 4 * slot as usize;
    [0, 1, 2, 3].map(|cell| queue.cell(QueuePart::Answers, first + cell))
}

fn fresh_tables() -> Tables {
    encode(&Model::fresh(6))
}

#[test]
fn eight_slots_in_turn_from_the_cursor() {
    let tables = fresh_tables();
    for cursor in 0..8 {
        let mut queue = QueueCells::fresh();
        queue.cursor = cursor;
        for slot in [3, 0, 7, 5, 1, 6, 2, 4] {
            posted(&mut queue, slot, PLAIN, Ok(()));
        }
        for step in 1..=8 {
            serves(&mut queue, &tables, (cursor + step) % 8, [0; 4]);
        }
        idle(&mut queue, &tables);
    }
}

#[test]
fn the_first_slot_of_a_fresh_queue_is_0() {
    let (tables, mut queue) = (fresh_tables(), QueueCells::fresh());
    assert_eq!(queue.cursor, 7);
    idle(&mut queue, &tables);
    posted(&mut queue, 7, PLAIN, Ok(()));
    posted(&mut queue, 0, PLAIN, Ok(()));
    serves(&mut queue, &tables, 0, [0; 4]);
    serves(&mut queue, &tables, 7, [0; 4]);
    idle(&mut queue, &tables);
}

#[test]
fn refusals_of_a_post() {
    let mut queue = QueueCells::fresh();
    for slot in [8, 9, 15, 256, 1 << 32, 1 << 63, u64::MAX] {
        posted(&mut queue, slot, PLAIN, Err(EINVAL));
    }
    assert_eq!(queue, QueueCells::fresh());
    posted(&mut queue, 2, PLAIN, Ok(()));
    let before = queue.clone();
    posted(&mut queue, 2, request(1, 2, 3), Err(EAGAIN));
    assert_eq!(queue, before);
    // Any request may wait: it is judged at its turn.
    for (slot, numbers) in [(0, u64::MAX), (1, 0), (7, 1 << 63)] {
        posted(&mut queue, slot, request(numbers, numbers, numbers), Ok(()));
    }
}

#[test]
fn a_post_over_an_answered_slot() {
    let (tables, mut queue) = (encode(&restricted()), QueueCells::fresh());
    posted(&mut queue, 4, request(0, 2, WRITE), Ok(()));
    let refused = [EACCES as u64, 1, WRITE, 3];
    serves(&mut queue, &tables, 4, refused);
    posted(&mut queue, 4, request(1, 2, WRITE), Ok(()));
    assert_eq!(state(&queue, 4), State::Waiting as u64);
    assert_eq!(answer_of(&queue, 4), refused);
    posted(&mut queue, 4, request(1, 2, WRITE), Err(EAGAIN));
    serves(&mut queue, &tables, 4, [0; 4]);
}

#[test]
fn answers_are_those_of_an_access() {
    let tables = encode(&restricted());
    for (request, answer) in [
        (request(0, 2, READ), [0, 0, 0, 2]),
        (request(0, 2, READ | WRITE), [EACCES as u64, 1, WRITE, 3]),
        (request(0, 0, READ), [EACCES as u64, 1, READ, 1]),
        (request(0, 2, 1), [0, 0, 0, 0]),
        (request(1, 2, WRITE), [0, 0, 0, 0]),
        (request(2, 2, WRITE), [ESRCH as u64, 0, 0, 0]),
        (request(2, 9, 0), [ESRCH as u64, 0, 0, 0]),
        (request(0, 3, WRITE), [ENOENT as u64, 0, 0, 0]),
        (request(0, 3, 0), [ENOENT as u64, 0, 0, 0]),
        (request(0, 2, 0), [EINVAL as u64, 0, 0, 0]),
        (request(0, 2, 1 << 16), [EINVAL as u64, 0, 0, 0]),
        (request(0, 2, 1 << 3), [EINVAL as u64, 0, 0, 0]),
    ] {
        let mut queue = QueueCells::fresh();
        posted(&mut queue, 6, request, Ok(()));
        serves(&mut queue, &tables, 6, answer);
    }
}

#[test]
fn the_tables_at_the_turn() {
    let mut model = restricted();
    let mut queue = QueueCells::fresh();
    for slot in 0..4 {
        posted(&mut queue, slot, request(0, 2, READ), Ok(()));
    }
    serves(&mut queue, &encode(&model), 0, [0, 0, 0, 2]);
    model.rename(1, 2, 0, b"page").unwrap();
    let denied = [EACCES as u64, 1, READ, 2];
    serves(&mut queue, &encode(&model), 1, denied);
    let mut damaged = encode(&model);
    damaged.poke(Table::System, 0, 7);
    serves(&mut queue, &damaged, 2, [EIO as u64, 0, 0, 0]);
    model.remove(1, 2).unwrap();
    serves(&mut queue, &encode(&model), 3, [ENOENT as u64, 0, 0, 0]);
    // What was answered stays.
    assert_eq!(answer_of(&queue, 0), [0, 0, 0, 2]);
    assert_eq!(answer_of(&queue, 1), denied);
}

#[test]
fn unsound_tables_are_no_reason_to_stop() {
    let mut tables = fresh_tables();
    tables.resize(Table::Pool, 0);
    let mut queue = QueueCells::fresh();
    idle(&mut queue, &tables);
    posted(&mut queue, 5, PLAIN, Ok(()));
    posted(&mut queue, 1, request(9, 9, 0), Ok(()));
    serves(&mut queue, &tables, 1, [EIO as u64, 0, 0, 0]);
    serves(&mut queue, &tables, 5, [EIO as u64, 0, 0, 0]);
    idle(&mut queue, &tables);
}

#[test]
fn queues_that_are_not_sound() {
    let tables = fresh_tables();
    // Slot 2 waits: EIO comes before EAGAIN, and before EINVAL.
    let mut queue = QueueCells::fresh();
    posted(&mut queue, 2, PLAIN, Ok(()));
    for cursor in [8, 9, 255, 256, 263, 1 << 32, u64::MAX] {
        let mut damaged = queue.clone();
        damaged.cursor = cursor;
        unsound(&damaged, &tables);
    }
    for slot in 0..8 {
        for value in [3, 4, 255, 256, 257, 1 << 32, (1 << 32) + 1, u64::MAX] {
            let mut damaged = queue.clone();
            damaged.poke(QueuePart::States, slot, value);
            unsound(&damaged, &tables);
        }
    }
    for list in QueuePart::LISTS {
        let right = list.length();
        for length in [0, 1, right - 1, right + 1, right + right / 8, 2 * right] {
            let mut damaged = queue.clone();
            damaged.resize(list, length);
            unsound(&damaged, &tables);
        }
    }
    // Requests and answers may be anything.
    for part in [QueuePart::Requests, QueuePart::Answers] {
        for cell in 0..part.length() {
            let mut odd = queue.clone();
            odd.poke(part, cell, u64::MAX);
            posted(&mut odd, 2, PLAIN, Err(EAGAIN));
            assert_eq!(Both.turn(&mut odd, &tables), 2);
        }
    }
}

/// No waiting slot waits more than eight turns, from any sound queue, whatever is posted meanwhile.
#[test]
fn no_slot_waits_more_than_eight_turns() {
    let tables = fresh_tables();
    let mut random = Random::new(1);
    let mut longest = 0;
    for _ in 0..2_000 {
        let mut queue = QueueCells::fresh();
        queue.cursor = random.below(8);
        for slot in 0..8 {
            queue.poke(QueuePart::States, slot, random.below(3));
        }
        let share = random.pick(&[20, 50, 90]);
        let mut waits = [0; 8];
        for _ in 0..60 {
            if random.chance(share) {
                Both.post(&mut queue, random.below(8), PLAIN);
                continue;
            }
            let before = queue.clone();
            let served = Both.turn(&mut queue, &tables);
            for (slot, waited) in waits.iter_mut().enumerate() {
                let waiting = state(&before, slot as u64) == State::Waiting as u64;
                *waited = if waiting { *waited + 1 } else { 0 };
                longest = longest.max(*waited);
                assert!(*waited <= 8, "slot {slot} of {before:?}");
                if served == slot as u64 {
                    *waited = 0;
                }
            }
        }
    }
    assert_eq!(longest, 8);
}
