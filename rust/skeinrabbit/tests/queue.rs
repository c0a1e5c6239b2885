//! A queue of access requests, with types.
use skeinrabbit::{
    AccessFs, Cells, Entry, Errno, Judged, Kind, Layer, Level, Queue, QueuePart, Refusal, Slot,
    SlotState, Tables, Thread, Turn,
};

const READ: AccessFs = AccessFs::READ_FILE;
const WRITE: AccessFs = AccessFs::WRITE_FILE;

/// A file of a folder that a worker may read and not write; the folder, the file and the worker.
fn restricted() -> (Tables, Entry, Entry, Thread) {
    let mut tables = Tables::new(Level::LATEST).unwrap();
    let docs = tables.create(Thread::MAIN, Entry::ROOT, Kind::DIRECTORY, "docs");
    let docs = docs.unwrap();
    let page = tables.create(Thread::MAIN, docs, Kind::REGULAR, "page");
    let page = page.unwrap();
    let worker = tables.clone_thread(Thread::MAIN).unwrap();
    tables.set_no_new_privs(worker).unwrap();
    let open = tables.ruleset().handle_fs(READ | WRITE).create().unwrap();
    let open = open.add_path(docs, READ).unwrap();
    assert_eq!(open.restrict(worker).unwrap(), Layer::new(0));
    (tables, docs, page, worker)
}

fn slot(number: u64) -> Slot {
    Slot::new(number)
}

#[test]
fn an_answer_is_that_of_an_access() {
    let (tables, docs, page, worker) = restricted();
    let mut queue = Queue::new();
    let requests = [
        (worker, page, READ),
        (worker, page, READ | WRITE),
        (Thread::MAIN, page, WRITE),
        (worker, docs, AccessFs::MAKE_DIR),
        (Thread::new(7), page, READ),
        (worker, Entry::new(u64::MAX), READ),
        (worker, page, AccessFs::NONE),
        (worker, page, AccessFs::from_bits(u64::MAX)),
    ];
    for (number, (thread, entry, rights)) in (0..).zip(requests) {
        assert_eq!(queue.post(slot(number), thread, entry, rights), Ok(()));
    }
    for (number, (thread, entry, rights)) in (0..).zip(requests) {
        assert_eq!(queue.answer(slot(number)), None);
        assert_eq!(queue.turn(&tables), Ok(Turn::Served(slot(number))));
        let judged = tables.judge(thread, entry, rights);
        assert_eq!(queue.answer(slot(number)), Some(judged));
        let row = queue.slot(slot(number)).unwrap();
        assert_eq!((row.thread, row.entry, row.rights), (thread, entry, rights));
        assert_eq!((row.state, row.kept), (SlotState::Answered, judged));
    }
    assert_eq!(queue.turn(&tables), Ok(Turn::Idle));
    let denied = Refusal::Denied {
        layer: Layer::new(0),
        rights: WRITE,
    };
    let refused = queue.answer(slot(1)).unwrap();
    assert_eq!((refused.answer, refused.entries_read), (Err(denied), 3));
}

#[test]
fn slots_are_served_in_turn() {
    let tables = Tables::new(Level::LATEST).unwrap();
    let mut queue = Queue::default();
    let post = |queue: &mut Queue, number| {
        queue.post(slot(number), Thread::MAIN, Entry::ROOT, AccessFs::READ_DIR)
    };
    for number in [6, 1, 3] {
        assert_eq!(post(&mut queue, number), Ok(()));
    }
    assert_eq!(queue.turn(&tables).unwrap().slot(), Some(slot(1)));
    assert_eq!(post(&mut queue, 1), Ok(()));
    assert_eq!(post(&mut queue, 3), Err(Errno::EAGAIN));
    for number in [3, 6, 1] {
        assert_eq!(queue.turn(&tables), Ok(Turn::Served(slot(number))));
    }
    assert_eq!(queue.turn(&tables).unwrap().slot(), None);
    let states = queue.slots().map(|row| row.state);
    let (empty, answered) = (SlotState::Empty, SlotState::Answered);
    assert_eq!(
        states.collect::<Vec<_>>(),
        [empty, answered, empty, answered, empty, empty, answered, empty]
    );
}

#[test]
fn a_post_keeps_the_last_answer_and_is_not_answered_by_it() {
    let (tables, _, page, worker) = restricted();
    let mut queue = Queue::new();
    queue.post(slot(4), worker, page, WRITE).unwrap();
    assert_eq!(queue.turn(&tables), Ok(Turn::Served(slot(4))));
    let refused = queue.answer(slot(4)).unwrap();
    queue.post(slot(4), worker, page, READ).unwrap();
    assert_eq!(queue.answer(slot(4)), None);
    let row = queue.slot(slot(4)).unwrap();
    assert_eq!((row.state, row.kept), (SlotState::Waiting, refused));
}

#[test]
fn damaged_queues_are_refused() {
    let tables = Tables::new(Level::LATEST).unwrap();
    let damaged = [
        (QueuePart::Cursor, 0, 8),
        (QueuePart::Cursor, 0, u64::MAX),
        (QueuePart::States, 0, 3),
        (QueuePart::States, 7, 1 << 32),
    ];
    for (part, cell, value) in damaged {
        let mut cells = Queue::new().into_cells();
        assert!(cells.set(part, cell, value));
        let mut queue = Queue::from_cells(cells.clone());
        assert_eq!(queue.turn(&tables), Err(Errno::EIO));
        for number in [0, 7, 8, u64::MAX] {
            let posted = queue.post(slot(number), Thread::MAIN, Entry::ROOT, READ);
            assert_eq!(posted, Err(Errno::EIO));
        }
        assert_eq!(queue.cells(), &cells);
    }
    let mut cells = Queue::new().into_cells();
    assert!(cells.set(QueuePart::States, 7, 9));
    let row = Queue::from_cells(cells).slot(slot(7)).unwrap();
    assert_eq!(row.state, SlotState::Unknown(9));
    assert_eq!(row.state.to_string(), "9");
}

/// Cells that no turn writes never read as a success.
#[test]
fn no_other_number_is_a_success() {
    let answer = |number| {
        let mut cells = Queue::new().into_cells();
        cells.set(QueuePart::States, 0, 2);
        cells.set(QueuePart::Answers, 0, number);
        let queue = Queue::from_cells(cells);
        queue.answer(slot(0)).map(|judged| judged.answer)
    };
    assert_eq!(answer(0), Some(Ok(())));
    assert_eq!(answer(2), Some(Err(Refusal::Other(Errno::ENOENT))));
    for number in [4096, 65_536, 1 << 32, 1 << 63, u64::MAX - 12, u64::MAX] {
        let unknown = Some(Err(Refusal::Other(Errno::EIO)));
        assert_eq!(answer(number), unknown, "{number}");
    }
    // EACCES without a layer.
    assert_eq!(answer(13), Some(Err(Refusal::Other(Errno::EACCES))));
}

#[test]
fn unsound_tables_are_an_answer() {
    let damaged = Tables::from_cells(Cells::zeroed());
    let mut queue = Queue::new();
    assert_eq!(queue.turn(&damaged), Ok(Turn::Idle));
    queue
        .post(slot(0), Thread::MAIN, Entry::ROOT, READ)
        .unwrap();
    assert_eq!(queue.turn(&damaged), Ok(Turn::Served(slot(0))));
    let judged = Judged {
        answer: Err(Errno::EIO.into()),
        entries_read: 0,
    };
    assert_eq!(queue.answer(slot(0)), Some(judged));
}

#[test]
fn parts_have_names_and_sizes() {
    let sizes = QueuePart::ALL.map(|part| (part.name(), part.size()));
    let expected = [
        ("requests", 24),
        ("states", 8),
        ("answers", 32),
        ("cursor", 1),
    ];
    assert_eq!(sizes, expected);
    for part in QueuePart::ALL {
        assert_eq!(part.name().parse(), Ok(part));
        let mut cells = Queue::new().into_cells();
        assert!(cells.set(part, part.size() - 1, 1));
        assert!(!cells.set(part, part.size(), 1));
    }
    assert!("slots".parse::<QueuePart>().is_err());
}
