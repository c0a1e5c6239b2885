//! The calls that change nothing, on tables in memory that cannot be written: a write would end the program.
use skeinrabbit_sys::{
    abstract_socket, access, batch, component, find_policy, layer_rules, lookup, port, post,
    signal, turn, write_policy, QueueCells, SharedCells, NAMES_SIZE, SIZES,
};

const fn cells<const N: usize>(first: [u64; 4]) -> [u64; N] {
    let mut cells = [0; N];
    let mut cell = 0;
    while cell < 4 {
        cells[cell] = first[cell];
        cell += 1;
    }
    cells
}

static SYSTEM: [u64; SIZES[0]] = cells([6, 1, 0, 0]);
static ENTRIES: [u64; SIZES[1]] = cells([2, 0, 0, 0]);
static RULESETS: [u64; SIZES[2]] = cells([0; 4]);
static LAYERS: [u64; SIZES[3]] = cells([0; 4]);
static POOL: [u64; SIZES[4]] = cells([0; 4]);
static THREADS: [u64; SIZES[5]] = cells([1, 0, 0, 0]);
static NAMES: [u8; NAMES_SIZE] = [0; NAMES_SIZE];

/// The cells of fresh tables at level 6.
const FRESH: SharedCells = SharedCells {
    system: &SYSTEM,
    entries: &ENTRIES,
    rulesets: &RULESETS,
    layers: &LAYERS,
    pool: &POOL,
    threads: &THREADS,
    names: &NAMES,
};

const ENOENT: u64 = 2u64.wrapping_neg();
const ESRCH: u64 = 3u64.wrapping_neg();
const EIO: u64 = 5u64.wrapping_neg();
const EBADF: u64 = 9u64.wrapping_neg();
const EAGAIN: u64 = 11u64.wrapping_neg();
const EINVAL: u64 = 22u64.wrapping_neg();
const ENOSPC: u64 = 28u64.wrapping_neg();

#[test]
fn requests_write_no_cell() {
    assert_eq!(access(FRESH, 0, 0, 8, &mut []), 0);
    assert_eq!(access(FRESH, 1, 0, 8, &mut []), ESRCH);
    assert_eq!(port(FRESH, 0, 80, 1, &mut []), 0);
    assert_eq!(layer_rules(FRESH, 0, &mut []), EBADF);
    assert_eq!(lookup(FRESH, b"/"), 0);
    assert_eq!(lookup(FRESH, b"/cal"), ENOENT);
    assert_eq!(lookup(FRESH, b""), ENOENT);
    for reach in [signal, abstract_socket] {
        assert_eq!(reach(FRESH, 0, 0), 0);
        assert_eq!(reach(FRESH, 1, 0), ESRCH);
        assert_eq!(reach(FRESH, 0, 1), ESRCH);
    }
}

/// A call that is given its report.
type Reporting = fn(&mut [u64]) -> u64;

#[test]
fn reports_have_any_length() {
    let calls: [(Reporting, u64); 4] = [
        (|report| access(FRESH, 0, 0, 8, report), 0),
        (|report| port(FRESH, 1, 80, 1, report), ESRCH),
        (|report| layer_rules(FRESH, 0, report), EBADF),
        (|report| component(b"//", 0, report), 0),
    ];
    for (call, answer) in calls {
        for (length, left) in [(0, [7; 5]), (1, [0, 7, 7, 7, 7]), (2, [0, 0, 7, 7, 7])] {
            let mut report = [7; 5];
            assert_eq!(call(&mut report[..length]), answer);
            assert_eq!(report, left);
        }
    }
    let mut report = [7; 5];
    assert_eq!(port(FRESH, 0, 80, 1, &mut report), 0);
    assert_eq!(report, [0, 0, 7, 7, 7]);
    assert_eq!(access(FRESH, 0, 0, 8, &mut report[1..]), 0);
    assert_eq!(report, [0, 0, 0, 0, 7]);
}

#[test]
fn a_component_is_a_part_of_the_path() {
    for (path, place, part) in [
        (&b"/cal/table"[..], 0, [1, 3]),
        (b"/cal/table", 1, [1, 3]),
        (b"/cal/table", 2, [5, 5]),
        (b"/cal/table", 6, [0, 0]),
        (b"/cal/table", u64::MAX, [0, 0]),
        (b"", 0, [0, 0]),
    ] {
        let mut report = [7; 3];
        assert_eq!(component(path, place, &mut report), 0);
        assert_eq!(report, [part[0], part[1], 7]);
    }
}

#[test]
fn tables_of_any_length_are_read() {
    let no_entries = SharedCells {
        entries: &[],
        ..FRESH
    };
    let no_names = SharedCells {
        names: &[],
        ..FRESH
    };
    for short in [no_entries, no_names] {
        assert_eq!(access(short, 0, 0, 8, &mut []), EIO);
        assert_eq!(port(short, 0, 80, 1, &mut []), EIO);
        assert_eq!(layer_rules(short, 0, &mut []), EIO);
        assert_eq!(lookup(short, b"/"), EIO);
        assert_eq!(signal(short, 0, 0), EIO);
        assert_eq!(abstract_socket(short, 0, 0), EIO);
    }
}

/// The cells of a queue, each part with a cell more than it needs.
struct Queue {
    requests: [u64; 25],
    states: [u64; 9],
    answers: [u64; 33],
    cursor: u64,
}

impl Queue {
    fn fresh() -> Queue {
        Queue {
            requests: [0; 25],
            states: [0; 9],
            answers: [7; 33],
            cursor: 7,
        }
    }

    /// The first cells of each part, so many.
    fn cells(&mut self, lengths: [usize; 3]) -> QueueCells<'_> {
        QueueCells {
            requests: &mut self.requests[..lengths[0]],
            states: &mut self.states[..lengths[1]],
            answers: &mut self.answers[..lengths[2]],
            cursor: &mut self.cursor,
        }
    }
}

#[test]
fn turns_write_no_cell_of_the_tables() {
    let mut queue = Queue::fresh();
    let mut cells = queue.cells([24, 8, 32]);
    assert_eq!(turn(FRESH, &mut cells), 8);
    assert_eq!(post(&mut cells, 3, 0, 0, 8), 0);
    assert_eq!(post(&mut cells, 3, 0, 0, 8), EAGAIN);
    assert_eq!(post(&mut cells, 8, 0, 0, 8), EINVAL);
    assert_eq!(post(&mut cells, 1, 1, 0, 8), 0);
    assert_eq!(turn(FRESH, &mut cells), 1);
    assert_eq!(turn(FRESH, &mut cells), 3);
    assert_eq!(turn(FRESH, &mut cells), 8);
    assert_eq!(queue.cursor, 3);
    assert_eq!(queue.requests[3..12], [1, 0, 8, 0, 0, 0, 0, 0, 8]);
    assert_eq!(queue.states, [0, 2, 0, 2, 0, 0, 0, 0, 0]);
    assert_eq!(queue.answers[4..8], [3, 0, 0, 0]);
    assert_eq!(queue.answers[8..12], [7; 4]);
    assert_eq!(queue.answers[12..16], [0; 4]);
    assert_eq!(queue.answers[32], 7);
}

#[test]
fn unsound_tables_are_a_slots_answer() {
    let short = SharedCells { pool: &[], ..FRESH };
    let mut queue = Queue::fresh();
    let mut cells = queue.cells([24, 8, 32]);
    assert_eq!(turn(short, &mut cells), 8);
    assert_eq!(post(&mut cells, 0, 0, 0, 8), 0);
    assert_eq!(turn(short, &mut cells), 0);
    assert_eq!(queue.answers[..4], [5, 0, 0, 0]);
}

#[test]
fn queues_of_any_length_are_read() {
    for lengths in [
        [25, 8, 32],
        [23, 8, 32],
        [0, 8, 32],
        [24, 9, 32],
        [24, 7, 32],
        [24, 0, 32],
        [24, 8, 33],
        [24, 8, 31],
        [24, 8, 0],
        [0, 0, 0],
    ] {
        let mut queue = Queue::fresh();
        let mut cells = queue.cells(lengths);
        assert_eq!(post(&mut cells, 0, 0, 0, 8), EIO);
        assert_eq!(post(&mut cells, 8, 0, 0, 8), EIO);
        assert_eq!(turn(FRESH, &mut cells), EIO);
        assert_eq!(queue.states, [0; 9]);
        assert_eq!(queue.answers, [7; 33]);
    }
}

/// An access, a port request and, with names, a link and a rename of the root, and an exchange of it.
static ASKED: [u64; 35] = [
    1, 0, 0, 8, 9, 9, 9, // granted
    2, 1, 80, 1, 9, 9, 9, // no such thread
    3, 0, 0, 0, 9, 0, 4, // the root is not linked
    4, 0, 1, 0, 9, 0, 4, // no such entry
    5, 0, 0, 0, 0, 9, 9, // nor exchanged
];
static ASKED_NAMES: [u8; 4] = *b"name";

#[test]
fn a_batch_writes_its_answers_alone() {
    let mut answers = [7; 17];
    assert_eq!(batch(FRESH, &ASKED, &ASKED_NAMES, &mut answers), 0);
    let expected = [0, 3, 16, 2, 16].map(|number| [number, 0, 0]);
    assert_eq!(answers[..15], expected.concat());
    assert_eq!(answers[15..], [7; 2]);
    let mut answers = [7; 2];
    assert_eq!(batch(FRESH, &[], &[], &mut answers), 0);
    assert_eq!(batch(FRESH, &[], &[], &mut []), 0);
    assert_eq!(answers, [7; 2]);
}

#[test]
fn a_batch_that_is_refused_writes_nothing() {
    let mut another_sort = ASKED;
    another_sort[28] = 6;
    let mut answers = [7; 15];
    for (requests, room) in [
        (&ASKED[..34], 15),
        (&ASKED[..29], 15),
        (&another_sort, 15),
        (&ASKED, 14),
        (&ASKED, 12),
        (&ASKED, 0),
    ] {
        let room = &mut answers[..room];
        assert_eq!(batch(FRESH, requests, &ASKED_NAMES, room), EINVAL);
        assert_eq!(answers, [7; 15]);
    }
}

#[test]
fn unsound_tables_are_every_answer_of_a_batch() {
    let short = SharedCells { pool: &[], ..FRESH };
    let mut answers = [7; 16];
    assert_eq!(batch(short, &ASKED, &ASKED_NAMES, &mut answers), 0);
    assert_eq!(answers[..15], [[5, 0, 0]; 5].concat());
    assert_eq!(answers[15], 7);
    assert_eq!(
        batch(short, &ASKED, &ASKED_NAMES, &mut answers[..14]),
        EINVAL
    );
}

/// A ruleset "p" with three masks of zeros.
static FILE: [u8; 31] = {
    let mut file = [0; 31];
    [file[0], file[1], file[3], file[4], file[5]] = [1, 1, b'p', 2, 24];
    file
};
const EBADMSG: u64 = 74u64.wrapping_neg();

#[test]
fn policy_files_are_only_read() {
    // The same bytes may be stock, site and name: nothing of them is written.
    let mut report = [7; 4];
    assert_eq!(find_policy(&FILE, &FILE, &FILE[3..4], &mut report), 0);
    assert_eq!(report, [1, 0, 31, 7]);
    assert_eq!(find_policy(&FILE, &[], &FILE[3..4], &mut report), 0);
    assert_eq!(report, [0, 0, 31, 7]);
    assert_eq!(find_policy(&FILE, &FILE, b"q", &mut report), ENOENT);
    assert_eq!(report, [0, 0, 0, 7]);
    assert_eq!(
        find_policy(&FILE, &FILE[..4], b"p", &mut report[..2]),
        EBADMSG
    );
    assert_eq!(report, [1, 4, 0, 7]);
}

/// A ruleset that handles READ_FILE and has no rule.
static OPEN: [u64; SIZES[2]] = cells([4, 0, 0, 0]);

#[test]
fn a_policy_file_is_all_that_is_written() {
    let tables = SharedCells {
        rulesets: &OPEN,
        ..FRESH
    };
    let mut file = FILE;
    file[7] = 4;
    let mut out = [7; 40];
    assert_eq!(write_policy(tables, 0, b"p", &mut out[..30]), ENOSPC);
    assert_eq!(write_policy(tables, 0, b"", &mut out), EINVAL);
    assert_eq!(write_policy(tables, 1, b"", &mut out), EBADF);
    assert_eq!(write_policy(tables, 0, b"p", &mut []), ENOSPC);
    let short = SharedCells {
        pool: &[],
        ..tables
    };
    assert_eq!(write_policy(short, 0, b"p", &mut out), EIO);
    assert_eq!(out, [7; 40]);
    assert_eq!(write_policy(tables, 0, b"p", &mut out[..31]), 31);
    assert_eq!(out[..31], file);
    assert_eq!(out[31..], [7; 9]);
    let mut out = [7; 40];
    assert_eq!(write_policy(tables, 0, b"p", &mut out), 31);
    assert_eq!((&out[..31], &out[31..]), (&file[..], &[7; 9][..]));
}
