//! The changes of the tree with logs and tables of any length, and replay of bytes that cannot be written.
use skeinrabbit_sys::{
    create, exchange, fresh, link, remove, rename, replay, Cells, Log, NoLog, LOG_FIELD_SIZE,
    NAMES_SIZE, SIZES,
};

const ENOENT: u64 = 2u64.wrapping_neg();
const EIO: u64 = 5u64.wrapping_neg();
const ENOSPC: u64 = 28u64.wrapping_neg();
const EBADMSG: u64 = 74u64.wrapping_neg();

#[derive(Clone, PartialEq)]
struct Tables {
    cells: [Vec<u64>; 6],
    names: Vec<u8>,
}

impl Tables {
    fn fresh() -> Tables {
        let mut tables = Tables {
            cells: SIZES.map(|size| vec![7; size]),
            names: vec![7; NAMES_SIZE],
        };
        assert_eq!(fresh(&mut tables.cells(), 6), 0);
        tables
    }

    fn cells(&mut self) -> Cells<'_> {
        let [system, entries, rulesets, layers, pool, threads] = &mut self.cells;
        let names = &mut self.names;
        Cells {
            system,
            entries,
            rulesets,
            layers,
            pool,
            threads,
            names,
        }
    }
}

/// Creates a file in the root, with a field of 10 bytes.
fn create_file(tables: &mut Tables, log: &mut Log, report: &mut [u64]) -> u64 {
    create(&mut tables.cells(), 0, 0, 1, b"file", log, report)
}

static FIELD: [u8; 10] = *b"\x10\x07\x00\x01\x00\x00file";

#[test]
fn a_field_is_written_behind_the_used_bytes() {
    for length in 0..16 {
        for start in [0, 3, 15, 16, u64::MAX] {
            let mut tables = Tables::fresh();
            let before = tables.clone();
            let (mut bytes, mut used, mut report) = ([9; 16], start, [7; 4]);
            let mut log = Log {
                bytes: &mut bytes[..length],
                used: &mut used,
            };
            let answer = create_file(&mut tables, &mut log, &mut report[..3]);
            assert_eq!(report, [0, 0, 7, 7]);
            let fits = |used: &usize| used.checked_add(10).is_some_and(|end| end <= length);
            let room = usize::try_from(start).ok().filter(fits);
            let mut expected = [9; 16];
            match room {
                Some(used) => {
                    assert_eq!(answer, 1);
                    expected[used..used + 10].copy_from_slice(&FIELD);
                }
                None => {
                    assert_eq!(answer, ENOSPC);
                    assert!(tables == before);
                }
            }
            assert_eq!(bytes, expected);
            assert_eq!(used, start.wrapping_add(10 * u64::from(room.is_some())));
        }
    }
}

#[test]
fn unsound_tables_go_first() {
    for table in 0..6 {
        let mut tables = Tables::fresh();
        tables.cells[table].pop();
        let before = tables.clone();
        let (mut bytes, mut used, mut report) = ([9; 67], 0, [7; 2]);
        let mut log = Log {
            bytes: &mut bytes,
            used: &mut used,
        };
        assert_eq!(create_file(&mut tables, &mut log, &mut report), EIO);
        assert_eq!(report, [0, 0]);
        let cells = &mut tables.cells();
        assert_eq!(remove(cells, 0, 1, &mut log, &mut []), EIO);
        assert_eq!(link(cells, 0, 1, 0, b"l", &mut log, &mut []), EIO);
        assert_eq!(rename(cells, 0, 1, 0, b"l", &mut log, &mut []), EIO);
        assert_eq!(exchange(cells, 0, 1, 0, 1, &mut log, &mut []), EIO);
        assert_eq!(replay(cells, &FIELD), EIO);
        assert_eq!(replay(cells, &[]), EIO);
        assert!(tables == before && bytes == [9; 67] && used == 0);
    }
}

#[test]
fn a_replayed_log_is_only_read() {
    let mut tables = Tables::fresh();
    let before = tables.clone();
    for cut in 0..10 {
        assert_eq!(replay(&mut tables.cells(), &FIELD[..cut]), cut as u64);
        assert!(tables == before);
    }
    assert_eq!(replay(&mut tables.cells(), &FIELD), 0);
    let mut made = before.clone();
    let answer = create_file(&mut made, &mut NoLog::new().log(), &mut []);
    assert_eq!(answer, 1);
    assert!(tables == made);
    assert_eq!(replay(&mut tables.cells(), &FIELD), EBADMSG);
    assert!(tables == made);
}

/// However many changes are made, a log that is dropped has room for each.
#[test]
fn a_dropped_log_has_room_for_any_field() {
    let (mut tables, mut none) = (Tables::fresh(), NoLog::default());
    let name = [b'n'; 48];
    let cells = &mut tables.cells();
    for other in [b"a", b"b", b"c"] {
        assert_eq!(create(cells, 0, 0, 1, other, &mut none.log(), &mut []), 1);
        assert_eq!(link(cells, 0, 1, 0, &name, &mut none.log(), &mut []), 2);
        assert_eq!(remove(cells, 0, 2, &mut none.log(), &mut []), 0);
        assert_eq!(rename(cells, 0, 1, 0, &name, &mut none.log(), &mut []), 0);
        assert_eq!(remove(cells, 0, 1, &mut none.log(), &mut []), 0);
        assert_eq!(remove(cells, 0, 1, &mut none.log(), &mut []), ENOENT);
    }
    assert_eq!(none.log().bytes.len(), LOG_FIELD_SIZE);
}
