//! The log of changes: what is appended, room, cuts, and replay of damaged bytes.
use skeinrabbit::{AccessFs, Entry, Errno, Kind, Level, Log, Logged, Refusal, Tables, Thread};

const MAIN: Thread = Thread::MAIN;
const ROOT: Entry = Entry::ROOT;

fn entry(number: u64) -> Entry {
    Entry::new(number)
}

fn fresh() -> Tables {
    Tables::new(Level::LATEST).expect("a level")
}

type Change = fn(&mut Logged) -> Result<u64, Refusal<AccessFs>>;

/// Changes from fresh tables on, each with its field: one of each sort, a replaced entry and a change of a name alone.
const CHANGES: [(Change, &[u8]); 8] = [
    (
        |tables| {
            let made = tables.create(MAIN, ROOT, Kind::DIRECTORY, "cal");
            made.map(Entry::number)
        },
        b"\x10\x06\x00\x02\x00\x00cal",
    ),
    (
        |tables| {
            let made = tables.create(MAIN, entry(1), Kind::REGULAR, "table");
            made.map(Entry::number)
        },
        b"\x10\x08\x00\x01\x01\x00table",
    ),
    (
        |tables| {
            let made = tables.link(MAIN, entry(2), ROOT, "twin");
            made.map(Entry::number)
        },
        b"\x12\x08\x00\x02\x00\x00\x00twin",
    ),
    (
        |tables| tables.rename(MAIN, entry(2), entry(1), "t").map(|()| 0),
        b"\x13\x05\x00\x02\x00\x01\x00t",
    ),
    (
        |tables| {
            let made = tables.create(MAIN, ROOT, Kind::FIFO, [b'n'; 48]);
            made.map(Entry::number)
        },
        b"\x10\x33\x00\x05\x00\x00nnnnnnnnnnnnnnnnnnnnnnnnnnnnnnnnnnnnnnnnnnnnnnnn",
    ),
    (
        |tables| {
            let done = tables.exchange(MAIN, entry(2), ROOT, entry(4));
            done.map(|()| 0)
        },
        b"\x14\x06\x00\x02\x00\x00\x00\x04\x00",
    ),
    (
        |tables| tables.rename(MAIN, entry(4), ROOT, "twin").map(|()| 0),
        b"\x13\x08\x00\x04\x00\x00\x00twin",
    ),
    (
        |tables| tables.remove(MAIN, entry(2)).map(|()| 0),
        b"\x11\x02\x00\x02\x00",
    ),
];

/// The tables before the first change and after each one, and the log.
fn history() -> (Vec<Tables>, Log) {
    let mut log = Log::with_capacity(200);
    let mut states = vec![fresh()];
    for (change, _) in CHANGES {
        let mut tables = states[states.len() - 1].clone();
        change(&mut tables.logged(&mut log)).expect("a change");
        states.push(tables);
    }
    (states, log)
}

#[test]
fn every_change_has_its_field() {
    let fields: Vec<u8> = CHANGES
        .iter()
        .flat_map(|(_, field)| *field)
        .copied()
        .collect();
    let (_, log) = history();
    assert_eq!(log.written(), fields);
    assert_eq!(log.used(), log.written().len() as u64);
    assert_eq!(log.left(), 200 - fields.len());
}

#[test]
fn a_field_needs_all_of_its_bytes() {
    let (states, _) = history();
    for ((change, field), pair) in CHANGES.iter().zip(states.windows(2)) {
        for used in [0, 7] {
            let mut tables = pair[0].clone();
            let mut log = Log::from_parts(vec![9; used + field.len() - 1], used as u64);
            let refused = change(&mut tables.logged(&mut log));
            assert_eq!(refused, Err(Errno::ENOSPC.into()));
            assert!(tables == pair[0]);
            assert_eq!(
                log.into_parts(),
                (vec![9; used + field.len() - 1], used as u64)
            );

            let mut log = Log::from_parts(vec![9; used + field.len() + 2], used as u64);
            change(&mut tables.logged(&mut log)).expect("room");
            assert!(tables == pair[1]);
            let room = [&vec![9; used][..], field, &[9; 2]].concat();
            assert_eq!(log.into_parts(), (room, (used + field.len()) as u64));
        }
    }
}

#[test]
fn a_mark_behind_the_end_leaves_no_room() {
    let (states, _) = history();
    for ((change, _), before) in CHANGES.iter().zip(&states) {
        for used in [101, u64::MAX - 66, u64::MAX] {
            let mut tables = before.clone();
            let mut log = Log::from_parts([9; 100], used);
            let refused = change(&mut tables.logged(&mut log));
            assert_eq!(refused, Err(Errno::ENOSPC.into()));
            assert!(tables == *before);
            assert_eq!(log.into_parts(), ([9; 100], used));
        }
    }
}

#[test]
fn what_changes_nothing_is_not_appended() {
    let mut tables = fresh();
    let file = tables.create(MAIN, ROOT, Kind::REGULAR, "file").unwrap();
    let link = tables.link(MAIN, file, ROOT, "link").unwrap();
    for used in [0, 1] {
        let mut log = Log::from_parts([], used);
        let mut logged = tables.logged(&mut log);
        assert_eq!(logged.rename(MAIN, file, ROOT, "file"), Ok(()));
        assert_eq!(logged.rename(MAIN, file, ROOT, "link"), Ok(()));
        assert_eq!(logged.exchange(MAIN, file, ROOT, link), Ok(()));
        assert_eq!(logged.exchange(MAIN, file, ROOT, file), Ok(()));
        assert_eq!(log.used(), used);
    }
}

#[test]
fn a_refusal_goes_before_the_room() {
    let mut tables = fresh();
    let folder = tables
        .create(MAIN, ROOT, Kind::DIRECTORY, "folder")
        .unwrap();
    let file = tables.create(MAIN, folder, Kind::REGULAR, "file").unwrap();
    let mut log = Log::with_capacity(0);
    let mut logged = tables.logged(&mut log);
    let taken = logged.create(MAIN, folder, Kind::REGULAR, "file");
    assert_eq!(taken, Err(Errno::EEXIST.into()));
    let full = logged.remove(MAIN, folder);
    assert_eq!(full, Err(Errno::ENOTEMPTY.into()));
    let directory = logged.link(MAIN, folder, ROOT, "link");
    assert_eq!(directory, Err(Errno::EPERM.into()));
    let over = logged.rename(MAIN, file, ROOT, "folder");
    assert_eq!(over, Err(Errno::EISDIR.into()));
    let above = logged.exchange(MAIN, file, ROOT, folder);
    assert_eq!(above, Err(Errno::EINVAL.into()));
}

#[test]
fn any_cut_gives_the_tree_after_its_whole_fields() {
    let (states, log) = history();
    let mut whole = 0;
    let mut end = 0;
    for length in 0..=log.written().len() {
        if whole < CHANGES.len() && length == end + CHANGES[whole].1.len() {
            end = length;
            whole += 1;
        }
        let mut cut = log.clone();
        cut.cut(length as u64);
        let mut tables = states[0].clone();
        assert_eq!(tables.replay(cut.written()), Ok(length - end));
        assert!(tables == states[whole], "{length}");
    }
    assert_eq!(whole, CHANGES.len());
}

#[test]
fn other_tables_stay_as_they_are() {
    let (states, log) = history();
    let mut tables = states[0].clone();
    tables.set_no_new_privs(MAIN).unwrap();
    let worker = tables.clone_thread(MAIN).unwrap();
    let open = tables.ruleset().handle_fs(AccessFs::ALL).create().unwrap();
    let layer = open.restrict(worker).unwrap();
    assert_eq!(tables.replay(log.written()), Ok(0));
    let of = |tables: &Tables| {
        let cells = tables.cells();
        (
            cells.entries.to_vec(),
            cells.names.to_vec(),
            cells.system[1],
        )
    };
    assert!(of(&tables) == of(&states[CHANGES.len()]));
    let rights = AccessFs::READ_DIR;
    let refused = tables.access(worker, ROOT, rights);
    assert_eq!(refused, Err(Refusal::Denied { layer, rights }));
}

#[test]
fn damage_leaves_every_cell() {
    let (states, log) = history();
    let (mut refused, mut made) = (0, 0);
    for place in 0..log.written().len() {
        for change in [1, 16, 255] {
            let mut damaged = log.written().to_vec();
            damaged[place] ^= change;
            let mut tables = states[0].clone();
            match tables.replay(&damaged) {
                Ok(_) => {
                    assert!(tables.is_sound());
                    made += 1;
                }
                Err(errno) => {
                    assert_eq!(errno, Errno::EBADMSG);
                    assert!(tables == states[0]);
                    refused += 1;
                }
            }
        }
    }
    assert!(refused > 100 && made > 100, "{refused} and {made}");
}

#[test]
fn a_room_is_no_log() {
    let (states, log) = history();
    let (room, used) = log.into_parts();
    let mut tables = states[0].clone();
    assert_eq!(tables.replay(&room), Err(Errno::EBADMSG));
    assert!(tables == states[0]);
    let used = used as usize;
    assert_eq!(tables.replay(&room[..used + 2]), Ok(2));
    assert!(tables == states[CHANGES.len()]);
}

#[test]
fn a_cleared_log_starts_anew() {
    let (states, mut log) = history();
    log.clear();
    assert!(log.is_empty() && log.written().is_empty());
    let mut tables = states[2].clone();
    CHANGES[2].0(&mut tables.logged(&mut log)).unwrap();
    assert_eq!(log.written(), CHANGES[2].1);
    assert_eq!(format!("{log:?}"), "Log { used: 11, capacity: 200 }");
    log.cut(40);
    assert_eq!(log.used(), 11);
}
