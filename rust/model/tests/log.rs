//! Request W11: the log of tree changes and its replay. The answers are written down from the papers; the model and the proved
//! core must both give them.

use model::call::{Broker, Call};
use model::log::{Log, LONGEST_VALUE};
use model::policy::files::{field, worked_tree};
use model::proved::Both;
use model::refusal::Errno::{self, *};
use model::tables::{encode, Table, Tables};

const CAL: u64 = 1;
const IMPORT: u64 = 2;
const TABLE: u64 = 3;
const FEED: u64 = 4;
const REGULAR: u64 = 1;
const DIRECTORY: u64 = 2;
const THREAD: u64 = 0;

/// The tables of the worked tree: /cal/table and /import/feed.
fn worked() -> Tables {
    encode(&worked_tree(6))
}

fn create(directory: u64, kind: u64, name: &[u8]) -> Call {
    Call::Create {
        name: name.to_vec(),
        thread: THREAD,
        directory,
        kind,
        report: 2,
    }
}

fn remove(entry: u64) -> Call {
    let (thread, report) = (THREAD, 2);
    Call::Remove {
        thread,
        entry,
        report,
    }
}

fn link(source: u64, directory: u64, name: &[u8]) -> Call {
    Call::Link {
        name: name.to_vec(),
        thread: THREAD,
        source,
        directory,
        report: 2,
    }
}

fn rename(source: u64, directory: u64, name: &[u8]) -> Call {
    Call::Rename {
        name: name.to_vec(),
        thread: THREAD,
        source,
        directory,
        report: 2,
    }
}

fn exchange(source: u64, directory: u64, entry: u64) -> Call {
    Call::Exchange {
        thread: THREAD,
        source,
        directory,
        entry,
        report: 2,
    }
}

/// Changes, each with what it succeeds with and with its field.
fn changes() -> Vec<(Call, u64, Vec<u8>)> {
    vec![
        (
            create(IMPORT, DIRECTORY, b"new"),
            5,
            b"\x10\x06\0\x02\x02\0new".to_vec(),
        ),
        (
            link(TABLE, 5, b"other"),
            6,
            b"\x12\x09\0\x03\0\x05\0other".to_vec(),
        ),
        (
            rename(FEED, CAL, b"table"),
            0,
            b"\x13\x09\0\x04\0\x01\0table".to_vec(),
        ),
        (
            exchange(FEED, IMPORT, 5),
            0,
            b"\x14\x06\0\x04\0\x02\0\x05\0".to_vec(),
        ),
        // Of names alone.
        (
            rename(FEED, IMPORT, b"f"),
            0,
            b"\x13\x05\0\x04\0\x02\0f".to_vec(),
        ),
        (remove(6), 0, b"\x11\x02\0\x06\0".to_vec()),
    ]
}

/// Both sides answer so; a refusal leaves tables and log.
fn answered(tables: &mut Tables, log: &mut Log, call: &Call, answer: Result<u64, Errno>) {
    let before = (tables.clone(), log.clone());
    let reply = Both.answer_logged(tables, log, call);
    let number = answer.unwrap_or_else(Errno::returned);
    assert_eq!(reply.number, number, "{call:?}");
    if answer.is_err() {
        assert!((&*tables, &*log) == (&before.0, &before.1), "{call:?}");
    }
}

/// Both sides replay so; a refusal leaves the tables.
fn replayed(tables: &mut Tables, log: &[u8], answer: Result<u64, Errno>) {
    let before = tables.clone();
    let number = answer.unwrap_or_else(Errno::returned);
    assert_eq!(Both.replay(tables, log), number, "{log:?}");
    if answer.is_err() {
        assert!(*tables == before, "{log:?}");
    }
}

/// A log of changes, refused behind a field that is fine, behind each of them, and as the only one.
fn damaged(field: &[u8]) {
    let fine = b"\x10\x04\0\x01\0\0a";
    replayed(&mut worked(), field, Err(EBADMSG));
    replayed(&mut worked(), &[&fine[..], field].concat(), Err(EBADMSG));
    replayed(&mut worked(), &[field, fine].concat(), Err(EBADMSG));
    // Neither does a cut field behind it hide it.
    replayed(&mut worked(), &[field, &[16]].concat(), Err(EBADMSG));
}

#[test]
fn the_bytes_of_each_field() {
    let (mut tables, mut log) = (worked(), Log::plenty());
    let mut all = Vec::new();
    for (call, answer, field) in changes() {
        answered(&mut tables, &mut log, &call, Ok(answer));
        all.extend(field);
        assert_eq!(log.written(), all);
    }
}

/// "Replaying an unbroken log, cut or not, onto the tables it started from gives the tree after exactly those changes whose
/// fields are whole, and reports how many bytes at the tail were dropped".
#[test]
fn a_cut_after_any_byte() {
    let (mut tables, mut log) = (worked(), Log::plenty());
    let mut moments = vec![(0, tables.clone())];
    for (call, answer, _) in changes() {
        answered(&mut tables, &mut log, &call, Ok(answer));
        moments.push((log.used as usize, tables.clone()));
    }
    for length in 0..=log.used as usize {
        let mut again = worked();
        let whole = moments.iter().rfind(|(used, _)| *used <= length);
        let (used, after) = whole.expect("the empty log");
        let dropped = (length - used) as u64;
        replayed(&mut again, &log.written()[..length], Ok(dropped));
        assert!(again == *after, "{length}");
    }
}

/// Each change, with room for one byte less than its field, exactly for it, and where the mark lies behind the end.
#[test]
fn the_room_of_a_log() {
    let mut tables = worked();
    for (call, answer, field) in changes() {
        for used in [0, 1, 300] {
            let log = |room: usize| Log {
                used,
                ..Log::empty(used as usize + room)
            };
            for room in 0..field.len() {
                answered(&mut tables, &mut log(room), &call, Err(ENOSPC));
            }
            for room in [field.len(), field.len() + 1, 100] {
                let mut log = log(room);
                answered(&mut tables.clone(), &mut log, &call, Ok(answer));
                assert_eq!(log.bytes[used as usize..][..field.len()], field);
                assert_eq!(log.used, used + field.len() as u64);
            }
        }
        for used in [
            101,
            1 << 32,
            1 << 63,
            u64::MAX,
            u64::MAX - field.len() as u64 + 1,
        ] {
            let mut log = Log {
                used,
                ..Log::empty(100)
            };
            answered(&mut tables, &mut log, &call, Err(ENOSPC));
        }
        answered(&mut tables, &mut Log::plenty(), &call, Ok(answer));
    }
}

#[test]
fn other_refusals_before_no_room() {
    let (mut tables, mut full) = (worked(), Log::empty(0));
    for (call, errno) in [
        (create(9, REGULAR, b"a"), ENOENT),
        (create(TABLE, REGULAR, b"a"), ENOTDIR),
        (create(CAL, REGULAR, b"table"), EEXIST),
        (create(CAL, 8, b"a"), EINVAL),
        (remove(0), EBUSY),
        (remove(CAL), ENOTEMPTY),
        (link(CAL, IMPORT, b"a"), EPERM),
        (rename(CAL, CAL, b"a"), EINVAL),
        (rename(TABLE, 0, b"import"), EISDIR),
        (rename(CAL, IMPORT, b"feed"), ENOTDIR),
        (exchange(TABLE, CAL, FEED), EINVAL),
    ] {
        answered(&mut tables, &mut full, &call, Err(errno));
    }
    answered(&mut tables, &mut full, &remove(TABLE), Err(ENOSPC));
}

/// A success that changes nothing needs no room and leaves no field.
#[test]
fn changes_of_nothing() {
    let (mut tables, mut log) = (worked(), Log::plenty());
    answered(&mut tables, &mut log, &link(TABLE, IMPORT, b"t"), Ok(5));
    let before = tables.clone();
    for call in [
        rename(TABLE, CAL, b"table"),
        rename(TABLE, IMPORT, b"t"),
        exchange(TABLE, CAL, TABLE),
        exchange(TABLE, IMPORT, 5),
    ] {
        for log in [Log::plenty(), Log::empty(0)] {
            let mut after = log.clone();
            answered(&mut tables, &mut after, &call, Ok(0));
            assert!(tables == before && after == log, "{call:?}");
        }
    }
}

#[test]
fn fields_that_are_damage() {
    for tag in [0, 1, 5, 15, 21, 255] {
        damaged(&field(tag, &[]));
        damaged(&field(tag, &[3, 0]));
    }
    // Values that are too short or too long.
    damaged(&field(16, &[1, 0]));
    damaged(&field(17, &[3]));
    damaged(&field(17, &[3, 0, 0]));
    damaged(&field(18, &[3, 0, 2]));
    damaged(&field(19, &[3, 0, 2]));
    damaged(&field(20, &[3, 0, 2, 0, 4]));
    damaged(&field(20, &[3, 0, 2, 0, 4, 0, 0]));
    let name = [&[1, 0, 0][..], &[b'n'; LONGEST_VALUE]].concat();
    for length in [3, 52, LONGEST_VALUE, LONGEST_VALUE + 1] {
        damaged(&field(16, &name[..length]));
    }
    damaged(&field(16, &[0; 300]));
    // Calls that are refused.
    damaged(&field(16, b"\x01\x09\0a"));
    damaged(&field(16, b"\x08\0\0b"));
    damaged(&field(16, b"\x01\x01\0table"));
    damaged(&field(17, &[1, 0]));
    damaged(&field(17, &[0, 0]));
    damaged(&field(17, &[3, 1]));
    damaged(&field(18, b"\x01\0\x02\0b"));
    damaged(&field(19, b"\x01\0\x01\0b"));
    damaged(&field(20, &[3, 0, 1, 0, 4, 0]));
    // Calls that change nothing.
    damaged(&field(19, b"\x03\0\x01\0table"));
    damaged(&field(20, &[3, 0, 1, 0, 3, 0]));
}

/// A tail that is no whole field is dropped, whatever it is.
#[test]
fn tails_of_any_bytes() {
    let fine = b"\x10\x04\0\x01\0\0a";
    for tag in [0, 16, 17, 21, 255] {
        let tails = [
            &[tag][..],
            &[tag, 255],
            &[tag, 1, 0],
            &[tag, 65, 0, 1, 2, 3],
        ];
        for tail in tails.into_iter().chain([&[tag, 255, 255, 0][..]]) {
            let dropped = Ok(tail.len() as u64);
            replayed(&mut worked(), tail, dropped);
            let mut tables = worked();
            replayed(&mut tables, &[fine, tail].concat(), dropped);
            assert_eq!(Both::unchanging(&tables, &lookup(b"/a")), 5);
        }
    }
    // A buffer is no log: zeros behind the last field are fields of tag 0.
    replayed(&mut worked(), &[&fine[..], &[0; 2]].concat(), Ok(2));
    replayed(&mut worked(), &[&fine[..], &[0; 3]].concat(), Err(EBADMSG));
}

fn lookup(path: &[u8]) -> Call {
    Call::Lookup {
        path: path.to_vec(),
    }
}

/// Replay restores the number of the next object, even where the tree stays the same.
#[test]
fn the_next_object() {
    let mut tables = worked();
    replayed(&mut tables, b"\x10\x04\0\x01\0\0a\x11\x02\0\x05\0", Ok(0));
    assert_eq!(tables.cell(Table::System, 1), 6);
    let mut before = worked();
    before.poke(Table::System, 1, 6);
    assert!(tables == before);
    // A link that is removed and made again.
    let mut tables = worked();
    let log = b"\x12\x05\0\x04\0\0\0a\x11\x02\0\x04\0\x12\x08\0\x05\0\x02\0feed\x11\x02\0\x05\0";
    replayed(&mut tables, log, Ok(0));
    assert!(tables == worked());
}

/// "Replay asks no verdict", and no thread.
#[test]
fn no_verdict() {
    let mut model = worked_tree(6);
    let removing = (1u64 << 5).to_le_bytes();
    model.create_ruleset(&removing, 0).unwrap();
    model.set_no_new_privs(0).unwrap();
    model.restrict(0, 0, 0).unwrap();
    let mut tables = encode(&model);
    answered(&mut tables, &mut Log::plenty(), &remove(TABLE), Err(EACCES));
    replayed(&mut tables, b"\x11\x02\0\x03\0", Ok(0));
    model.threads.clear();
    model.give_back();
    replayed(&mut encode(&model), b"\x11\x02\0\x03\0", Ok(0));
}

#[test]
fn tables_before_logs() {
    for (table, cell, value) in [
        (Table::System, 0, 7),
        (Table::Names, 49, 0),
        (Table::Threads, 3, 2),
    ] {
        let mut tables = worked();
        tables.poke(table, cell, value);
        for log in [&[][..], &[0, 0, 0], &[16], b"\x11\x02\0\x03\0"] {
            replayed(&mut tables, log, Err(EIO));
        }
        for log in [Log::plenty(), Log::empty(0)] {
            answered(&mut tables, &mut log.clone(), &remove(TABLE), Err(EIO));
        }
    }
}
