//! Many requests at once, with types.
use skeinrabbit::{
    AccessFs, AccessNet, Batch, Cells, Entry, Errno, Kind, Layer, Level, Refusal, Request, Table,
    Tables, Thread, Verdict,
};

const READ: AccessFs = AccessFs::READ_FILE;
const WRITE: AccessFs = AccessFs::WRITE_FILE;

/// /cal, /cal/table, /import, /import/feed, /import/inner; a worker that may do everything in /import and not write in /cal.
fn restricted() -> (Tables, Thread) {
    let mut tables = Tables::new(Level::LATEST).unwrap();
    for (number, (directory, kind, name)) in (1..).zip([
        (0, Kind::DIRECTORY, "cal"),
        (1, Kind::REGULAR, "table"),
        (0, Kind::DIRECTORY, "import"),
        (3, Kind::REGULAR, "feed"),
        (3, Kind::DIRECTORY, "inner"),
    ]) {
        let made = tables.create(Thread::MAIN, Entry::new(directory), kind, name);
        assert_eq!(made, Ok(Entry::new(number)));
    }
    let worker = tables.clone_thread(Thread::MAIN).unwrap();
    tables.set_no_new_privs(worker).unwrap();
    let all = AccessFs::from_all(Level::LATEST);
    let ruleset = tables.ruleset().handle_fs(all);
    let open = ruleset.handle_net(AccessNet::ALL).create().unwrap();
    let open = open.add_path(Entry::new(1), all - WRITE).unwrap();
    let open = open.add_path(Entry::new(3), all).unwrap();
    let open = open.add_port(443, AccessNet::CONNECT_TCP).unwrap();
    assert_eq!(open.restrict(worker), Ok(Layer::new(0)));
    (tables, worker)
}

/// What the call of a request answers, but for what comes after its verdict.
fn called(tables: &Tables, request: Request) -> Verdict {
    let mut tables = tables.clone();
    let verdict = |answer: Result<(), Refusal<AccessFs>>, later: &[Errno]| {
        let later = answer.is_err_and(|refusal| later.contains(&refusal.errno()));
        Verdict::Fs(if later { Ok(()) } else { answer })
    };
    match request {
        Request::Access {
            thread,
            entry,
            rights,
        } => Verdict::Fs(tables.access(thread, entry, rights)),
        Request::Port {
            thread,
            port,
            rights,
        } => Verdict::Net(tables.port(thread, port, rights)),
        Request::Link {
            thread,
            source,
            directory,
            name,
        } => verdict(
            tables.link(thread, source, directory, name).map(drop),
            &[Errno::ENOSPC],
        ),
        Request::Rename {
            thread,
            source,
            directory,
            name,
        } => {
            let target = tables.entry(directory).map(|row| row.kind);
            let later = [Errno::EISDIR, Errno::ENOTEMPTY, Errno::ENOTDIR];
            // ENOTDIR is both: before the verdict of a target that is no directory, after it of what is replaced.
            let directory_only = target == Some(Kind::DIRECTORY);
            let later = &later[..if directory_only { 3 } else { 2 }];
            verdict(tables.rename(thread, source, directory, name), later)
        }
        Request::Exchange {
            thread,
            source,
            directory,
            entry,
        } => verdict(tables.exchange(thread, source, directory, entry), &[]),
    }
}

/// Every request of two threads and one that is not live, about every entry and one that is not live.
fn every_request(worker: Thread) -> Batch {
    let mut batch = Batch::with_capacity(10_000, 10_000);
    for thread in [Thread::MAIN, worker, Thread::new(5)] {
        for port in [0, 443, 65_536] {
            batch.port(thread, port, AccessNet::CONNECT_TCP);
            batch.port(thread, port, AccessNet::ALL);
            batch.port(thread, port, AccessNet::NONE);
        }
        let entries = (0..7).map(Entry::new);
        for source in entries.clone() {
            for rights in [AccessFs::NONE, READ, READ | WRITE, AccessFs::MAKE_DIR] {
                batch.access(thread, source, rights);
            }
            for directory in entries.clone() {
                for name in ["table", "inner", "import", "new", "", ".."] {
                    batch.link(thread, source, directory, name);
                    batch.rename(thread, source, directory, name);
                }
                for entry in entries.clone() {
                    batch.exchange(thread, source, directory, entry);
                }
            }
        }
    }
    batch
}

#[test]
fn verdicts_are_those_of_the_calls() {
    let (tables, worker) = restricted();
    let before = tables.clone();
    let mut batch = every_request(worker);
    let count = batch.len();
    let verdicts = tables.batch(&mut batch);
    assert_eq!(verdicts.len(), count);
    for (request, verdict) in verdicts.with_requests() {
        assert_eq!(verdict, called(&before, request), "{request:?}");
    }
    assert!(tables == before);
}

#[test]
fn a_layer_is_named() {
    let (tables, worker) = restricted();
    let [cal, table, import] = [1, 2, 3].map(Entry::new);
    let mut batch = Batch::new();
    batch
        .access(worker, table, READ | WRITE)
        .access(worker, table, READ)
        .rename(worker, table, import, "table")
        .port(worker, 80, AccessNet::CONNECT_TCP)
        .link(worker, cal, import, "cal");
    let layer = Layer::new(0);
    let rights = AccessNet::CONNECT_TCP;
    let verdicts: Vec<Verdict> = tables.batch(&mut batch).iter().collect();
    let expected = [
        Verdict::Fs(Err(Refusal::Denied {
            layer,
            rights: WRITE,
        })),
        Verdict::Fs(Ok(())),
        Verdict::Fs(Err(Refusal::Crossing {
            layer,
            rights: WRITE,
        })),
        Verdict::Net(Err(Refusal::Denied { layer, rights })),
        Verdict::Fs(Err(Refusal::Other(Errno::EPERM))),
    ];
    assert_eq!(verdicts, expected);
    let text: Vec<String> = verdicts.iter().map(Verdict::to_string).collect();
    assert_eq!(
        text,
        [
            "EACCES: layer 0 denies write_file",
            "granted",
            "EXDEV: layer 0 refuses the move for write_file",
            "EACCES: layer 0 denies connect_tcp",
            "EPERM",
        ]
    );
}

#[test]
fn a_batch_is_used_again() {
    let (mut tables, worker) = restricted();
    let table = Entry::new(2);
    let mut batch = Batch::new();
    assert!(tables.batch(&mut batch).is_empty());
    batch.access(worker, table, READ);
    let granted = |tables: &Tables, batch: &mut Batch| {
        let verdicts = tables.batch(batch);
        assert_eq!(verdicts.get(verdicts.len()), None);
        verdicts.get(0).unwrap().is_granted()
    };
    assert!(granted(&tables, &mut batch));
    let ruleset = tables.ruleset().handle_fs(READ).create().unwrap();
    ruleset.restrict(worker).unwrap();
    assert!(!granted(&tables, &mut batch));
    batch.clear();
    assert!(batch.is_empty());
    batch.rename(Thread::MAIN, table, Entry::ROOT, "new");
    assert!(granted(&tables, &mut batch));
    let request = batch.get(0).unwrap();
    assert!(matches!(request, Request::Rename { name: b"new", .. }));
    assert_eq!(batch.get(1), None);
}

#[test]
fn tables_that_are_not_sound_are_every_verdict() {
    let (tables, worker) = restricted();
    let mut damaged = tables.into_cells();
    assert!(damaged.set(Table::Names, 0, 1));
    let eio = |tables: &Tables| {
        let mut batch = every_request(worker);
        let mut verdicts = tables.batch(&mut batch).iter();
        verdicts.all(|verdict| verdict.errno() == Some(Errno::EIO))
    };
    assert!(eio(&Tables::from_cells(damaged)));
    assert!(eio(&Tables::from_cells(Cells::zeroed())));
}

#[test]
fn requests_are_read_back() {
    let (thread, source, directory) = (Thread::new(u64::MAX), Entry::new(7), Entry::new(8));
    let requests = [
        Request::Access {
            thread,
            entry: source,
            rights: AccessFs::from_bits(u64::MAX),
        },
        Request::Port {
            thread,
            port: u64::MAX,
            rights: AccessNet::BIND_TCP,
        },
        Request::Link {
            thread,
            source,
            directory,
            name: b"one",
        },
        Request::Rename {
            thread,
            source,
            directory,
            name: &[0xff; 300],
        },
        Request::Exchange {
            thread,
            source,
            directory,
            entry: Entry::ROOT,
        },
        Request::Link {
            thread,
            source,
            directory,
            name: b"",
        },
    ];
    let batch: Batch = requests.into_iter().collect();
    assert!(batch.iter().eq(requests));
    assert_eq!(format!("{batch:?}"), format!("{requests:?}"));
}
