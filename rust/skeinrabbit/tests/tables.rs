//! The tables as a caller sees them: any arguments, any cells, nothing lost.
use skeinrabbit::*;

type Call = fn(&mut Tables, [u64; 5]) -> Result<u64, Errno>;

/// Every call over plain numbers.
const CALLS: [Call; 20] = [
    |t, [a, b, ..]| t.create_ruleset(&a.to_le_bytes(), b).map(Ruleset::number),
    |t, [a, ..]| t.close_ruleset(a.into()).map(|()| 0),
    |t, [a, b, c, d, _]| {
        t.add_path_rule(a.into(), b.into(), AccessFs::from_bits(c), d)
            .map(|()| 0)
    },
    |t, [a, b, c, d, _]| {
        t.add_port_rule(a.into(), b, AccessNet::from_bits(c), d)
            .map(|()| 0)
    },
    |t, [a, b, c, ..]| t.restrict(a.into(), b.into(), c).map(|_| 0),
    |t, [a, ..]| t.layer_rules(a.into()).map(|_| 0),
    |t, [a, ..]| t.clone_thread(a.into()).map(Thread::number),
    |t, [a, ..]| t.end(a.into()).map(|()| 0),
    |t, [a, ..]| t.set_no_new_privs(a.into()).map(|()| 0),
    |t, [a, b, ..]| t.set_admin(a.into(), b != 0).map(|()| 0),
    |t, [a, b, c, ..]| {
        let answer = t.access(a.into(), b.into(), AccessFs::from_bits(c));
        number(t, answer.map(|()| 0))
    },
    |t, [a, b, c, ..]| {
        let answer = t.port(a.into(), b, AccessNet::from_bits(c));
        number(t, answer.map(|()| 0))
    },
    |t, [a, b, ..]| t.signal(a.into(), b.into()).map(|()| 0),
    |t, [a, b, ..]| t.abstract_socket(a.into(), b.into()).map(|()| 0),
    |t, [a, b, c, d, _]| {
        let answer = t.create(a.into(), b.into(), Kind::new(c), name(d));
        number(t, answer.map(Entry::number))
    },
    |t, [a, b, ..]| {
        let answer = t.remove(a.into(), b.into());
        number(t, answer.map(|()| 0))
    },
    |t, [a, b, c, d, _]| {
        let answer = t.link(a.into(), b.into(), c.into(), name(d));
        number(t, answer.map(Entry::number))
    },
    |t, [a, b, c, d, _]| {
        let answer = t.rename(a.into(), b.into(), c.into(), name(d));
        number(t, answer.map(|()| 0))
    },
    |t, [a, b, ..]| {
        let path = [b"/", name(a), b"//", name(b)].concat();
        t.lookup(path).map(Entry::number)
    },
    |t, [a, b, c, d, _]| {
        let answer = t.exchange(a.into(), b.into(), c.into(), d.into());
        number(t, answer.map(|()| 0))
    },
];

/// Names of all sorts: good, bad and over-long ones.
fn name(number: u64) -> &'static [u8] {
    const NAMES: [&[u8]; 11] = [
        b"cal",
        b"table",
        b"a",
        b"",
        b".",
        b"..",
        b"a/b",
        b"a\0",
        b"\xff",
        &[b'x'; 48],
        &[b'x'; 49],
    ];
    NAMES[number as usize % NAMES.len()]
}

/// The number of an answer. EACCES and EXDEV come from a layer in use, and no other refusal does.
fn number<R: Default + PartialEq>(
    tables: &Tables,
    answer: Result<u64, Refusal<R>>,
) -> Result<u64, Errno> {
    answer.map_err(|refusal| {
        match &refusal {
            Refusal::Denied { layer, rights } | Refusal::Crossing { layer, rights } => {
                assert!(tables.layer(*layer).is_some() && *rights != R::default());
            }
            Refusal::Other(errno) => assert!(![Errno::EACCES, Errno::EXDEV].contains(errno)),
        }
        refusal.errno()
    })
}

/// Numbers that look random and are the same each time.
struct Noise(u64);

impl Noise {
    fn next(&mut self) -> u64 {
        self.0 = self
            .0
            .wrapping_mul(6364136223846793005)
            .wrapping_add(1442695040888963407);
        self.0 >> 20
    }

    fn of<T: Copy>(&mut self, choices: &[T]) -> T {
        choices[self.next() as usize % choices.len()]
    }
}

#[test]
fn calls_keep_tables_sound_and_refusals_change_nothing() {
    const SMALL: [u64; 12] = [0, 0, 0, 1, 1, 2, 3, 4, 5, 7, 8486, 65_535];
    const ODD: [u64; 6] = [8, 16, 256, 1024, 1 << 63, u64::MAX];
    let mut noise = Noise(3);
    let mut refused = 0;
    let mut tables = Tables::new(Level::LATEST).unwrap();
    for round in 0..3000 {
        if round % 500 == 0 {
            tables.fresh(Level::new(noise.next() % 7)).unwrap();
        }
        let arguments = [(); 5].map(|()| match noise.next() % 12 {
            0 => noise.of(&ODD),
            _ => noise.of(&SMALL),
        });
        let before = tables.clone();
        if let Err(errno) = noise.of(&CALLS)(&mut tables, arguments) {
            assert!(
                Errno::ALL.contains(&errno) && errno != Errno::EIO,
                "{errno:?}"
            );
            assert_eq!(tables, before);
            refused += 1;
        }
        assert!(tables.is_sound());
    }
    assert!((500..3000).contains(&refused), "{refused}");
}

#[test]
fn unsound_tables_are_eio_for_every_call() {
    let sound = Tables::new(Level::LATEST).unwrap().into_cells();
    for (table, cell, value) in [
        (Table::System, 0, 7),
        (Table::System, 1, 0),
        (Table::Entries, 0, 1),
        (Table::Entries, 5, 1),
        (Table::Rulesets, 195, 1),
        (Table::Layers, 0, 1),
        (Table::Pool, 3071, 1),
        (Table::Threads, 0, 2),
        (Table::Names, 0, 1),
        (Table::Names, 50_175, 255),
    ] {
        let mut cells = sound.clone();
        assert!(cells.set(table, cell, value));
        let mut tables = Tables::from_cells(cells.clone());
        assert!(!tables.is_sound());
        for call in CALLS {
            assert_eq!(
                call(&mut tables, [0, 0, 1, 0, 0]),
                Err(Errno::EIO),
                "{table:?} {cell}"
            );
        }
        assert_eq!(tables.cells(), &cells);
        assert_eq!(tables.fresh(Level::LATEST), Ok(()));
        assert_eq!(tables.cells(), &sound);
    }
}

#[test]
fn any_cells_can_be_looked_at() {
    let mut noise = Noise(4);
    let mut cells = Cells::zeroed();
    for table in Table::ALL {
        for cell in 0..table.size() {
            let byte = table == Table::Names;
            let largest = if byte { 255 } else { u64::MAX };
            assert!(cells.set(table, cell, noise.of(&[0, 1, 2, 3, 64, 255, largest])));
        }
    }
    let tables = Tables::from_cells(cells);
    assert!(!tables.is_sound());
    assert!(tables.entries().count() <= 1024);
    assert!(tables
        .open_rulesets()
        .all(|row| row.rules.iter().count() <= 64));
    assert!(tables.layers().count() <= 256);
    for thread in 0..9 {
        assert!(tables.domain(Thread::new(thread)).count() <= 64);
    }
    for entry in 0..1024 {
        assert!(tables.name(Entry::new(entry)).len() <= 48);
        let path = tables.path(Entry::new(entry));
        assert!(path.is_none_or(|path| path.len() <= 1024 * 49));
    }
    assert_eq!(tables.entry(Entry::new(u64::MAX)), None);
    assert_eq!(tables.name(Entry::new(u64::MAX)), b"");
    assert_eq!(tables.open_ruleset(Ruleset::new(u64::MAX)), None);
    assert!(!format!("{tables:?} {:?}", tables.cells()).is_empty());
}

#[test]
fn tables_have_their_sizes() {
    let cells = Cells::zeroed();
    let sizes = [4, 3072, 3136, 1792, 3072, 32, 50_176];
    assert_eq!(Table::ALL.map(Table::size), sizes);
    for (table, size) in Table::ALL.into_iter().zip(sizes) {
        assert_eq!(cells.get(table, size - 1), Some(0));
        assert_eq!(cells.get(table, size), None);
        assert_eq!(table.name().parse(), Ok(table));
    }
}

#[test]
fn fresh_tables_are_as_the_paper_says() {
    for level in 0..=6 {
        let tables = Tables::new(Level::new(level)).unwrap();
        let mut expected = Cells::zeroed();
        expected.system[0] = level;
        expected.system[1] = 1;
        expected.entries[0] = 2;
        expected.threads[0] = 1;
        assert_eq!(tables.cells(), &expected);
    }
    assert_eq!(Tables::new(Level::new(7)), Err(Errno::EINVAL));
    assert_eq!(Tables::new(Level::new(u64::MAX)), Err(Errno::EINVAL));
}

/// Tables with a layer of two rules below one with none.
fn layered() -> Tables {
    let mut tables = Tables::new(Level::LATEST).unwrap();
    tables.set_admin(Thread::MAIN, true).unwrap();
    let open = tables
        .ruleset()
        .handle_fs(AccessFs::ALL)
        .handle_net(AccessNet::ALL)
        .create()
        .unwrap();
    let open = open.add_port(80, AccessNet::BIND_TCP).unwrap();
    let open = open.add_path(Entry::ROOT, AccessFs::READ_DIR).unwrap();
    assert_eq!(open.restrict(Thread::MAIN), Ok(Layer::new(0)));
    let open = tables.ruleset().scope(Scope::SIGNAL).create().unwrap();
    assert_eq!(open.restrict(Thread::MAIN), Ok(Layer::new(1)));
    tables
}

#[test]
fn a_rule_on_the_root_grants_no_change() {
    assert_eq!(AccessFs::NOT_AT_ROOT.bits(), 32_754);
    let mut tables = Tables::new(Level::LATEST).unwrap();
    let attribute = Attribute {
        fs: AccessFs::ALL,
        ..Attribute::default()
    };
    let ruleset = tables.create_ruleset(&attribute.to_bytes(), 0).unwrap();
    for right in AccessFs::ALL.iter() {
        let expected = if AccessFs::NOT_AT_ROOT.contains(right) {
            Err(Errno::EPERM)
        } else {
            Ok(())
        };
        let answer = tables.add_path_rule(ruleset, Entry::ROOT, right, 0);
        assert_eq!(answer, expected, "{right}");
    }
}

#[test]
fn the_rules_of_a_layer_are_a_part_of_the_pool() {
    let tables = layered();
    let pool = tables.cells().pool.as_ptr_range();
    let rules = tables.layer_rules(Layer::new(0)).unwrap();
    assert!(pool.contains(&rules.cells().as_ptr()));
    assert_eq!(rules.cells(), [2, 80, 1, 1, 0, 8]);
    assert_eq!(rules.len(), 2);
    let port = Rule::Port {
        port: 80,
        rights: AccessNet::BIND_TCP,
    };
    let path = Rule::Path {
        object: 0,
        rights: AccessFs::READ_DIR,
    };
    assert_eq!(rules.into_iter().collect::<Vec<Rule>>(), [port, path]);
    assert!(tables.layer_rules(Layer::new(1)).unwrap().is_empty());
    for layer in [2, 256, u64::MAX] {
        assert_eq!(tables.layer_rules(Layer::new(layer)), Err(Errno::EBADF));
    }
}

#[test]
fn rows_show_what_the_calls_made() {
    let mut tables = layered();
    let layers: Vec<LayerRow> = tables.domain(Thread::MAIN).collect();
    assert_eq!(
        layers
            .iter()
            .map(|row| row.layer.number())
            .collect::<Vec<u64>>(),
        [1, 0]
    );
    assert_eq!(layers[0].parent, Some(Layer::new(0)));
    assert_eq!(layers[0].attribute.scope, Scope::SIGNAL);
    assert_eq!(layers[1].attribute.fs, AccessFs::ALL);
    let attribute = Attribute {
        fs: AccessFs::EXECUTE,
        net: AccessNet::CONNECT_TCP,
        scope: Scope::NONE,
    };
    let ruleset = tables.create_ruleset(&attribute.to_bytes(), 0).unwrap();
    tables
        .add_port_rule(ruleset, 9, AccessNet::CONNECT_TCP, 0)
        .unwrap();
    let row = tables.open_ruleset(ruleset).unwrap();
    assert_eq!((row.attribute, row.rules.len()), (attribute, 1));
    let main = tables.thread(Thread::MAIN).unwrap();
    assert_eq!(
        (main.youngest, main.admin, main.no_new_privs),
        (Some(Layer::new(1)), true, false)
    );
}

#[test]
fn cells_go_out_and_come_back() {
    let tables = layered();
    let again = Tables::from_cells(tables.clone().into_cells());
    assert_eq!(again, tables);
    assert!(again.is_sound());
}

#[test]
fn a_new_layer_is_the_youngest_of_its_thread() {
    let mut tables = layered();
    let other = tables.clone_thread(Thread::MAIN).unwrap();
    let kept = tables
        .ruleset()
        .handle_fs(AccessFs::REFER)
        .create()
        .unwrap();
    let kept = kept.keep();
    for (number, thread) in [(2, other), (3, Thread::MAIN), (4, other)] {
        let layer = tables.restrict(thread, kept, 0).unwrap();
        assert_eq!(layer, Layer::new(number));
        assert_eq!(tables.thread(thread).unwrap().youngest, Some(layer));
    }
}

#[test]
fn layers_come_back_when_their_threads_end() {
    let mut tables = layered();
    let alone = tables.clone();
    let other = tables.clone_thread(Thread::MAIN).unwrap();
    let holders = |tables: &Tables, layer| tables.layer(Layer::new(layer)).map(|row| row.holders);
    assert_eq!(
        [0, 1].map(|layer| holders(&tables, layer)),
        [Some(1), Some(2)]
    );
    let attribute = Attribute {
        fs: AccessFs::REFER,
        ..Attribute::default()
    };
    let kept = tables.create_ruleset(&attribute.to_bytes(), 0).unwrap();
    assert_eq!(tables.restrict(other, kept, 0), Ok(Layer::new(2)));
    assert_eq!(tables.restrict(Thread::MAIN, kept, 0), Ok(Layer::new(3)));
    assert_eq!(tables.end(other), Ok(()));
    assert_eq!(holders(&tables, 2), None);
    // The lowest free record, below its parent's.
    assert_eq!(tables.restrict(Thread::MAIN, kept, 0), Ok(Layer::new(2)));
    let domain = tables.domain(Thread::MAIN).map(|row| row.layer.number());
    assert_eq!(domain.collect::<Vec<u64>>(), [2, 3, 1, 0]);
    assert_eq!(tables.end(Thread::MAIN), Err(Errno::EBUSY));
    assert_eq!(tables.end(other), Err(Errno::ESRCH));

    let mut again = alone.clone();
    let other = again.clone_thread(Thread::MAIN).unwrap();
    assert_eq!(again.end(other), Ok(()));
    assert_eq!(again, alone);
}

#[test]
fn threads_of_the_program_ask_at_once() {
    let tables = &layered();
    let rights = [AccessFs::READ_DIR, AccessFs::MAKE_DIR];
    std::thread::scope(|scope| {
        for right in rights.repeat(2) {
            scope.spawn(move || {
                let granted = right == AccessFs::READ_DIR;
                for _ in 0..100 {
                    let answer = tables.access(Thread::MAIN, Entry::ROOT, right);
                    assert_eq!(answer.is_ok(), granted, "{right}: {answer:?}");
                    assert_eq!(tables.layer_rules(Layer::new(0)).unwrap().len(), 2);
                }
            });
        }
    });
}

/// Threads 1 and 2 have a layer with a scope and a thread each on top of it: 3 on 1, 4 on 2. Thread 0 has none.
#[test]
fn a_scope_keeps_a_thread_within_its_layer() {
    const NONE: [u64; 0] = [];
    for (scope, other) in [
        (Scope::SIGNAL, Scope::ABSTRACT_UNIX_SOCKET),
        (Scope::ABSTRACT_UNIX_SOCKET, Scope::SIGNAL),
    ] {
        let mut tables = Tables::new(Level::LATEST).unwrap();
        tables.set_no_new_privs(Thread::MAIN).unwrap();
        let scoped = tables.ruleset().scope(scope).create().unwrap().keep();
        for parent in [0, 0, 1, 2] {
            let thread = tables.clone_thread(Thread::new(parent)).unwrap();
            tables.restrict(thread, scoped, 0).unwrap();
        }
        let denied = |scope: Scope, thread: u64| {
            let reach = match scope {
                Scope::SIGNAL => Tables::signal,
                _ => Tables::abstract_socket,
            };
            let answer = |target: &u64| reach(&tables, thread.into(), (*target).into());
            let denied = (0..5).filter(|target| answer(target) == Err(Errno::EPERM));
            denied.collect::<Vec<u64>>()
        };
        assert_eq!(denied(scope, 0), NONE);
        assert_eq!(denied(scope, 1), [0, 2, 4]);
        assert_eq!(denied(scope, 2), [0, 1, 3]);
        assert_eq!(denied(scope, 3), [0, 1, 2, 4]);
        assert_eq!(denied(scope, 4), [0, 1, 2, 3]);
        assert!((0..5).all(|thread| denied(other, thread) == NONE));
    }
}

#[test]
fn an_open_ruleset_is_closed_when_it_goes() {
    let mut tables = Tables::new(Level::LATEST).unwrap();
    let open = tables
        .ruleset()
        .handle_fs(AccessFs::READ_FILE)
        .create()
        .unwrap();
    assert_eq!(
        open.add_path(Entry::new(9), AccessFs::READ_FILE).err(),
        Some(Errno::EBADF)
    );
    assert_eq!(tables.open_rulesets().count(), 0);
    let kept = tables
        .ruleset()
        .handle_fs(AccessFs::READ_FILE)
        .create()
        .unwrap()
        .keep();
    assert_eq!(
        tables
            .open_rulesets()
            .map(|row| row.ruleset)
            .collect::<Vec<_>>(),
        [kept]
    );
}

#[test]
fn the_entry_that_bears_the_name_is_replaced() {
    let mut tables = Tables::new(Level::LATEST).unwrap();
    let main = Thread::MAIN;
    let mut create = |kind, name| tables.create(main, Entry::ROOT, kind, name).unwrap();
    let [folder, file, other] = [
        (Kind::DIRECTORY, "folder"),
        (Kind::REGULAR, "file"),
        (Kind::REGULAR, "other"),
    ]
    .map(|(kind, name)| create(kind, name));
    let before = tables.clone();
    let refused = |errno| Err(Refusal::Other(errno));
    // Its own name: the same object.
    assert_eq!(tables.rename(main, file, Entry::ROOT, "file"), Ok(()));
    assert_eq!(tables, before);
    assert_eq!(
        tables.rename(main, file, Entry::ROOT, "folder"),
        refused(Errno::EISDIR)
    );
    assert_eq!(
        tables.rename(main, folder, Entry::ROOT, "file"),
        refused(Errno::ENOTDIR)
    );
    assert_eq!(tables, before);
    assert_eq!(tables.rename(main, file, Entry::ROOT, "other"), Ok(()));
    assert_eq!(tables.lookup("/other"), Ok(file));
    assert_eq!(tables.lookup("/file"), Err(Errno::ENOENT));
    assert_eq!((tables.entry(other), tables.name(other)), (None, &b""[..]));
    assert_eq!(tables.rename(main, file, folder, [0xff]), Ok(()));
    assert_eq!(tables.path(file).unwrap(), b"/folder/\xff");
}

#[test]
fn names_have_their_bytes_and_their_order() {
    let mut tables = Tables::new(Level::LATEST).unwrap();
    let main = Thread::MAIN;
    let folder = tables.create(main, Entry::ROOT, Kind::DIRECTORY, "folder");
    let folder = folder.unwrap();
    let longest = [b'n'; 48];
    assert!(tables.link(main, folder, folder, longest).is_err());
    let file = tables.create(main, folder, Kind::REGULAR, longest).unwrap();
    assert_eq!(tables.name(file), longest);
    let before = tables.clone();
    for (name, errno) in [
        (&[b'/'; 49][..], Errno::ENAMETOOLONG),
        (b"", Errno::EINVAL),
        (b".", Errno::EINVAL),
        (b"..", Errno::EINVAL),
        (b"a/b", Errno::EINVAL),
        (b"a\0", Errno::EINVAL),
        (&longest, Errno::EEXIST),
    ] {
        // An unknown kind, a directory as source: both come later.
        let answer = tables.create(main, folder, Kind::new(8), name);
        assert_eq!(answer, Err(errno.into()), "{name:?}");
        let answer = tables.link(main, folder, folder, name);
        assert_eq!(answer, Err(errno.into()), "{name:?}");
    }
    for name in ["...", " ", "~", "\u{e9}"] {
        assert!(tables
            .clone()
            .create(main, folder, Kind::FIFO, name)
            .is_ok());
    }
    assert_eq!(tables, before);
}

#[test]
fn paths_find_their_entries() {
    let mut tables = Tables::new(Level::LATEST).unwrap();
    let main = Thread::MAIN;
    let mut directory = Entry::ROOT;
    for depth in 0..90 {
        directory = tables
            .create(main, directory, Kind::DIRECTORY, [b'a' + depth % 26; 48])
            .unwrap();
        let path = tables.path(directory).unwrap();
        assert_eq!(path.len(), 49 * (usize::from(depth) + 1));
        assert_eq!(components(&path).count(), usize::from(depth) + 1);
        let found = if path.len() <= 4095 {
            Ok(directory)
        } else {
            Err(Errno::ENAMETOOLONG)
        };
        assert_eq!(tables.lookup(&path), found);
    }
    let slashes = |count| vec![b'/'; count];
    assert_eq!(tables.lookup(slashes(4095)), Ok(Entry::ROOT));
    assert_eq!(tables.lookup(slashes(4096)), Err(Errno::ENAMETOOLONG));
    assert_eq!(
        tables.lookup([b"/".as_slice(), &[b'n'; 49]].concat()),
        Err(Errno::ENAMETOOLONG)
    );
    assert_eq!(tables.lookup(""), Err(Errno::ENOENT));
    assert_eq!(tables.lookup("a"), Err(Errno::EINVAL));
    assert_eq!(tables.lookup("/\0"), Err(Errno::EINVAL));
}

#[test]
fn a_component_is_a_part_of_its_path() {
    let path = "/cal/./table//".to_owned();
    for place in 0..20 {
        let part = component(&path, place);
        let expected: &[u8] = match place {
            0..=1 => b"cal",
            2..=5 => b".",
            6..=7 => b"table",
            _ => b"",
        };
        assert_eq!(part, expected, "{place}");
        if !part.is_empty() {
            assert!(path.as_bytes().as_ptr_range().contains(&part.as_ptr()));
        }
    }
    assert_eq!(component("", 0), b"");
    assert_eq!(component("a", usize::MAX), b"");
    assert_eq!(components(b"///").count(), 0);
}

/// Two directories, a file in each, and two layers: the older denies more.
fn two_layers() -> (Tables, [Entry; 4]) {
    let mut tables = Tables::new(Level::LATEST).unwrap();
    let mut create = |directory, kind, name| {
        let answer = tables.create(Thread::MAIN, directory, kind, name);
        answer.unwrap()
    };
    let [one, two] = ["one", "two"].map(|name| create(Entry::ROOT, Kind::DIRECTORY, name));
    let first = create(one, Kind::REGULAR, "first");
    let second = create(two, Kind::REGULAR, "second");
    tables.set_no_new_privs(Thread::MAIN).unwrap();
    let handled = AccessFs::WRITE_FILE | AccessFs::REMOVE_FILE | AccessFs::MAKE_REG;
    for (denied, net) in [
        (handled, AccessNet::ALL),
        (AccessFs::MAKE_REG, AccessNet::BIND_TCP),
    ] {
        let open = tables.ruleset().handle_fs(denied).handle_net(net).create();
        open.unwrap().restrict(Thread::MAIN).unwrap();
    }
    (tables, [one, two, first, second])
}

#[test]
fn a_refusal_names_the_youngest_layer_that_denies() {
    let (mut tables, [one, two, first, second]) = two_layers();
    let main = Thread::MAIN;
    let [older, younger] = [0, 1].map(Layer::new);
    let denied = |layer, rights| Err(Refusal::Denied { layer, rights });
    let access = |rights| tables.access(main, one, rights);
    assert_eq!(
        access(AccessFs::ALL),
        denied(younger, AccessFs::MAKE_REG | AccessFs::REFER)
    );
    assert_eq!(access(AccessFs::REFER), denied(younger, AccessFs::REFER));
    assert_eq!(
        access(AccessFs::WRITE_FILE | AccessFs::REMOVE_FILE),
        denied(older, AccessFs::WRITE_FILE | AccessFs::REMOVE_FILE)
    );
    let port = |rights| tables.port(main, 80, rights);
    let denied_port = |layer, rights| Err(Refusal::Denied { layer, rights });
    assert_eq!(
        port(AccessNet::ALL),
        denied_port(younger, AccessNet::BIND_TCP)
    );
    let connect = AccessNet::CONNECT_TCP;
    assert_eq!(port(connect), denied_port(older, connect));
    let (make, remove) = (AccessFs::MAKE_REG, AccessFs::REMOVE_FILE);
    assert_eq!(
        tables.create(main, one, Kind::REGULAR, "new").map(drop),
        denied(younger, make)
    );
    assert_eq!(tables.remove(main, first), denied(older, remove));
    assert_eq!(
        tables.link(main, first, two, "new").map(drop),
        denied(younger, make)
    );
    assert_eq!(
        tables.rename(main, first, two, "second"),
        denied(younger, make)
    );
    assert_eq!(
        tables.exchange(main, first, two, second),
        denied(younger, make)
    );
    let inner = Refusal::<AccessFs>::Crossing {
        layer: younger,
        rights: AccessFs::REFER,
    };
    let fifo = tables.create(main, one, Kind::FIFO, "fifo").unwrap();
    assert_eq!(tables.link(main, fifo, two, "fifo").map(drop), Err(inner));
}

#[test]
fn refusals_read_as_words() {
    let layer = Layer::new(3);
    let rights = AccessFs::WRITE_FILE | AccessFs::REFER;
    let denied = Refusal::Denied { layer, rights };
    assert_eq!(
        denied.to_string(),
        "EACCES: layer 3 denies write_file+refer"
    );
    let rights = AccessNet::ALL;
    assert_eq!(
        Refusal::Denied { layer, rights }.to_string(),
        "EACCES: layer 3 denies bind_tcp+connect_tcp"
    );
    let rights = AccessFs::TRUNCATE;
    let crossing = Refusal::Crossing { layer, rights };
    assert_eq!(
        crossing.to_string(),
        "EXDEV: layer 3 refuses the move for truncate"
    );
    assert_eq!(crossing.errno(), Errno::EXDEV);
    let other = Refusal::<AccessFs>::from(Errno::ENOENT);
    assert_eq!(
        (other.to_string(), Errno::from(other)),
        ("ENOENT".to_owned(), Errno::ENOENT)
    );
}

#[test]
fn an_access_says_how_many_entries_were_read() {
    let (tables, [one, _, first, _]) = two_layers();
    let main = Thread::MAIN;
    let read = |entry, rights| tables.judge(main, entry, rights).entries_read;
    assert_eq!(read(first, AccessFs::EXECUTE), 0);
    assert_eq!(read(one, AccessFs::READ_DIR), 0);
    assert_eq!(read(first, AccessFs::WRITE_FILE), 3);
    assert_eq!(read(one, AccessFs::REFER), 2);
    assert_eq!(read(Entry::ROOT, AccessFs::REFER), 1);
    for (thread, entry, rights, errno) in [
        (Thread::new(7), first, AccessFs::WRITE_FILE, Errno::ESRCH),
        (main, Entry::new(9), AccessFs::WRITE_FILE, Errno::ENOENT),
        (main, first, AccessFs::NONE, Errno::EINVAL),
    ] {
        let judged = Judged {
            answer: Err(Refusal::Other(errno)),
            entries_read: 0,
        };
        assert_eq!(tables.judge(thread, entry, rights), judged);
    }
    let damaged = Tables::from_cells(Cells::zeroed());
    let judged = damaged.judge(main, Entry::ROOT, AccessFs::READ_DIR);
    assert_eq!(judged.answer, Err(Refusal::Other(Errno::EIO)));
    assert_eq!(judged.entries_read, 0);
}
