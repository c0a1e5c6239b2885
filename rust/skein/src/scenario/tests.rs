//! Tests of the reader.
use super::report::ReportWords;
use super::*;
use skeinrabbit::{
    Attribute, Entry, Errno, Kind, Layer, PortRights, QueuePart, Rights, Scopes, Slot, SlotState,
    Table, Thread,
};

/// The only statement of a line that reads well.
fn statement(line: &str) -> Statement {
    let mut scenario = parse(line.as_bytes()).expect(line);
    assert_eq!(scenario.statements.len(), 1, "{line}");
    scenario.statements.remove(0)
}

/// What is wrong with a text, line by line.
fn bad(text: &str) -> Vec<(usize, String, String)> {
    let lines = parse(text.as_bytes()).err().unwrap_or_default();
    let of = |line: BadLine| (line.line, line.bad.found, line.bad.expected);
    lines.into_iter().map(of).collect()
}

fn number(number: u64) -> Operand {
    Operand::Number(number)
}

/// An answer of which nothing else is said.
fn plain(answer: ExpectedAnswer) -> Expected {
    Expected {
        answer,
        report: ReportWords::default(),
        bytes: None,
    }
}

fn name(name: &str) -> Operand {
    Operand::Name(name.to_owned())
}

fn text(word: &str) -> Text {
    Text::parse(word).unwrap()
}

fn path(word: &str) -> Operand {
    Operand::Path(text(word))
}

#[test]
fn blanks_and_comments_are_skipped() {
    let text = "# all\n\n \t # this\r\n\tclone\t main  # that\r\n";
    let scenario = parse(text.as_bytes()).unwrap();
    let [only] = scenario.statements.as_slice() else {
        panic!("{scenario:?}");
    };
    assert_eq!(
        (only.line, only.text.as_str(), only.name),
        (4, "clone main", "clone")
    );
}

#[test]
fn a_scenario_without_a_call_is_bad_input() {
    for text in ["", "\n", "\r\n", "# only\n\n  \t# comments"] {
        let none = (
            1,
            "no call".to_owned(),
            "at least one line with a call".to_owned(),
        );
        assert_eq!(bad(text), [none], "{text:?}");
    }
    assert_eq!(bad("walk").len(), 1, "a bad line is reported alone");
}

#[test]
fn a_heading_is_the_comment_right_above() {
    let text = "# far\n\n# near\n# and more\nclone main\nclone main";
    let scenario = parse(text.as_bytes()).unwrap();
    assert_eq!(scenario.statements[0].heading, ["near", "and more"]);
    assert!(scenario.statements[1].heading.is_empty());
}

#[test]
fn names_and_answers_are_taken_off() {
    let read = statement("create main root regular page -> page.1 => new 0x5");
    assert_eq!(read.text, "create main root regular page");
    assert_eq!(read.binds, Some((Space::Entry, "page.1".to_owned())));
    assert_eq!(read.expected, Some(plain(ExpectedAnswer::New(5))));
    let thread = name("main");
    let place = Place::In {
        directory: name("root"),
        name: text("page"),
    };
    let kind = Kind::REGULAR;
    let call = TreeCall::Create { place, kind };
    assert_eq!(read.call, Call::Tree { thread, call });
}

#[test]
fn every_form_of_answer_is_read() {
    let expected = |answer: &str| {
        let read = statement(&format!("clone main => {answer}"));
        let Expected { answer, report, .. } = read.expected.unwrap();
        assert!(report.is_empty());
        answer
    };
    assert_eq!(expected("0"), ExpectedAnswer::Number(0));
    assert_eq!(expected("0x10"), ExpectedAnswer::Number(16));
    assert_eq!(expected("new 3"), ExpectedAnswer::New(3));
    assert_eq!(expected("new"), ExpectedAnswer::Made);
    assert_eq!(expected("ok"), ExpectedAnswer::Success);
    assert_eq!(expected("any"), ExpectedAnswer::Any);
    assert_eq!(expected("EACCES"), ExpectedAnswer::Error(Errno::EACCES));
    assert_eq!(expected("-13"), ExpectedAnswer::Error(Errno::EACCES));
}

#[test]
fn answers_meet_what_is_expected() {
    let met = |expected: &str, answer| {
        let words: Vec<&str> = expected.split(' ').collect();
        let expected = Expected::parse(&words, None).unwrap();
        expected.is_met_by(answer, None)
    };
    assert!(met("0", Answer::Done) && met("5", Answer::New(5)) && met("new 5", Answer::New(5)));
    assert!(met("EIO", Answer::Refused(Errno::EIO)) && met("-5", Answer::Refused(Errno::EIO)));
    assert!(!met("new 0", Answer::Done) && !met("5", Answer::Refused(Errno::EIO)));
    assert!(!met("EIO", Answer::New(5)) && !met("1", Answer::Done) && !met("4", Answer::New(5)));
    assert!(!met("18446744073709551611", Answer::Refused(Errno::EIO)));
    for answer in [Answer::Done, Answer::New(0), Answer::New(5)] {
        assert!(met("ok", answer) && met("any", answer), "{answer}");
        assert_eq!(met("new", answer), answer != Answer::Done, "{answer}");
    }
    let refused = Answer::Refused(Errno::EIO);
    assert!(met("any", refused) && !met("ok", refused) && !met("new", refused));
}

#[test]
fn a_line_may_name_the_layer_and_the_rights() {
    let met = |line: &str, layer: Option<u64>, rights| {
        let report = Report {
            layer: layer.map(Layer::new),
            rights,
            entries_read: None,
            part: None,
            slot: None,
            policy: None,
        };
        let answer = Answer::Refused(Errno::EACCES);
        statement(line).allows(answer, Some(report))
    };
    let both = Mask::Files(Rights::READ_FILE | Rights::WRITE_FILE);
    let none = Mask::Files(Rights::NONE);
    let line = "access main root 6 => EACCES rights=read_file+write_file layer=0x2";
    assert!(met(line, Some(2), both) && met("access main root 6 => EACCES", Some(2), both));
    assert!(!met(line, Some(1), both) && !met(line, None, both) && !met(line, Some(2), none));
    let line = "remove main root => -13 layer=none";
    assert!(met(line, None, none) && met(line, None, both) && !met(line, Some(0), none));
    let line = "remove main root => EACCES rights=none";
    assert!(met(line, None, none) && !met(line, None, both));
    assert!(!met("remove main root => EBUSY layer=none", None, none));
    let line = "port main 80 3 => EACCES layer=0 rights=connect_tcp";
    assert!(met(line, Some(0), Mask::Ports(PortRights::CONNECT_TCP)));
    assert!(!met(line, Some(0), Mask::Files(Rights::WRITE_FILE)));
    let read = statement("link main 1 root x => new 0x5 rights=0 layer=none").expected;
    assert_eq!(read.unwrap().to_string(), "new 5 layer=none rights=none");
    let read = statement("create main root 1 x => new layer=none").expected;
    assert_eq!(read.unwrap().to_string(), "new layer=none");
}

#[test]
fn a_line_may_name_how_many_entries_are_read() {
    let met = |line: &str, count| {
        let report = Report {
            layer: None,
            rights: Mask::Files(Rights::NONE),
            entries_read: Some(count),
            part: None,
            slot: None,
            policy: None,
        };
        statement(line).allows(Answer::Done, Some(report))
    };
    let line = "access main root 4 => 0 entries_read=2 layer=none";
    assert!(met(line, 2) && !met(line, 1) && !met(line, 0));
    assert!(met("access main root 4 => 0", 9));
    let read = statement(line).expected.unwrap();
    assert_eq!(read.to_string(), "0 layer=none entries_read=2");
}

#[test]
fn words_about_a_report_that_are_no_such_words_are_bad_input() {
    for (line, word) in [
        ("access main root 6 => EACCES layer", "layer"),
        ("access main root 6 => EACCES layer=x", "x"),
        ("access main root 6 => EACCES layer=", ""),
        ("access main root 6 => EACCES rights=bind_tcp", "bind_tcp"),
        ("port main 80 3 => EACCES rights=read_file", "read_file"),
        ("access main root 6 => EACCES layer=0 layer=0", "layer=0"),
        ("access main root 6 => EACCES more", "more"),
        ("access main root 6 => EACCES entries=1", "entries=1"),
        ("access main root 6 => EACCES entries_read=x", "x"),
        ("port main 80 3 => EACCES entries_read=1", "entries_read=1"),
        ("remove main 1 => 0 entries_read=0", "entries_read=0"),
        ("clone main => new 1 layer=0", "layer=0"),
        ("add_path_rule 0 root 4 => 0 rights=4", "rights=4"),
        ("clone main => new 1 more", "more"),
    ] {
        let bad = bad(line);
        assert_eq!(bad.len(), 1, "{line}");
        assert_eq!(bad[0].1, format!("`{word}`"), "{line}");
    }
    let any = bad("access main root 6 => any layer=0");
    assert_eq!(any[0].2, "`any` alone");
}

#[test]
fn a_line_that_expects_nothing_allows_any_success() {
    let plain = statement("clone main");
    assert_eq!(plain.expected, None);
    assert!(plain.allows(Answer::Done, None) && plain.allows(Answer::New(9), None));
    for errno in Errno::ALL {
        assert!(!plain.allows(Answer::Refused(*errno), None), "{errno}");
    }
    let names_an_answer = |answer: &str| {
        let line = format!("clone main => {answer}");
        statement(&line).names_an_answer()
    };
    assert!(!plain.names_an_answer() && !names_an_answer("any"));
    for answer in ["ok", "new", "new 1", "0", "EIO"] {
        assert!(names_an_answer(answer), "{answer}");
    }
}

#[test]
fn rulesets_are_given_by_masks_or_bytes() {
    let bytes = |line: &str| match statement(line).call {
        Call::Ruleset(RulesetCall::Create { bytes, flags }) => (bytes, flags),
        call => panic!("{call:?}"),
    };
    let attribute = Attribute {
        fs: Rights::READ_FILE | Rights::REFER,
        net: PortRights::BIND_TCP,
        scope: Scopes::ALL,
    };
    let masks = RulesetBytes::Masks(Masks {
        attribute,
        size: Some(30),
    });
    let line = "create_ruleset flags=0x1 size=30 scope=3 net=Bind_TCP fs=read_file+REFER";
    assert_eq!(bytes(line), (masks, 1));
    assert_eq!(bytes("create_ruleset hex="), (RulesetBytes::Hex(vec![]), 0));
    assert_eq!(
        bytes("create_ruleset hex=04fF"),
        (RulesetBytes::Hex(vec![4, 255]), 0)
    );
    assert_eq!(
        bytes("create_ruleset"),
        (RulesetBytes::Masks(Masks::default()), 0)
    );
}

#[test]
fn arguments_may_be_left_out() {
    let flags = |line: &str| match statement(line).call {
        Call::Ruleset(RulesetCall::Restrict { flags, .. }) => flags,
        call => panic!("{call:?}"),
    };
    assert_eq!((flags("restrict 0 0"), flags("restrict 0 0 7")), (0, 7));
}

#[test]
fn a_place_is_a_path_or_a_directory_and_a_name() {
    let place = |line: &str| match statement(line).call {
        Call::Tree { call, .. } => match call {
            TreeCall::Create { place, .. }
            | TreeCall::Link { place, .. }
            | TreeCall::Rename { place, .. } => place,
            call => panic!("{call:?}"),
        },
        call => panic!("{call:?}"),
    };
    let inside = |directory, name: &str| Place::In {
        directory,
        name: text(name),
    };
    for (line, expected) in [
        ("create 0 /cal/table 1", Place::Path(text("/cal/table"))),
        ("create 0 /cal 1 table", inside(path("/cal"), "table")),
        ("create 0 4 1 5", inside(number(4), "5")),
        ("link 0 /a /b", Place::Path(text("/b"))),
        ("link 0 root /b /c", inside(path("/b"), "/c")),
        ("rename 0 1 root \"\"", inside(name("root"), "\"\"")),
        ("rename 0 1 \\x2fa", Place::Path(text("/a"))),
    ] {
        assert_eq!(place(line), expected, "{line}");
    }
    let other = |line: &str| match statement(line).call {
        Call::Tree {
            call: TreeCall::Exchange { other, .. },
            ..
        } => other,
        call => panic!("{call:?}"),
    };
    assert_eq!(other("exchange 0 1 /b"), Other::Path(text("/b")));
    let (directory, entry) = (number(2), path("/b"));
    assert_eq!(other("exchange 0 1 2 /b"), Other::In { directory, entry });
    let call = Call::Lookup { path: text("a") };
    assert_eq!(statement("lookup a => EINVAL").call, call);
    let place = 3;
    let path = text("/a");
    assert_eq!(
        statement("component /a 3").call,
        Call::Component { path, place }
    );
}

#[test]
fn a_line_may_name_the_part_of_a_path() {
    let met = |line: &str, part| {
        let report = Report {
            layer: None,
            rights: Mask::Files(Rights::NONE),
            entries_read: None,
            part: Some(part),
            slot: None,
            policy: None,
        };
        statement(line).allows(Answer::Done, Some(report))
    };
    let line = "component /cal/table 2 => 0 start=5 length=0x5";
    assert!(met(line, (5, 5)) && !met(line, (5, 4)) && !met(line, (4, 5)));
    assert!(met("component /cal/table 2 => 0", (1, 3)));
    let read = statement(line).expected.unwrap();
    assert_eq!(read.to_string(), "0 start=5 length=5");
}

#[test]
fn what_is_found_is_a_number() {
    let line = statement("lookup / -> top => 0");
    assert_eq!(line.binds, Some((Space::Entry, "top".to_owned())));
    assert!(line.allows(Answer::Found(0), None) && !line.allows(Answer::Found(1), None));
    let made = statement("lookup / => new");
    assert!(!made.allows(Answer::Found(0), None));
    assert!(statement("lookup / => ok").allows(Answer::Found(7), None));
}

#[test]
fn slots_and_turns_are_read() {
    let call = QueueCall::Post {
        slot: Slot::new(9),
        thread: name("main"),
        entry: path("/docs"),
        rights: Rights::READ_DIR,
    };
    let line = "post 9 main /docs read_dir => EINVAL";
    assert_eq!(statement(line).call, Call::Queue(call));
    assert_eq!(statement("turn").call, Call::Queue(QueueCall::Turn));
    let slot = Slot::new(7);
    let call = Call::Queue(QueueCall::Slot { slot });
    assert_eq!(statement("slot 7").call, call);
    assert_eq!(statement("fresh_queue").call, Call::Queue(QueueCall::Fresh));
    let poke = Call::Poke {
        poked: Poked::Queue(QueuePart::Cursor),
        writes: vec![(0, 8)],
    };
    assert_eq!(statement("poke cursor 0 8").call, poke);
}

#[test]
fn logs_are_read() {
    let read = |line: &str| match statement(line).call {
        Call::Log(call) => call,
        other => panic!("{other:?}"),
    };
    let (room, used) = (100, 0);
    assert_eq!(read("log 100"), LogCall::Start { room, used });
    let used = u64::MAX;
    assert_eq!(
        read("log 100 0xffffffffffffffff"),
        LogCall::Start { room, used }
    );
    assert_eq!(read("log none"), LogCall::End);
    assert_eq!(read("cut 0x10 => 0"), LogCall::Cut { length: 16 });
    assert_eq!(read("written => 7"), LogCall::Read);
    assert_eq!(read("restart"), LogCall::Restart);
    assert_eq!(read("replay => EBADMSG"), LogCall::Replay { bytes: None });
    let bytes = Some(text("\\x00a"));
    assert_eq!(read("replay bytes=\\x00a"), LogCall::Replay { bytes });
    assert!(statement("written => 1 bytes=a")
        .expected
        .is_some_and(|read| read.bytes.is_some()));
    let line = statement("replay => 3");
    assert!(line.allows(Answer::Count(3), None) && !line.allows(Answer::Count(0), None));
    assert!(!statement("replay => new").allows(Answer::Count(0), None));
    for line in [
        "log",
        "log 1048577",
        "log 100 used",
        "log 100 0 0",
        "log none 0",
        "cut",
        "written 0",
        "restart now",
        "replay 7",
        "replay bytes=",
        "replay bytes=\\x0",
        "replay bytes=a b",
        "replay -> entry",
        "replay => 0 layer=none",
        "replay => 0 bytes=a",
        "written => 1 layer=none",
    ] {
        assert!(parse(line.as_bytes()).is_err(), "{line}");
    }
}

#[test]
fn requests_are_read() {
    let ask = |call| Call::Ask {
        thread: name("main"),
        call,
    };
    let read = |line: &str| statement(line).call;
    let (entry, rights) = (path("/docs"), Rights::READ_DIR);
    let call = ask(AskedCall::Access { entry, rights });
    assert_eq!(read("ask access main /docs read_dir"), call);
    let rights = PortRights::BIND_TCP;
    let call = ask(AskedCall::Port { port: 80, rights });
    assert_eq!(read("ask port main 80 bind_tcp"), call);
    let place = || Place::Path(Text::parse("/b").unwrap());
    let source = || path("/a");
    let call = ask(AskedCall::Link {
        source: source(),
        place: place(),
    });
    assert_eq!(read("ask link main /a /b"), call);
    let call = ask(AskedCall::Rename {
        source: source(),
        place: place(),
    });
    assert_eq!(read("repeat 2 ask rename main /a /b"), call);
    let other = Other::In {
        directory: name("root"),
        entry: Operand::Number(1),
    };
    let source = source();
    let call = ask(AskedCall::Exchange { source, other });
    let line = statement("ask exchange main /a root 1 => EXDEV layer=0 rights=refer");
    assert_eq!((line.call, line.name), (call, "ask"));
    let line = statement("ask port main 80 1 => EACCES rights=bind_tcp");
    assert!(line.names_an_answer() && line.binds.is_none());
}

#[test]
fn a_line_may_name_what_a_turn_answers() {
    let slot = |answer| SlotReport {
        slot: Slot::new(3),
        thread: Thread::MAIN,
        entry: Entry::ROOT,
        rights: Rights::READ_DIR,
        state: SlotState::Answered,
        answer,
    };
    let met = |line: &str, answer| {
        let report = Report {
            layer: None,
            rights: Mask::Files(Rights::NONE),
            entries_read: Some(2),
            part: None,
            slot: Some(slot(answer)),
            policy: None,
        };
        statement(line).allows(Answer::Served(Slot::new(3)), Some(report))
    };
    let line = "turn => 3 answer=ESRCH layer=none entries_read=2";
    assert!(met(line, Err(Errno::ESRCH)) && !met(line, Ok(())));
    assert!(met("turn => 3 answer=0", Ok(())) && !met("turn => 3 answer=0", Err(Errno::EIO)));
    assert!(met("turn => 3", Ok(())) && met("turn => ok answer=-5", Err(Errno::EIO)));
    assert!(
        !met("turn => 2", Ok(())) && !met("turn => idle", Ok(())) && !met("turn => new 3", Ok(()))
    );
    let read = statement("turn => 3 entries_read=2 answer=-3").expected;
    assert_eq!(read.unwrap().to_string(), "3 answer=ESRCH entries_read=2");
    let idle = statement("turn => idle");
    assert!(idle.allows(Answer::Idle, None) && !idle.allows(Answer::Done, None));
    assert!(!statement("turn => 8").allows(Answer::Idle, None));
    assert!(!statement("turn => idle answer=0").allows(Answer::Idle, None));
    assert!(statement("turn").allows(Answer::Idle, None));
}

#[test]
fn a_line_may_name_the_state_of_a_slot() {
    let met = |line: &str, state| statement(line).allows(Answer::State(state), None);
    for (word, state) in [
        ("empty", SlotState::Empty),
        ("waiting", SlotState::Waiting),
        ("answered", SlotState::Answered),
        ("3", SlotState::Unknown(3)),
    ] {
        assert!(met(&format!("slot 0 => {word}"), state), "{word}");
        assert!(!met("slot 0 => 0", state) && !met("slot 0 => 4", state));
        assert!(met("slot 0", state) && met("slot 0 => ok", state));
    }
    assert!(!met("slot 0 => waiting", SlotState::Empty));
    assert_eq!(
        statement("slot 0 => waiting").expected.unwrap().to_string(),
        "waiting"
    );
}

#[test]
fn names_are_poked_in_their_rows() {
    let call = Call::PokeName {
        first: 1,
        count: 1023,
        name: text("n\\i"),
    };
    assert_eq!(statement("poke_name 1 n\\i 1023").call, call);
    for line in [
        "poke_name 1024 n",
        "poke_name 1 n 1024",
        "poke_name 1 n 0",
        "poke_name 18446744073709551615 n 2",
        "poke_name 1 \\*49{n}",
        "poke_name 1 \\*48{n}\\i",
        "poke_name /a n",
        "poke names 50176 0",
        "poke names 0 256",
        "poke names 0 255 2 1 1",
    ] {
        assert_eq!(bad(line).len(), 1, "{line}");
    }
}

#[test]
fn the_admin_mark_is_a_word_or_a_number() {
    for (word, expected) in [("on", true), ("off", false), ("0", false), ("2", true)] {
        let call = ThreadCall::SetAdmin { on: expected };
        let thread = name("main");
        assert_eq!(
            statement(&format!("set_admin main {word}")).call,
            Call::Thread { thread, call }
        );
    }
}

#[test]
fn a_target_is_a_thread() {
    for (call, scope) in [
        ("signal", Scopes::SIGNAL),
        ("abstract_socket", Scopes::ABSTRACT_UNIX_SOCKET),
    ] {
        for (words, thread, target) in [
            ("3 main => EPERM", number(3), name("main")),
            ("main 9", name("main"), number(9)),
        ] {
            let read = statement(&format!("{call} {words}")).call;
            let call = ThreadCall::Reach { scope, target };
            assert_eq!(read, Call::Thread { thread, call });
        }
    }
}

#[test]
fn pokes_stay_in_their_table() {
    let poke = Call::Poke {
        poked: Poked::Table(Table::Threads),
        writes: vec![(31, u64::MAX)],
    };
    assert_eq!(statement("poke threads 31 0xffffffffffffffff").call, poke);
    for line in [
        "poke threads 32 0",
        "poke system 4 0",
        "poke places 0 0",
        "poke pool 0",
        "poke requests 24 0",
        "poke states 8 0",
        "poke answers 32 0",
        "poke cursor 1 0",
    ] {
        assert_eq!(bad(line).len(), 1, "{line}");
    }
}

#[test]
fn a_poke_may_write_a_run() {
    let writes = |line: &str| match statement(line).call {
        Call::Poke { writes, .. } => writes,
        call => panic!("{call:?}"),
    };
    let run = writes("poke threads 3 7 3 4 2");
    assert_eq!(run, [(3, 7), (7, 9), (11, 11)]);
    assert_eq!(writes("poke system 3 5 1 0xffffffffffffffff 9"), [(3, 5)]);
    // As many writes as there are cells, up to the last cell and the last number.
    assert_eq!(writes("poke threads 0 1 32 1 0").len(), 32);
    let last = writes("poke system 0 18446744073709551612 4 1 1").pop();
    assert_eq!(last, Some((3, u64::MAX)));
}

#[test]
fn a_run_stays_in_its_table_and_below_the_last_number() {
    let cell = "a cell of system, below 4";
    for (line, found, expected) in [
        ("poke system 4 0 1 0 0", "cell 4", cell),
        ("poke system 0 0 3 2 0", "cell 4", cell),
        (
            "poke system 1 0 2 0xffffffffffffffff 0",
            "2^64 or more",
            cell,
        ),
        (
            "poke system 1 0 3 0xffffffffffffffff 0",
            "2^64 or more",
            cell,
        ),
        (
            "poke system 0 0xffffffffffffffff 2 1 1",
            "2^64 or more",
            "values below 2^64",
        ),
        (
            "poke system 0 0 3 1 0xffffffffffffffff",
            "2^64 or more",
            "values below 2^64",
        ),
        ("poke system 0 0 0 1 0", "`0`", "a count from 1 to 4"),
        ("poke system 0 0 5 0 0", "`5`", "a count from 1 to 4"),
        (
            "poke system 0 0 0xffffffffffffffff 0 0",
            "`0xffffffffffffffff`",
            "a count from 1 to 4",
        ),
        ("poke system 0 0 two 1 0", "`two`", "a count: a number"),
        ("poke system 0 0 2", "too few words", "[COUNT STEP RISE]`"),
        ("poke system 0 0 2 1", "too few words", "[COUNT STEP RISE]`"),
        ("poke system 0 0 2 1 0 9", "`9`", "no more than `poke"),
    ] {
        let lines = bad(line);
        let [(1, was, wanted)] = lines.as_slice() else {
            panic!("{line}: {lines:?}");
        };
        assert_eq!(was, found, "{line}");
        assert!(wanted.contains(expected), "{line}: {wanted}");
    }
}

#[test]
fn name_spaces_are_apart() {
    let text = "\
create main /x regular -> x
clone main -> x
create_ruleset fs=1 -> main
restrict x main
remove x x";
    assert_eq!(bad(text), []);
    assert_eq!(bad("clone main -> x\nremove x x").len(), 1);
    assert_eq!(bad("restrict root 0").len(), 1);
    assert_eq!(bad("remove main main").len(), 1);
}

#[test]
fn a_call_may_be_repeated() {
    let read = statement("repeat 0x10  clone\tmain => new");
    assert_eq!(read.rounds, Some(16));
    assert_eq!(
        (read.text.as_str(), read.name),
        ("repeat 0x10 clone main", "clone")
    );
    assert_eq!(read.call, statement("clone main").call);
    assert_eq!(read.expected, Some(plain(ExpectedAnswer::Made)));
    assert_eq!(statement("clone main").rounds, None);
    for rounds in [1, 100_000] {
        let line = format!("repeat {rounds} clone main");
        assert_eq!(statement(&line).rounds, Some(rounds));
    }
}

#[test]
fn a_name_beside_repeat_is_one_mistake() {
    let lines = bad("repeat 2 clone main -> x\nclone x");
    let [(1, found, expected)] = lines.as_slice() else {
        panic!("{lines:?}");
    };
    assert_eq!(found, "`->`");
    assert_eq!(expected, "no label for a call that is repeated");
}

/// Lines with what is found in them and a part of what is expected.
const MISTAKES: &[(&str, &str, &str)] = &[
    ("walk main", "`walk`", "a call: fresh, create_ruleset"),
    ("=> 0", "no call", "a call before"),
    ("-> x", "no call", "a call before"),
    ("clone", "too few words", "`clone THREAD`"),
    ("clone main main", "`main`", "no more than `clone THREAD`"),
    ("signal main", "too few words", "`signal THREAD TARGET`"),
    (
        "signal main root",
        "`root`",
        "the thread's number, or a label",
    ),
    (
        "signal main main => 0 layer=none",
        "`layer=none`",
        "the end of the line",
    ),
    (
        "clone other",
        "`other`",
        "the thread's number, or a label that a line above binds",
    ),
    ("clone 5x", "`5x`", "the thread's number, or its label"),
    ("clone main ->", "nothing after `->`", "a label"),
    ("clone main -> 5", "`5`", "a label of letters"),
    ("clone main -> a b", "`b`", "`=>` or the end"),
    (
        "clone main -> main",
        "`main`",
        "a label without a meaning of its own",
    ),
    (
        "access main root 1 -> x",
        "`->`",
        "create_ruleset, apply_policy, clone, create or link, which make something, or lookup",
    ),
    ("clone main =>", "nothing after `=>`", "an answer"),
    ("clone main => new x", "`x`", "a number"),
    ("clone main => new 1 2", "`2`", "the end of the line"),
    ("clone main => ok 1", "`1`", "the end of the line"),
    ("clone main => any 1", "`1`", "the end of the line"),
    ("clone main => 0 -> x", "`->`", "the end of the line"),
    (
        "clone main => EWHAT",
        "`EWHAT`",
        "its name: EPERM, ENOENT, ",
    ),
    ("clone main => eaccess", "`eaccess`", "perhaps `EACCES`"),
    ("acess main root 4", "`acess`", "a call: perhaps `access`"),
    ("CLONE main", "`CLONE`", "a call: perhaps `clone`"),
    ("clone mains", "`mains`", "binds to one: perhaps `main`"),
    (
        "access main root read",
        "`read`",
        "+: execute, write_file, read_file,",
    ),
    (
        "access main root read_file+wirte_file",
        "`wirte_file`",
        "rights at files joined by +: perhaps `write_file`",
    ),
    ("access main root +", "`+`", "rights at files"),
    ("access main root bind_tcp", "`bind_tcp`", "rights at files"),
    ("port main 80 read_file", "`read_file`", "rights at ports"),
    ("port main http bind_tcp", "`http`", "a port: a number"),
    (
        "fresh 18446744073709551616",
        "`18446744073709551616`",
        "below 2^64",
    ),
    (
        "create main root pipe x",
        "`pipe`",
        "a kind: regular, directory",
    ),
    (
        "create main root dirctory x",
        "`dirctory`",
        "a kind: perhaps `directory`",
    ),
    ("create main root fifo", "too few words", "KIND NAME` or"),
    ("link main root", "too few words", "`link THREAD SOURCE"),
    ("rename main 1 2", "too few words", "`rename THREAD SOURCE"),
    ("exchange main 1 2", "too few words", "`exchange THREAD"),
    ("create main /a fifo b c", "`c`", "no more than `create"),
    (
        "create main cal fifo x",
        "`cal`",
        "the entry's number or path",
    ),
    ("lookup", "too few words", "`lookup PATH`"),
    ("lookup /a\\n", "`/a\\n`", "`\\xNN` for a byte"),
    ("component /a", "too few words", "`component PATH PLACE`"),
    ("component /a b", "`b`", "a place: a number"),
    (
        "component /a 0 => 0 layer=none",
        "`layer=none`",
        "start=, length=",
    ),
    ("lookup / => 0 start=0", "`start=0`", "the end of the line"),
    ("poke names 0 256", "value 256", "bytes in names"),
    (
        "poke thread 0 0",
        "`thread`",
        "a table or a part of the queue: perhaps `threads`",
    ),
    (
        "poke places 0 0",
        "`places`",
        "a table or a part of the queue: system, entries, ",
    ),
    ("post 0 main root", "too few words", "`post SLOT THREAD"),
    ("post x main root 4", "`x`", "a slot: a number"),
    ("turn 0", "`0`", "no more than `turn`"),
    ("turn => 8 start=0", "`start=0`", "answer=, layer="),
    ("turn => 0 answer=x", "`x`", "0, an error's negated number"),
    ("post 0 main root 4 => 0 answer=0", "`answer=0`", "the end"),
    ("slot 8", "`8`", "a slot from 0 to 7"),
    ("ask", "no call", "access, port, link, rename or exchange"),
    (
        "ask clone main",
        "`clone`",
        "asked about: access, port, link",
    ),
    ("ask renam main 1 2", "`renam`", "perhaps `rename`"),
    (
        "ask link main 1",
        "too few words",
        "`ask link THREAD SOURCE",
    ),
    (
        "ask access main root 4 5",
        "`5`",
        "no more than `ask access",
    ),
    ("ask link main 1 /a -> b", "`->`", "it only after"),
    (
        "ask access main root 4 => 0 entries_read=0",
        "`entries_read=0`",
        "layer=, rights= or the end",
    ),
    ("slot 0 => waits", "`waits`", "`idle`, a slot's state"),
    ("fresh_queue 6", "`6`", "no more than `fresh_queue`"),
    ("set_admin main yes", "`yes`", "`on`, `off` or a number"),
    ("create_ruleset fs", "``", "rights at files"),
    ("create_ruleset hex", "`hex`", "fs=, net="),
    ("create_ruleset fs=1 fs=1", "`fs=1`", "`fs=` once"),
    (
        "create_ruleset hex=123",
        "`123`",
        "pairs of hexadecimal digits",
    ),
    (
        "create_ruleset hex=0g",
        "`0g`",
        "pairs of hexadecimal digits",
    ),
    ("create_ruleset hex= fs=1", "`hex=` beside", "only one"),
    ("create_ruleset 5", "`5`", "fs=, net="),
    ("clone\u{a0}main", "`clone\\u{a0}main`", "a call"),
    ("repaet 2 clone main", "`repaet`", "perhaps `repeat`"),
    ("repeat", "too few words", "rounds from 1 to 100000"),
    ("repeat => 0", "too few words", "rounds from 1 to 100000"),
    ("repeat 2", "too few words", "a call after `repeat N`"),
    ("repeat 2 walk", "`walk`", "a call: fresh"),
    ("repeat 2 clone", "too few words", "`clone THREAD`"),
    ("repeat clone main", "`clone`", "rounds from 1 to 100000"),
    ("repeat 0 clone main", "`0`", "rounds from 1 to 100000"),
    ("repeat -1 clone main", "`-1`", "rounds from 1 to 100000"),
    (
        "repeat 100001 clone main",
        "`100001`",
        "rounds from 1 to 100000",
    ),
    (
        "repeat 2 repeat 2 clone main",
        "`repeat`",
        "a call after `repeat N`",
    ),
];

#[test]
fn each_mistake_says_what_was_found_and_expected() {
    for (line, found, expected) in MISTAKES {
        let lines = bad(&format!("\n{line} # comment"));
        let [(2, was, wanted)] = lines.as_slice() else {
            panic!("{line}: {lines:?}");
        };
        assert!(was.contains(found), "{line}: {was}");
        assert!(wanted.contains(expected), "{line}: {wanted}");
    }
}

#[test]
fn every_bad_line_is_reported() {
    let lines = bad("walk\nclone main\nrun\n\nclone nobody");
    let places: Vec<usize> = lines.into_iter().map(|(line, ..)| line).collect();
    assert_eq!(places, [1, 3, 5]);
}

#[test]
fn bytes_that_are_not_text_are_bad_input() {
    let lines = parse(b"clone main\nclone \xff\n").unwrap_err();
    assert_eq!(
        (lines[0].line, lines[0].bad.found.as_str()),
        (2, "bytes that are not UTF-8")
    );
}

#[test]
fn long_words_are_cut_in_messages() {
    let long = "x".repeat(10_000);
    for line in [long.clone(), format!("clone main -> {long}\nclone y")] {
        let lines = bad(&line);
        let [(_, found, expected)] = lines.as_slice() else {
            panic!("{lines:?}");
        };
        assert!(found.len() < 100 && expected.len() < 300, "{expected}");
    }
    assert_eq!(bad("\u{1b}[2J")[0].1, "`\\u{1b}[2J`");
}

#[test]
fn of_many_names_only_some_are_looked_at() {
    let mut text = String::new();
    for number in 0..1000 {
        text.push_str(&format!("clone main -> name{number:04}\n"));
    }
    let lines = bad(&format!("{text}clone other"));
    assert!(lines[0].2.ends_with(", name0022, …"), "{}", lines[0].2);
    let lines = bad(&format!("{text}clone nmae0007"));
    assert!(
        lines[0].2.ends_with(": perhaps `name0007`"),
        "{}",
        lines[0].2
    );
}
