//! `skein run`: transcripts, marks and exit codes.
mod support;
use support::{example, json, skein, skein_with, unbroken, Scratch, Value, EXAMPLES};

#[test]
fn the_examples_are_answered_as_they_expect() {
    for name in EXAMPLES {
        let ran = skein(&["run", &example(name)]);
        assert_eq!((ran.code, ran.err.as_str()), (0, ""), "{name}\n{}", ran.out);
        assert!(!ran.out.contains("DIFFERS"), "{name}");
        let last = ran.out.lines().last().unwrap_or_default();
        assert!(
            last.ends_with("expectations, 0 differing"),
            "{name}: {last}"
        );
    }
}

#[test]
fn every_line_of_the_examples_expects_an_answer() {
    for name in EXAMPLES {
        let document = json(&skein(&["run", "--json", &example(name)]).out);
        for call in document.at("calls").list() {
            assert_ne!(
                call.at("expected"),
                &Value::Null,
                "{name} line {}",
                call.at("line").number()
            );
        }
    }
}

#[test]
fn a_transcript_has_each_call_with_its_answer() {
    let text = "\
create main /page regular -> page => new 1

access  main\tpage 0x2 # write
close_ruleset 3 => any
";
    let ran = skein_with(&["run", "-"], text.as_bytes());
    let expected = "\
1  create main /page regular  new 1 -> page  ok
3  access main page 0x2       0
4  close_ruleset 3            EBADF
3 calls, 1 expectation, 0 differing
";
    assert_eq!((ran.code, ran.out.as_str()), (0, expected));
}

#[test]
fn a_line_that_expects_nothing_must_succeed() {
    let text = "\
create_ruleset fs=4 -> rs
restrict main rs
access main root read_file
close_ruleset 3
";
    let ran = skein_with(&["run", "-"], text.as_bytes());
    let expected = "\
1  create_ruleset fs=4         new 0 -> rs
2  restrict main rs            EPERM        DIFFERS: must succeed
       EPERM: the thread has neither no_new_privs nor admin set
3  access main root read_file  0
4  close_ruleset 3             EBADF        DIFFERS: must succeed
       EBADF: not open, not live or not in use
4 calls, 0 expectations, 2 differing: lines 2, 4
";
    assert_eq!((ran.code, ran.out.as_str()), (1, expected));
    let document = json(&skein_with(&["run", "--json", "-"], text.as_bytes()).out);
    assert_eq!(document.at("expectations").number(), 0);
    assert_eq!(document.at("differing").number(), 2);
    for (call, differs) in document
        .at("calls")
        .list()
        .iter()
        .zip([false, true, false, true])
    {
        assert_eq!(call.at("expected"), &Value::Null);
        assert_eq!(call.at("differs"), &Value::Bool(differs));
    }
}

#[test]
fn answers_may_be_left_open() {
    let text = "\
clone main => new
clone main => ok
set_no_new_privs main => ok
set_no_new_privs main => new
clone 9 => any
clone 9 => ok
clone 9 => new
";
    let ran = skein_with(&["run", "-"], text.as_bytes());
    let expected = "\
1  clone main             new 1  ok
2  clone main             new 2  ok
3  set_no_new_privs main  0      ok
4  set_no_new_privs main  0      DIFFERS: expected new
5  clone 9                ESRCH
6  clone 9                ESRCH  DIFFERS: expected ok
       ESRCH: no such thread
7  clone 9                ESRCH  DIFFERS: expected new
       ESRCH: no such thread
7 calls, 6 expectations, 3 differing: lines 4, 6, 7
";
    assert_eq!((ran.code, ran.out.as_str()), (1, expected));
    let document = json(&skein_with(&["run", "--json", "-"], text.as_bytes()).out);
    let expected: Vec<&str> = document
        .at("calls")
        .list()
        .iter()
        .map(|call| call.at("expected").text())
        .collect();
    assert_eq!(expected, ["new", "ok", "ok", "new", "any", "ok", "new"]);
}

#[test]
fn many_differing_lines_are_counted() {
    let ran = skein_with(&["run", "-"], &b"clone 9\n".repeat(12));
    let lines = "lines 1, 2, 3, 4, 5, 6, 7, 8, 9, 10 and 2 more";
    let summary = format!("\n12 calls, 0 expectations, 12 differing: {lines}\n");
    assert!(unbroken(&ran.out).ends_with(&summary), "{}", ran.out);
}

#[test]
fn a_differing_answer_is_marked() {
    let text = "clone main => 0\nclone main => new 2\nclone 9 => EACCES\nclone 9 => -3\n";
    let ran = skein_with(&["run", "-"], text.as_bytes());
    let expected = "\
1  clone main  new 1  DIFFERS: expected 0
2  clone main  new 2  ok
3  clone 9     ESRCH  DIFFERS: expected EACCES
       ESRCH: no such thread
4  clone 9     ESRCH  ok
4 calls, 4 expectations, 2 differing: lines 1, 3
";
    assert_eq!((ran.code, ran.out.as_str()), (1, expected));
}

#[test]
fn each_expectation_of_the_incident_can_fail() {
    let text = std::fs::read_to_string(example("incident.skein")).unwrap();
    let refusals: Vec<&str> = text
        .lines()
        .filter(|line| line.ends_with("EACCES") || line.ends_with("EXDEV"))
        .collect();
    assert!(refusals.len() >= 8);
    for line in refusals {
        let (call, _) = line.split_once("=>").unwrap();
        let wrong = text.replace(line, &format!("{call}=> 0"));
        let ran = skein_with(&["run", "-"], wrong.as_bytes());
        assert_eq!(ran.code, 1, "{line}");
        assert!(ran.out.contains("DIFFERS: expected 0"), "{line}");
    }
}

#[test]
fn a_repeated_call_is_shown_once() {
    let text = "\
repeat 3 create main /f\\i regular => new
repeat 2 clone main => new 1
repeat 9 clone main
repeat 2 clone main => EAGAIN
create main /f4 regular => new 4
";
    let ran = skein_with(&["run", "-"], text.as_bytes());
    let expected = "\
1  repeat 3 create main /f\\i regular  new 3   ok
2  repeat 2 clone main                new 2   DIFFERS: expected new 1 in round 2
3  repeat 9 clone main                EAGAIN  DIFFERS: must succeed in round 6
       EAGAIN: no free thread
4  repeat 2 clone main                EAGAIN  ok
5  create main /f4 regular            new 4   ok
5 calls, 4 expectations, 2 differing: lines 2, 3
";
    assert_eq!((ran.code, ran.out.as_str()), (1, expected));
    let document = json(&skein_with(&["run", "--json", "-"], text.as_bytes()).out);
    let rounds = document.at("calls").list().iter();
    let rounds = rounds.map(|call| (call.at("rounds").number(), call.at("round").number()));
    assert_eq!(
        rounds.collect::<Vec<_>>(),
        [(3, 3), (2, 2), (9, 6), (2, 2), (1, 1)]
    );
}

#[test]
fn the_rules_of_a_layer_are_shown() {
    let text = "\
create_ruleset fs=4 net=3 -> r
add_port_rule r 80 bind_tcp
add_path_rule r root 4
set_admin main on
restrict main r
layer_rules 0
layer_rules 1 => EBADF
";
    let ran = skein_with(&["run", "-"], text.as_bytes());
    let shown = "\
6  layer_rules 0                0
       port 80: bind_tcp
       object 0: read_file
7  layer_rules 1                EBADF       ok
";
    assert!(ran.out.contains(shown), "{}", ran.out);
    let document = json(&skein_with(&["run", "--json", "-"], text.as_bytes()).out);
    let rules = document.at("calls").list()[5].at("rules").list().to_vec();
    assert_eq!(rules[0].at("port").number(), 80);
    assert_eq!(rules[0].at("rights").texts(), ["bind_tcp"]);
    assert_eq!(rules[1].at("object").number(), 0);
}

#[test]
fn a_layer_has_the_rules_of_its_ruleset() {
    // Layer 0 has a rule whose rights were joined, layer 1 none; a rule added later is in neither.
    let text = "\
create_ruleset fs=6 -> r => new 0
set_admin main on => 0
create main /d directory -> d => new 1
create main /e directory -> e => new 2
add_path_rule r d 2 => 0
add_path_rule r d 4 => 0
restrict main r => 0
add_path_rule r e 4 => 0
create_ruleset fs=1 -> empty => new 1
restrict main empty => 0
layer_rules 0 => 0
layer_rules 1 => 0
layer_rules 2 => EBADF
";
    let ran = skein_with(&["run", "--json", "-"], text.as_bytes());
    assert_eq!(ran.code, 0, "{}", ran.out);
    let document = json(&ran.out);
    let [.., joined, none, unused] = document.at("calls").list() else {
        panic!("three calls");
    };
    let [rule] = joined.at("rules").list() else {
        panic!("one rule");
    };
    assert_eq!(rule.at("object").number(), 1);
    assert_eq!(rule.at("rights").texts(), ["write_file", "read_file"]);
    assert!(none.at("rules").list().is_empty() && unused.at("rules").list().is_empty());
}

#[test]
fn the_name_of_an_ended_thread_is_bound_anew() {
    let text = "\
clone main -> a => new 1
clone main -> b => new 2
end a => 0
set_admin a on => ESRCH
clone main -> c => new 1
set_admin a on => 0
end c => 0
end b => 0
clone main -> b => new 1
end b => 0
end main => EBUSY
clone main -> last => new 1
end main => 0
set_admin main on => ESRCH
end last => EBUSY
clone last => new 0
set_admin main on => 0
";
    let ran = skein_with(&["run", "-"], text.as_bytes());
    assert_eq!(ran.code, 0, "{}", ran.out);
    assert!(ran.out.contains("17 calls, 17 expectations"), "{}", ran.out);
    let refused = skein_with(&["run", "-"], b"end main\n");
    let reason = "EBUSY: the only live thread does not end";
    assert!(refused.out.contains(reason), "{}", refused.out);
}

/// Thread `inner` is kept within a layer by both scopes.
const SCOPED: &str = "\
create_ruleset scope=signal+abstract_unix_socket -> rs => new 0
set_no_new_privs main => 0
clone main -> inner => new 1
restrict inner rs => 0
";

#[test]
fn requests_between_threads_are_answered() {
    let text = format!(
        "{SCOPED}\
signal main inner => 0
signal inner inner => 0
signal inner main => EPERM
signal inner 9 => ESRCH
abstract_socket main inner => 0
abstract_socket inner main
"
    );
    let ran = skein_with(&["run", "-"], text.as_bytes());
    let expected = "\
 7  signal inner main                                 EPERM           ok
 8  signal inner 9                                    ESRCH           ok
 9  abstract_socket main inner                        0               ok
10  abstract_socket inner main                        EPERM
        DIFFERS: must succeed
        EPERM: a layer that handles the scope is not one of the target's
10 calls, 9 expectations, 1 differing: line 10
";
    assert!(ran.out.ends_with(expected), "{}", ran.out);
    let document = json(&skein_with(&["run", "--json", "-"], text.as_bytes()).out);
    let [.., refused] = document.at("calls").list() else {
        panic!("some calls");
    };
    assert_eq!(refused.at("call").text(), "abstract_socket");
    assert_eq!(refused.at("answer").text(), "EPERM");
    assert_eq!(refused.at("errno").number(), 1);
    assert_eq!(refused.at("layer"), &Value::Null);
    assert!(refused.at("rights").list().is_empty());
}

#[test]
fn json_has_the_documented_fields() {
    let text = "create main /p fifo -> p => new 1\nremove main p\nremove main p => 0\n";
    let ran = skein_with(&["run", "-", "--json"], text.as_bytes());
    assert_eq!(ran.code, 1);
    let document = json(&ran.out);
    assert_eq!(document.at("command").text(), "run");
    assert_eq!(document.at("file").text(), "-");
    assert_eq!(document.at("expectations").number(), 2);
    assert_eq!(document.at("differing").number(), 1);
    let [create, remove, again] = document.at("calls").list() else {
        panic!("three calls");
    };
    assert_eq!(create.at("line").number(), 1);
    assert_eq!(create.at("call").text(), "create");
    assert_eq!(create.at("text").text(), "create main /p fifo");
    assert_eq!(create.at("answer").text(), "new 1");
    assert_eq!(create.at("number").number(), 1);
    assert_eq!(create.at("errno"), &Value::Null);
    assert_eq!(create.at("bound").at("what").text(), "entry");
    assert_eq!(create.at("bound").at("name").text(), "p");
    assert_eq!(create.at("expected").text(), "new 1");
    assert_eq!(remove.at("answer").text(), "0");
    assert_eq!(remove.at("bound"), &Value::Null);
    assert_eq!(remove.at("expected"), &Value::Null);
    assert_eq!(again.at("answer").text(), "ENOENT");
    assert_eq!(again.at("errno").number(), 2);
    assert_eq!(again.at("number"), &Value::Null);
    assert_eq!(again.at("differs"), &Value::Bool(true));
}

/// Two folders and a file, and a layer 0 under which it may be read in both, and in the other also written.
const LAYERED: &str = "\
create main /docs directory -> docs => new 1
create main /drafts directory -> drafts => new 2
create main /docs/page regular -> page => new 3
create_ruleset fs=read_file+write_file+make_reg+refer net=bind_tcp -> rs => new 0
add_path_rule rs docs read_file+refer => 0
add_path_rule rs drafts read_file+write_file+refer+make_reg => 0
set_no_new_privs main => 0
restrict main rs => 0
";

#[test]
fn a_refusal_says_which_layer_and_which_rights() {
    let text = format!(
        "{LAYERED}\
access main page 6 => EACCES
port main 80 3 => EACCES
create main /docs/new regular => EACCES
link main page /drafts/page => EXDEV
rename main page /page => EACCES layer=0
rename main page /drafts/page => EACCES
access main page read_file => 0
"
    );
    let ran = skein_with(&["run", "-"], text.as_bytes());
    let shown: Vec<&str> = ran.out.lines().map(str::trim).collect();
    let after = |call: &str| {
        let place = shown.iter().rposition(|line| line.contains(call));
        shown[place.expect(call) + 1]
    };
    assert_eq!(after("access main page 6"), "layer 0 denies write_file");
    assert_eq!(after("port main 80 3"), "layer 0 denies bind_tcp");
    assert_eq!(
        after("create main /docs/new regular"),
        "layer 0 denies make_reg"
    );
    let gained = "under layer 0 the move would gain write_file";
    assert_eq!(after("link main page /drafts/page"), gained);
    assert_eq!(after("rename main page /page"), "layer 0 denies make_reg");
    let wrong = "EXDEV: under layer 0 the move would gain write_file";
    assert!(shown.contains(&wrong), "{}", ran.out);
    assert_eq!(ran.code, 1, "{}", ran.out);
    let explained = skein_with(&["explain", "-"], text.as_bytes());
    let message = format!("expected EACCES, but answered {wrong}");
    let messages = unbroken(&explained.err);
    assert!(messages.contains(&message), "{messages}");
}

#[test]
fn a_line_pins_the_layer_and_the_rights() {
    for (call, answer, as_expected) in [
        (
            "access main page 6",
            "EACCES layer=0 rights=write_file",
            true,
        ),
        ("access main page 6", "EACCES rights=2 layer=0", true),
        ("access main page 6", "EACCES layer=1", false),
        ("access main page 6", "EACCES layer=none", false),
        (
            "access main page 6",
            "EACCES rights=write_file+read_file",
            false,
        ),
        ("access main page 4", "0 layer=none rights=none", true),
        ("access main page 4", "0 layer=0", false),
        ("access main 9 4", "ENOENT layer=none rights=none", true),
        ("port main 81 1", "EACCES rights=bind_tcp", true),
        ("port main 81 1", "EACCES rights=connect_tcp", false),
        (
            "rename main page /drafts/page",
            "EXDEV layer=0 rights=write_file",
            true,
        ),
        ("rename main page /drafts/page", "EXDEV rights=refer", false),
        ("create main /drafts/new regular", "new 4 layer=none", true),
    ] {
        let text = format!("{LAYERED}{call} => {answer}\n");
        let ran = skein_with(&["run", "-"], text.as_bytes());
        assert_eq!(ran.code, i32::from(!as_expected), "{call} => {answer}");
        let marked = ran.out.contains("DIFFERS: expected ");
        assert_eq!(marked, !as_expected, "{}", ran.out);
    }
}

#[test]
fn json_names_the_layer_and_the_rights() {
    let text = format!(
        "{LAYERED}\
access main docs 0xffff => EACCES layer=0
port main 80 3 => EACCES
access main page read_file => 0
clone 9 => ESRCH
"
    );
    let document = json(&skein_with(&["run", "--json", "-"], text.as_bytes()).out);
    let [.., access, port, granted, clone] = document.at("calls").list() else {
        panic!("four calls");
    };
    assert_eq!(access.at("errno").number(), 13);
    assert_eq!(access.at("layer").number(), 0);
    assert_eq!(access.at("rights").texts(), ["write_file", "make_reg"]);
    assert_eq!(access.at("expected").text(), "EACCES layer=0");
    assert_eq!(port.at("rights").texts(), ["bind_tcp"]);
    for call in [granted, clone] {
        assert_eq!(call.at("layer"), &Value::Null);
        assert!(call.at("rights").list().is_empty());
    }
}

#[test]
fn an_access_says_how_many_entries_were_read() {
    let text = format!(
        "{LAYERED}\
access main page 4 => 0 entries_read=2
access main drafts 2 => 0
access main page 2 => EACCES entries_read=3
access main page execute => 0 entries_read=0
access main 9 4 => ENOENT entries_read=0
port main 80 2 => 0
"
    );
    let quiet = skein_with(&["run", "-"], text.as_bytes());
    assert_eq!(quiet.code, 0, "{}", quiet.out);
    assert!(!quiet.out.contains(" read\n"), "{}", quiet.out);
    let ran = skein_with(&["run", "--verbose", "-"], text.as_bytes());
    let lines = ran.out.lines().map(str::trim);
    let shown: Vec<&str> = lines.filter(|line| line.ends_with(" read")).collect();
    let of = [
        "2 entries",
        "1 entry",
        "3 entries",
        "0 entries",
        "0 entries",
    ];
    assert_eq!(shown, of.map(|count| format!("rules of {count} read")));
    let document = json(&skein_with(&["run", "--json", "-"], text.as_bytes()).out);
    let calls = document.at("calls").list();
    let read = calls.iter().map(|call| call.at("entries_read"));
    let counted = read.filter(|count| **count != Value::Null);
    assert_eq!(
        counted.map(Value::number).collect::<Vec<_>>(),
        [2, 1, 3, 0, 0]
    );
    let wrong = text.replace("entries_read=2", "entries_read=3");
    let ran = skein_with(&["run", "-"], wrong.as_bytes());
    assert_eq!(ran.code, 1);
    let expected = "DIFFERS: expected 0 entries_read=3";
    assert!(ran.out.contains(expected), "{}", ran.out);
}

#[test]
fn json_escapes_the_name_of_the_file() {
    let file = Scratch::new("a \"b\"\\\n\u{1}é.skein", b"clone main\n");
    let ran = skein(&["run", "--json", file.path()]);
    assert_eq!(json(&ran.out).at("file").text(), file.path());
}

#[test]
fn names_keep_their_number() {
    let text = "\
create main /x regular -> x
remove main x
access main x read_file => ENOENT
create main /y fifo => new 1
access main x read_file => 0
fresh 6
access main x read_file => ENOENT
";
    let ran = skein_with(&["run", "-"], text.as_bytes());
    assert_eq!(ran.code, 0, "{}", ran.out);
}

#[test]
fn the_last_free_entry_can_be_taken_and_no_more() {
    let mut text = String::new();
    for number in 1..=1023 {
        text.push_str(&format!("create main /{number} fifo => new {number}\n"));
    }
    text.push_str("create main /x fifo => ENOSPC\nlink main 1 root x => ENOSPC\n");
    text.push_str("create_ruleset fs=make_fifo -> r\nset_admin main on\nrestrict main r\n");
    text.push_str("create main /x fifo => EACCES\nlink main 1 root x => EACCES\n");
    text.push_str("clone main -> t\nremove t 700 => 0\nclone t\ncreate main /x 1 => new 700\n");
    let ran = skein_with(&["run", "-"], text.as_bytes());
    assert_eq!(ran.code, 0, "{}", ran.out);
}

#[test]
fn a_run_of_pokes_writes_each_cell() {
    // Three directories, each in the one before.
    let run = "\
poke entries 3 2 3 3 0 => 0
poke entries 4 0 3 3 1 => 0
poke entries 5 1 3 3 1 => 0
poke system 1 4 => 0
poke_name 1 d\\i 3 => 0
";
    let calls = "\
create main /d1 directory => new 1
create main /d1/d2 directory => new 2
create main 2 directory d3 => new 3
";
    let [left, made] = [run, calls].map(|text| {
        let ran = skein_with(&["explain", "--json", "-"], text.as_bytes());
        assert_eq!(ran.code, 0, "{}", ran.err);
        ran.out
    });
    assert_eq!(left, made);
    let beyond = skein_with(&["run", "-"], b"clone main\npoke threads 0 0 9 4 0\n");
    let message = "-:2: found cell 32; expected a cell of threads, below 32\n";
    assert_eq!(
        (beyond.code, beyond.out.as_str(), beyond.err.as_str()),
        (2, "", message)
    );
}

#[test]
fn a_right_that_the_level_does_not_know_is_bad_input() {
    // Each level with the first right of each mask that it does not know, from document 01's list.
    for (level, word) in [
        (1, "fs=refer"),
        (1, "net=bind_tcp"),
        (1, "scope=signal"),
        (2, "fs=truncate"),
        (3, "fs=ioctl_dev"),
        (3, "net=connect_tcp"),
        (4, "fs=ioctl_dev"),
        (4, "scope=abstract_unix_socket"),
        (5, "scope=signal"),
        (6, "fs=0x10000"),
        (6, "net=0x4"),
        (6, "scope=0x4"),
    ] {
        let text = format!(
            "fresh {level}\ncreate_ruleset fs=read_file\ncreate_ruleset {word}\nclone main"
        );
        let ran = skein_with(&["run", "-"], text.as_bytes());
        let found = format!("-:3: found `{word}`, which level {level} does not know;");
        assert_eq!(ran.code, 2, "{word}: {}", ran.out);
        assert!(unbroken(&ran.err).starts_with(&found), "{}", ran.err);
        assert!(
            ran.out
                .ends_with("2 calls, 0 expectations, 0 differing; stopped at line 3\n"),
            "{}",
            ran.out
        );
        for options in [
            &["run", "--json", "-"][..],
            &["explain", "-"],
            &["explain", "--json", "-"],
        ] {
            let ran = skein_with(options, text.as_bytes());
            assert_eq!((ran.code, ran.out.as_str()), (2, ""), "{word}");
        }
        // With a size or as bytes it is the broker that is asked.
        let raw = text.replace(
            word,
            &format!("{word} size=24 => {}", broker_answer(level, word)),
        );
        let ran = skein_with(&["run", "-"], raw.as_bytes());
        assert_eq!(ran.code, 0, "{word}: {}", ran.out);
    }
}

/// What document 01 answers to an attribute of 24 bytes: E2BIG for a byte past the known size, else EINVAL for the bit.
fn broker_answer(level: u64, word: &str) -> &'static str {
    let known = match level {
        1..=3 => 8,
        4 | 5 => 16,
        _ => 24,
    };
    let from = match word.split('=').next() {
        Some("fs") => 0,
        Some("net") => 8,
        _ => 16,
    };
    if from < known {
        "EINVAL"
    } else {
        "E2BIG"
    }
}

#[test]
fn the_level_is_that_of_the_tables() {
    // A fresh that is refused leaves the level, a poke writes it.
    for (lines, code) in [
        ("fresh 3\nfresh 7 => EINVAL", 2),
        ("fresh 7 => EINVAL", 0),
        ("fresh 3\nfresh 4", 0),
        ("fresh 3\npoke system 0 4", 0),
        ("poke system 0 3", 2),
    ] {
        let text = format!("{lines}\ncreate_ruleset net=bind_tcp => new 0\n");
        let ran = skein_with(&["run", "-"], text.as_bytes());
        assert_eq!(ran.code, code, "{lines}: {}{}", ran.out, ran.err);
    }
}

#[test]
fn where_there_are_no_rulesets_the_broker_is_asked() {
    let text = "\
fresh 0
create_ruleset fs=4 net=1 scope=1 => EOPNOTSUPP
poke system 0 7
create_ruleset fs=0x10000 => EIO
";
    let ran = skein_with(&["run", "-"], text.as_bytes());
    assert_eq!(ran.code, 0, "{}{}", ran.out, ran.err);
}

#[test]
fn a_size_cuts_or_fills_the_attribute() {
    let text = "\
fresh 3
create_ruleset fs=4 net=1 size=8 => new 0
create_ruleset fs=4 net=1 size=16 => E2BIG
create_ruleset net=1 size=8 => ENOMSG
fresh 5
create_ruleset net=1 scope=1 size=16 => new 0
fresh 6
create_ruleset scope=3 => new 0
create_ruleset fs=4 size=7 => EINVAL
create_ruleset fs=4 size=18446744073709551615 => E2BIG
";
    let ran = skein_with(&["run", "-"], text.as_bytes());
    assert_eq!(ran.code, 0, "{}", ran.out);
}

#[test]
fn long_calls_are_broken_into_lines() {
    let text = "\
create main /calibration directory -> a-rather-long-name-for-a-folder-of-calibration => new 1
create_ruleset fs=read_file+write_file+remove_file+make_reg+refer -> policy => new 0
add_path_rule policy a-rather-long-name-for-a-folder-of-calibration 0x2104 => ENOENT
clone main -> worker => new 1
";
    let ran = skein_with(&["run", "-"], text.as_bytes());
    let expected = "\
1  create main /calibration directory
       new 1 -> a-rather-long-name-for-a-folder-of-calibration
                                                        ok
2  create_ruleset fs=read_file+write_file+remove_file+make_reg+refer
                                       new 0 -> policy  ok
3  add_path_rule policy a-rather-long-name-for-a-folder-of-calibration 0x2104
                                       0                DIFFERS: expected ENOENT
4  clone main                          new 1 -> worker  ok
4 calls, 4 expectations, 1 differing: line 3
";
    assert_eq!((ran.code, ran.out.as_str()), (1, expected), "\n{}", ran.out);
}

#[test]
fn no_name_is_too_long() {
    for length in [60, 80, 65_535, 65_536, 1_000_000] {
        let name = "n".repeat(length);
        let text = format!(
            "create main /d directory -> {name}\ncreate main {name} fifo f\nclone main -> {name}\n"
        );
        for command in ["run", "explain"] {
            let ran = skein_with(&[command, "-"], text.as_bytes());
            assert_eq!((ran.code, ran.err.as_str()), (0, ""), "{command} {length}");
            assert!(
                ran.out.lines().all(|line| line.chars().count() <= 80),
                "{command} {length}"
            );
        }
        let document = json(&skein_with(&["run", "--json", "-"], text.as_bytes()).out);
        let bound = document.at("calls").list()[0].at("bound").at("name").text();
        assert_eq!(bound, name, "JSON has it whole");
    }
}

/// Paths and labels for the same entries, and what a path that is not found stands for.
#[test]
fn paths_stand_for_entries() {
    let text = "\
create main /cal directory => new 1
create main /import directory -> import => new 2
create main /cal/table regular => new 3
create main import regular feed -> feed => new 4
lookup /cal/../import/./feed -> again => 4
access main /import/feed read_file => 0
access main again read_file => 0
link main /import/feed /cal/twin => new 5
rename main /cal/twin /import/twin => 0
exchange main /cal/table /import/feed => 0
lookup /cal/table => 4
lookup /import/feed => 3
exchange main 4 import 3 => 0
remove main /import/twin => 0
lookup /import/twin => ENOENT
access main /import/twin read_file => ENOENT
access main /cal/table/x read_file => ENOENT
create main /none/new regular => ENOENT
create main /cal/table/new regular => ENOTDIR
create main //cal///new regular => new 5
rename main /cal /cal/new/cal => ENOTDIR
create main / regular => EINVAL
create main /cal/ regular => EINVAL
create main /cal/.. regular => EINVAL
create_ruleset fs=read_file -> rs => new 0
add_path_rule rs /cal read_file => 0
add_path_rule rs /none read_file => EBADF
repeat 3 create main /cal/\\i fifo => new
lookup /cal/3 => 8
poke names 0 1 => 0
lookup / => EIO
access main /cal read_dir => EIO
";
    let ran = skein_with(&["run", "-"], text.as_bytes());
    assert_eq!(ran.code, 0, "{}{}", ran.out, ran.err);
}

#[test]
fn a_component_is_shown_below_its_call() {
    let text = "\
component /cal//t\\x20b 2 => 0 start=6 length=3
component /cal 1 => 0
component /cal 2 => 0 start=0 length=0
component // 0 => 0 length=1
";
    let ran = skein_with(&["run", "-"], text.as_bytes());
    let expected = "\
1  component /cal//t\\x20b 2  0  ok
       start 6, length 3: t\\x20b
2  component /cal 1          0  ok
       start 1, length 3: cal
3  component /cal 2          0  ok
       no component
4  component // 0            0  DIFFERS: expected 0 length=1
       no component
4 calls, 4 expectations, 1 differing: line 4
";
    assert_eq!((ran.code, ran.out.as_str()), (1, expected), "\n{}", ran.out);
    let document = json(&skein_with(&["run", "--json", "-"], text.as_bytes()).out);
    let calls = document.at("calls").list();
    let part = calls[0].at("part");
    assert_eq!(part.at("start").number(), 6);
    assert_eq!(part.at("length").number(), 3);
    assert_eq!(part.at("text").text(), "t\\x20b");
    assert_eq!(calls[2].at("part").at("text").text(), "");
    let document = json(&skein_with(&["run", "--json", "-"], b"lookup / -> top\n").out);
    let lookup = &document.at("calls").list()[0];
    assert_eq!(lookup.at("answer").text(), "0");
    assert_eq!(lookup.at("number").number(), 0);
    assert_eq!(lookup.at("bound").at("name").text(), "top");
    assert_eq!(lookup.at("part"), &Value::Null);
}

#[test]
fn a_turn_shows_the_slot_and_its_answer() {
    let text = "\
create main /page regular -> page => new 1
create_ruleset fs=write_file -> rs => new 0
set_no_new_privs main => 0
restrict main rs => 0
post 3 main page write_file => 0
slot 3 => waiting
turn => 3 answer=EACCES layer=0 rights=write_file entries_read=2
turn => idle
post 3 main page read_file => 0
post 3 main page read_file
turn => 3 answer=0
turn => 3
slot 3 => answered answer=0 layer=none
slot 4 => empty
";
    let ran = skein_with(&["run", "-v", "-"], text.as_bytes());
    let expected = "\
 5  post 3 main page write_file   0              ok
 6  slot 3                        waiting        ok
        request: thread 0, entry 1, write_file
        kept: 0
 7  turn                          3              ok
        request: thread 0, entry 1, write_file
        answer: EACCES: layer 0 denies write_file
        rules of 2 entries read
 8  turn                          idle           ok
 9  post 3 main page read_file    0              ok
10  post 3 main page read_file    EAGAIN         DIFFERS: must succeed
        EAGAIN: a request waits in the slot
11  turn                          3              ok
        request: thread 0, entry 1, read_file
        answer: 0
        rules of 0 entries read
12  turn                          idle           DIFFERS: expected 3
13  slot 3                        answered       ok
        request: thread 0, entry 1, read_file
        answer: 0
        rules of 0 entries read
14  slot 4                        empty          ok
14 calls, 13 expectations, 2 differing: lines 10, 12
";
    assert!(ran.out.ends_with(expected), "{}", ran.out);
    assert_eq!(ran.code, 1);
}

#[test]
fn a_call_that_is_asked_about_is_not_made() {
    let text = "\
create main /docs directory -> docs
create main /docs/page regular -> page
create_ruleset fs=read_file+write_file net=bind_tcp -> rs
add_path_rule rs docs read_file
set_no_new_privs main
restrict main rs
ask access main page read_file+write_file => EACCES layer=0 rights=write_file
ask port main 80 bind_tcp => EACCES rights=bind_tcp
ask rename main page /page => EXDEV
repeat 3 ask link main page /docs/f\\i => 0
ask link main page /docs/page
lookup /docs/f1 => ENOENT
";
    let ran = skein_with(&["run", "-v", "-"], text.as_bytes());
    let expected = "\
 7  ask access main page read_file+write_file            EACCES         ok
        layer 0 denies write_file
 8  ask port main 80 bind_tcp                            EACCES         ok
        layer 0 denies bind_tcp
 9  ask rename main page /page                           EXDEV          ok
        layer 0 denies refer
10  repeat 3 ask link main page /docs/f\\i                0              ok
11  ask link main page /docs/page                        EEXIST
        DIFFERS: must succeed
        EEXIST: the directory has an entry of that name
12  lookup /docs/f1                                      ENOENT         ok
12 calls, 5 expectations, 1 differing: line 11
";
    assert!(ran.out.ends_with(expected), "{}", ran.out);
    assert_eq!(ran.code, 1);
    let ran = skein_with(&["run", "--json", "-"], text.as_bytes());
    let calls = json(&ran.out);
    let port = calls.at("calls").list().get(7).expect("eight calls");
    assert_eq!(port.at("call").text(), "ask");
    assert_eq!(port.at("errno").number(), 13);
    assert_eq!(port.at("layer").number(), 0);
    assert_eq!(port.at("entries_read"), &Value::Null);
}

#[test]
fn refusals_of_the_queue_are_explained() {
    let text = "post 8 main root 8\npoke cursor 0 8\npost 0 main root 8\nturn\npoke cursor 0 7\npoke system 0 7\nclone main\n";
    let ran = skein_with(&["run", "-"], text.as_bytes());
    for reason in [
        "EINVAL: there is no such slot",
        "EIO: the queue is not sound",
        "EIO: the tables are not sound",
    ] {
        assert!(ran.out.contains(reason), "{reason}: {}", ran.out);
    }
}

#[test]
fn json_has_the_slot_and_its_answer() {
    let text = "\
create_ruleset fs=read_dir -> rs
set_no_new_privs main
restrict main rs
post 6 main root read_dir+refer
turn
turn
slot 6
post 6 9 root read_dir
slot 6
";
    let document = json(&skein_with(&["run", "--json", "-"], text.as_bytes()).out);
    let [.., post, served, idle, read, _, waiting] = document.at("calls").list() else {
        panic!("some calls");
    };
    assert_eq!(post.at("slot"), &Value::Null);
    assert_eq!(served.at("answer").text(), "6");
    assert_eq!(served.at("number").number(), 6);
    assert_eq!(served.at("layer").number(), 0);
    assert_eq!(served.at("rights").texts(), ["read_dir", "refer"]);
    assert_eq!(served.at("entries_read").number(), 1);
    for call in [served, read] {
        let slot = call.at("slot");
        assert_eq!(slot.at("slot").number(), 6);
        assert_eq!(slot.at("thread").number(), 0);
        assert_eq!(slot.at("entry").number(), 0);
        assert_eq!(slot.at("rights").texts(), ["read_dir", "refer"]);
        assert_eq!(slot.at("answered"), &Value::Bool(true));
        assert_eq!(slot.at("answer").text(), "EACCES");
        assert_eq!(slot.at("errno").number(), 13);
    }
    assert_eq!(idle.at("answer").text(), "idle");
    assert_eq!(idle.at("number"), &Value::Null);
    assert_eq!(idle.at("slot"), &Value::Null);
    assert_eq!(read.at("answer").text(), "answered");
    assert_eq!(read.at("number"), &Value::Null);
    assert_eq!(waiting.at("answer").text(), "waiting");
    let slot = waiting.at("slot");
    assert_eq!(slot.at("thread").number(), 9);
    assert_eq!(slot.at("answered"), &Value::Bool(false));
    assert_eq!(slot.at("answer").text(), "EACCES");
}

#[test]
fn a_wide_expectation_is_broken_into_lines() {
    let line =
        "turn => 3 answer=EACCES layer=12 rights=write_file+read_file+read_dir entries_read=12";
    let ran = skein_with(&["run", "-"], line.as_bytes());
    let expected = "\
1  turn  idle
       DIFFERS: expected 3 answer=EACCES layer=12 rights=write_file+read_file+
           read_dir entries_read=12
1 call, 1 expectation, 1 differing: line 1
";
    assert_eq!((ran.code, ran.out.as_str()), (1, expected));
}

const LOGGED: &str = "\
log 30 => 0
create main /cal directory -> cal => new 1
create main /cal/table regular => new 2
rename main /cal/table /cal/other => ENOSPC
cut 11 => 0
written => 11
restart => 0
replay => 2
lookup /cal => 1
replay
";

#[test]
fn a_log_is_shown_and_replayed() {
    let ran = skein_with(&["run", "-"], LOGGED.as_bytes());
    let expected = "\
 6  written                            11            ok
        byte 0: create directory in 0, cal
        byte 9: 2 bytes of a field that is cut
 7  restart                            0             ok
 8  replay                             2             ok
 9  lookup /cal                        1             ok
10  replay                             EBADMSG       DIFFERS: must succeed
        EBADMSG: a whole field of the log is none that can be made again here
10 calls, 9 expectations, 1 differing: line 10
";
    assert!(ran.out.ends_with(expected), "{}", ran.out);
    assert_eq!(ran.code, 1);
}

#[test]
fn json_has_what_stands_in_the_log() {
    let ran = skein_with(&["run", "--json", "-"], LOGGED.as_bytes());
    let document = json(&ran.out);
    let calls = document.at("calls").list();
    assert_eq!(calls[5].at("number").number(), 11);
    let expected = [
        "byte 0: create directory in 0, cal",
        "byte 9: 2 bytes of a field that is cut",
    ];
    assert_eq!(calls[5].at("log").texts(), expected);
    assert_eq!(calls[7].at("number").number(), 2);
    assert!(calls[7].at("log").list().is_empty());
}

#[test]
fn words_about_a_log_need_one() {
    for line in ["cut 0", "written", "restart", "replay"] {
        for before in ["fresh 6", "log 9\nlog none"] {
            let text = format!("{before}\n{line}\n");
            let ran = skein_with(&["run", "-"], text.as_bytes());
            assert_eq!(ran.code, 2, "{text}");
            let found = "found no log; expected a line `log ROOM` above";
            assert!(ran.err.contains(found), "{text}{}", ran.err);
        }
    }
    let ran = skein_with(&["run", "-"], b"replay bytes=\\x00 => 1\n");
    assert_eq!(ran.code, 0, "{}", ran.out);
}

/// Rulesets, layers and threads are those of the start, too; labels keep their numbers.
#[test]
fn a_restart_gives_back_every_table() {
    let text = "\
create main /cal directory -> cal => new 1
log 100 => 0
create_ruleset fs=read_file -> rs => new 0
set_no_new_privs main => 0
restrict main rs => 0
create main /cal/table regular -> table => new 2
access main table read_file => EACCES
restart => 0
replay => 0
access main table read_file => 0
restrict main rs => EPERM
";
    let ran = skein_with(&["run", "-"], text.as_bytes());
    assert_eq!(ran.code, 0, "{}{}", ran.out, ran.err);
}
