//! `skein explain` and `skein demo`: pictures and their JSON.
mod support;
use support::{example, json, skein, skein_with, unbroken, Scratch, Value, EXAMPLES};

/// Drawn by hand from document 01: layer B, with a hard link of the feed in /cal.
const LINKED: &str = "\
create main /cal directory -> cal
create main /import directory -> import
create main /cal/table regular -> table
create main /import/feed regular -> feed
link main feed /cal/twin
create_ruleset fs=8486 net=bind_tcp -> B
add_path_rule B cal 8452
add_path_rule B import 8486
add_port_rule B 8080 bind_tcp
set_no_new_privs main
restrict main B
";

const LINKED_PICTURE: &str = "\
entry            main
/                -----
/cal             -r-fm
/cal/table       -r...
/cal/twin ×2     -r...
/import          wrRfm
/import/feed ×2  wr...

w write_file  r read_file  R remove_file  f make_reg  m refer
- denied  . not a right of this kind of entry
×N: an object with N entries (hard links)

port   main
8080   bc
other  -c

b bind_tcp  c connect_tcp

thread  layers, oldest first
main    0; no_new_privs

layer 0, held by thread main
  handles write_file+read_file+remove_file+make_reg+refer; bind_tcp
  /cal       read_file+make_reg+refer
  /import    write_file+read_file+remove_file+make_reg+refer
  port 8080  bind_tcp
";

const LINKED_TREE: &str = "\
thread main: layers 0; no_new_privs
                                      write_file
                                      │ read_file
                                      │ │ remove_file
                                      │ │ │ make_reg
                                      │ │ │ │ refer
entry          no  kind       object  │ │ │ │ │
/               0  directory  0       - - - - -
├─ cal          1  directory  1       - + - + +
│  ├─ table     3  regular    3       - +
│  └─ twin      5  regular    4 ×2    - +
└─ import       2  directory  2       + + + + +
   └─ feed      4  regular    4 ×2    + +

+ granted   - denied   blank: not a right of this kind of entry
×N: an object with N entries (hard links)

port   may
8080   bind_tcp+connect_tcp
other  connect_tcp; layer 0 denies bind_tcp
";

const LINKED_TWIN: &str = "\
/cal/twin: entry 5, regular, object 4 ×2
  thread main: layers 0; no_new_privs
    may read_file; layer 0 denies write_file
  layer 0: rule at /cal grants read_file+make_reg+refer
";

#[test]
fn the_linked_tree_is_drawn_as_by_hand() {
    for (options, picture) in [
        (&["explain", "-"][..], LINKED_PICTURE),
        (&["explain", "-", "--thread", "main"], LINKED_TREE),
        (&["explain", "--thread=0", "-"], LINKED_TREE),
        (&["explain", "-", "--entry", "/cal/twin"], LINKED_TWIN),
        (&["explain", "-", "--entry", "5"], LINKED_TWIN),
    ] {
        let ran = skein_with(options, LINKED.as_bytes());
        assert_eq!((ran.code, ran.err.as_str()), (0, ""));
        assert_eq!(ran.out, picture, "\n{}", ran.out);
    }
}

#[test]
fn what_is_asked_about_must_be_there() {
    for (option, message) in [
        (
            "--thread=mian",
            "there is no thread `mian` at the end; expected one: main\n",
        ),
        (
            "--thread=1",
            "there is no thread `1` at the end; expected one: main\n",
        ),
        (
            "--entry=/cal/tabel",
            "there is no entry `/cal/tabel` at the end; expected one: perhaps `/cal/table`\n",
        ),
    ] {
        for json in [&[][..], &["--json"]] {
            let words = [&["explain", "-", option], json].concat();
            let ran = skein_with(&words, LINKED.as_bytes());
            assert_eq!((ran.code, ran.out.as_str()), (2, ""), "{option}");
            assert_eq!(unbroken(&ran.err), format!("skein: -: {message}"));
        }
    }
}

#[test]
fn json_is_of_what_is_asked_about() {
    let options = ["explain", "--json", "-", "--entry=/cal", "--thread=outer"];
    let text = format!("create main /cal directory\n{SCOPED}");
    let document = json(&skein_with(&options, text.as_bytes()).out);
    let [entry] = document.at("entries").list() else {
        panic!("one entry");
    };
    assert_eq!(entry.at("path").text(), "/cal");
    let [thread] = document.at("threads").list() else {
        panic!("one thread");
    };
    assert_eq!(thread.at("name").text(), "outer");
    assert_eq!(thread.at("access").list().len(), 1);
    let signal = &document.at("scopes").list()[1];
    let [reached] = signal.at("threads").list() else {
        panic!("one thread");
    };
    assert_eq!(reached.at("granted").list(), [Value::Number(1)]);
}

/// Eight threads of which each has all 16 rights to show do not fit side by side; each row says what each thread has.
#[test]
fn a_matrix_that_is_too_wide_is_in_parts() {
    let text = "create_ruleset fs=0xffff -> rs\nset_no_new_privs main\nrepeat 7 clone main\nrestrict 7 rs\n";
    let ran = skein_with(&["explain", "-"], text.as_bytes());
    let rows: Vec<&str> = ran
        .out
        .lines()
        .filter(|line| line.starts_with("/ "))
        .collect();
    let all = "xwrlDRcdfspbymti";
    let none = "-".repeat(16);
    let four = format!("/      {all}  {all}  {all}  {all}");
    assert_eq!(
        rows,
        [four.clone(), format!("/      {all}  {all}  {all}  {none}")]
    );
}

#[test]
fn without_a_layer_nothing_is_denied() {
    let ran = skein_with(&["explain", "-"], b"create main /pipe fifo -> pipe\n");
    let expected = "\
entry
/
/pipe

No layer handles a right at entries: every thread may do everything there.

No layer handles a right at ports: every thread may use every port.

thread  layers, oldest first
main    none
";
    assert_eq!(ran.out, expected, "\n{}", ran.out);
}

/// The page is whole, names stay text, and it asks for nothing from elsewhere.
#[test]
fn the_page_has_all_of_it() {
    let text = format!(
        "create main /<b>&x regular\n{LINKED}create_ruleset scope=signal -> s\nrestrict main s\n"
    );
    let page = skein_with(&["explain", "-", "--html", "-"], text.as_bytes());
    assert_eq!((page.code, page.err.as_str()), (0, ""));
    for part in [
        "<!doctype html>",
        "data-path=\"/cal/table\"",
        "data-path=\"/&lt;b&gt;&amp;x\"",
        "title=\"granted: read_file; layer 0 denies write_file\"",
        "id=\"layer-0\"",
        "<dt class=\"path\">/import</dt>",
        "<h2>Scope: signal</h2>",
        "</html>\n",
    ] {
        assert!(page.out.contains(part), "{part}");
    }
    assert_eq!(page.out.matches("data-path=").count(), 7);
    for from_elsewhere in ["http", "src=", "@import", "url(", "<b>&x"] {
        assert!(!page.out.contains(from_elsewhere), "{from_elsewhere}");
    }
    let file = Scratch::new("page.html", b"");
    let ran = skein_with(&["explain", "-", "--html", file.path()], text.as_bytes());
    assert_eq!((ran.code, ran.out.as_str(), ran.err.as_str()), (0, "", ""));
    assert_eq!(std::fs::read_to_string(file.path()).unwrap(), page.out);
    let ran = skein_with(
        &["explain", "-", "--html", "/no/such/page"],
        text.as_bytes(),
    );
    assert_eq!((ran.code, ran.out.as_str()), (3, ""));
    assert!(ran.err.starts_with("skein: /no/such/page: "), "{}", ran.err);
    let ran = skein_with(&["explain", "-", "--html", "-"], UNRESTRICTED.as_bytes());
    assert_eq!((ran.code, ran.out.as_str()), (1, ""));
}

#[test]
fn tables_that_are_not_sound_are_not_drawn() {
    let ran = skein_with(&["explain", "-"], b"poke entries 0 1\n");
    assert_eq!(
        (ran.code, ran.out.as_str()),
        (0, "The tables are not sound: every call answers EIO.\n")
    );
    let document = json(&skein_with(&["explain", "--json", "-"], b"poke entries 0 1\n").out);
    assert_eq!(document.at("sound"), &Value::Bool(false));
    assert!(document.at("threads").list().is_empty());
}

/// Layer B's policy, whose restrict is refused: no mark is set.
const UNRESTRICTED: &str = "\
create main /cal directory -> cal
create_ruleset fs=8486 -> B
add_path_rule B cal 8452
restrict main B
access main cal write_file
";

const NOT_DRAWN: &str = "\
skein: -: nothing is drawn, as not every call answered as its line says; `=>
    any` lets a call answer anything
";

#[test]
fn a_policy_whose_restrict_was_refused_is_not_drawn() {
    let ran = skein_with(&["explain", "-"], UNRESTRICTED.as_bytes());
    assert_eq!((ran.code, ran.out.as_str()), (1, ""));
    let refused = "\
-:4: `restrict main B` must succeed, but answered EPERM: the thread has neither
    no_new_privs nor admin set
";
    assert_eq!(ran.err, format!("{refused}{NOT_DRAWN}"));
}

#[test]
fn json_has_the_differing_calls_and_nothing_to_draw() {
    let ran = skein_with(&["explain", "--json", "-"], UNRESTRICTED.as_bytes());
    assert_eq!(ran.code, 1);
    let document = json(&ran.out);
    let [call] = document.at("differing").list() else {
        panic!("one call differs");
    };
    assert_eq!(call.at("line").number(), 4);
    assert_eq!(call.at("text").text(), "restrict main B");
    assert_eq!(call.at("answer").text(), "EPERM");
    assert_eq!(call.at("expected"), &Value::Null);
    assert_eq!(call.at("differs"), &Value::Bool(true));
    assert_eq!(document.at("sound"), &Value::Bool(true));
    for list in ["rights", "entries", "threads", "layers", "scopes"] {
        assert!(document.at(list).list().is_empty(), "{list}");
    }
}

#[test]
fn each_line_that_differs_is_named_before_the_one_that_stops() {
    let text = "clone 9 -> t\nclone main => EAGAIN\nclone t\nclone main\n";
    let ran = skein_with(&["explain", "-"], text.as_bytes());
    let message = "\
-:1: `clone 9` must succeed, but answered ESRCH: no such thread
-:2: `clone main` expected EAGAIN, but answered new 1
-:3: found the thread `t`, whose call was refused; expected a label that a
    successful call bound
";
    let left = (ran.code, ran.out.as_str(), ran.err.as_str());
    assert_eq!(left, (2, "", message));
}

#[test]
fn any_answer_of_any_kind_that_differs_keeps_the_picture_back() {
    for line in [
        "clone main => EAGAIN",
        "clone main => new 2",
        "clone 9 => 0",
        "clone 9 => ok",
        "clone 9 => new",
        "clone 9",
    ] {
        let ran = skein_with(&["explain", "-"], line.as_bytes());
        assert_eq!((ran.code, ran.out.as_str()), (1, ""), "{line}");
        assert!(ran.err.ends_with(NOT_DRAWN), "{line}: {}", ran.err);
        let allowed = line.split(" =>").next().unwrap().to_owned() + " => any";
        let ran = skein_with(&["explain", "-"], allowed.as_bytes());
        assert_eq!((ran.code, ran.err.as_str()), (0, ""), "{allowed}");
        assert!(ran.out.starts_with("entry\n/\n"), "{allowed}: {}", ran.out);
    }
}

#[test]
fn names_of_what_is_gone_are_not_drawn() {
    let text = "\
create main /old fifo -> old
remove main old
create main /new fifo
create main /once fifo -> twice
create main /twice fifo -> twice
clone main -> t
";
    let ran = skein_with(&["explain", "-", "--all-rights"], text.as_bytes());
    assert!(!ran.out.contains("/old"), "{}", ran.out);
    assert_eq!(ran.out.matches("\n/twice ").count(), 1, "{}", ran.out);
    let document = json(&skein_with(&["explain", "-", "--json"], text.as_bytes()).out);
    let entries = document.at("entries").list().iter();
    let labels: Vec<&Value> = entries.map(|entry| entry.at("label")).collect();
    let [_, Value::Null, Value::Null, Value::Text(twice)] = labels.as_slice() else {
        panic!("{labels:?}");
    };
    assert_eq!(twice, "twice");
    assert!(ran.out.contains("\nt       none\n"), "{}", ran.out);
}

/// The rights that some layer handles: a layer handles REFER unasked only with other rights of the file system.
#[test]
fn a_layer_of_ports_alone_handles_no_right_of_the_file_system() {
    for (masks, handled) in [
        ("net=bind_tcp", vec![]),
        ("scope=signal", vec![]),
        ("fs=read_file", vec!["read_file", "refer"]),
    ] {
        let text =
            format!("create_ruleset {masks} -> rs\nset_no_new_privs main\nrestrict main rs\n");
        let document = json(&skein_with(&["explain", "--json", "-"], text.as_bytes()).out);
        assert_eq!(document.at("rights").texts(), handled, "{masks}");
    }
}

/// What `explain` says a thread may do must be what the calls of `run` answer.
#[test]
fn pictures_agree_with_the_calls() {
    for name in EXAMPLES {
        let text = std::fs::read_to_string(example(name)).unwrap();
        let document = json(&skein(&["explain", "--json", "--all-rights", &example(name)]).out);
        let mut asked = text.clone();
        for thread in document.at("threads").list() {
            let number = thread.at("thread").number();
            for at in thread.at("access").list() {
                let entry = at.at("entry").number();
                expect(&mut asked, &format!("access {number} {entry}"), at);
            }
            for at in thread.at("ports").list() {
                let port = match at.at("port") {
                    Value::Null => 60_000,
                    port => port.number(),
                };
                expect(&mut asked, &format!("port {number} {port}"), at);
            }
        }
        let ran = skein_with(&["run", "-"], asked.as_bytes());
        assert_eq!(ran.code, 0, "{name}\n{}", ran.out);
        assert!(asked.lines().count() > text.lines().count(), "{name}");
    }
}

/// Appends a line for each right that is granted or denied.
fn expect(lines: &mut String, request: &str, at: &Value) {
    for (list, answer) in [("granted", "0"), ("denied", "EACCES")] {
        for right in at.at(list).texts() {
            lines.push_str(&format!("{request} {right} => {answer}\n"));
        }
    }
}

#[test]
fn every_right_of_its_kind_is_granted_or_denied() {
    let document = json(
        &skein_with(
            &["explain", "--json", "--all-rights", "-"],
            LINKED.as_bytes(),
        )
        .out,
    );
    let kinds: Vec<&str> = document
        .at("entries")
        .list()
        .iter()
        .map(|entry| entry.at("kind").text())
        .collect();
    let thread = &document.at("threads").list()[0];
    for (kind, at) in kinds.iter().zip(thread.at("access").list()) {
        let shown = at.at("granted").texts().len() + at.at("denied").texts().len();
        let rights = if *kind == "directory" { 16 } else { 5 };
        assert_eq!(shown, rights, "{kind}");
    }
    assert_eq!(document.at("rights").texts().len(), 16);
}

#[test]
fn json_has_the_documented_fields() {
    let document = json(&skein_with(&["explain", "--json", "-"], LINKED.as_bytes()).out);
    assert_eq!(document.at("command").text(), "explain");
    assert!(document.at("differing").list().is_empty());
    assert_eq!(document.at("level").number(), 6);
    let rights = [
        "write_file",
        "read_file",
        "remove_file",
        "make_reg",
        "refer",
    ];
    assert_eq!(document.at("rights").texts(), rights);
    let entries = document.at("entries").list();
    let numbers: Vec<u64> = entries
        .iter()
        .map(|entry| entry.at("entry").number())
        .collect();
    assert_eq!(numbers, [0, 1, 3, 5, 2, 4]);
    assert_eq!(entries[0].at("parent"), &Value::Null);
    assert_eq!(entries[0].at("name"), &Value::Null);
    assert_eq!(entries[0].at("path").text(), "/");
    assert_eq!(entries[0].at("label").text(), "root");
    assert_eq!(entries[2].at("name").text(), "table");
    assert_eq!(entries[2].at("path").text(), "/cal/table");
    assert_eq!(entries[2].at("label").text(), "table");
    assert_eq!(entries[3].at("name").text(), "twin");
    assert_eq!(entries[3].at("label"), &Value::Null);
    assert_eq!(entries[3].at("parent").number(), 1);
    assert_eq!(entries[3].at("object").number(), 4);
    assert_eq!(entries[3].at("links").number(), 2);
    let thread = &document.at("threads").list()[0];
    assert_eq!(thread.at("name").text(), "main");
    assert_eq!(thread.at("layers").list(), [Value::Number(0)]);
    assert_eq!(thread.at("no_new_privs"), &Value::Bool(true));
    assert_eq!(thread.at("admin"), &Value::Bool(false));
    let [layer] = document.at("layers").list() else {
        panic!("one layer");
    };
    assert_eq!(layer.at("fs").texts(), rights);
    assert_eq!(layer.at("net").texts(), ["bind_tcp"]);
    assert!(layer.at("scope").list().is_empty());
    let [cal, _, port] = layer.at("rules").list() else {
        panic!("three rules");
    };
    assert_eq!(cal.at("object").number(), 1);
    assert_eq!(cal.at("paths").texts(), ["/cal"]);
    assert_eq!(cal.at("rights").texts(), ["read_file", "make_reg", "refer"]);
    assert_eq!(port.at("port").number(), 8080);
    let ports = thread.at("ports").list();
    assert_eq!(ports[0].at("port").number(), 8080);
    assert_eq!(ports[1].at("port"), &Value::Null);
    assert_eq!(ports[1].at("denied").texts(), ["bind_tcp"]);
}

/// Thread 0 has no layer; `one` and its clone share a layer, on which each has one of its own. The layer that a thread had alone is
/// given back with it.
const SHARED: &str = "\
create_ruleset fs=write_file -> r
set_no_new_privs main
clone main -> gone
restrict gone r
clone main -> one
restrict one r
clone one -> other
restrict one r
end gone
restrict other r
";

#[test]
fn the_holders_of_layers_are_shown() {
    let ran = skein_with(&["explain", "-"], SHARED.as_bytes());
    for title in [
        "layer 0 below layer 1, held by thread other\n",
        "layer 1, held by layer 0, layer 2\n",
        "layer 2 below layer 1, held by thread one\n",
    ] {
        assert!(ran.out.contains(title), "{}", ran.out);
    }
    let document = json(&skein_with(&["explain", "--json", "-"], SHARED.as_bytes()).out);
    let [youngest, shared, _] = document.at("layers").list() else {
        panic!("three layers");
    };
    assert_eq!(youngest.at("parent").number(), 1);
    assert_eq!(youngest.at("threads").list(), [Value::Number(3)]);
    assert_eq!(shared.at("parent"), &Value::Null);
    assert_eq!(shared.at("holders").number(), 2);
    assert_eq!(shared.at("threads").list(), []);
    let children = [0, 2].map(Value::Number);
    assert_eq!(shared.at("children").list(), children);
}

/// Threads without a layer, within a signal's scope, and within both, one below the other; and one beside them.
const SCOPED: &str = "\
create_ruleset scope=signal -> s
create_ruleset scope=abstract_unix_socket+signal -> both
set_no_new_privs main
clone main -> outer
restrict outer s
clone outer -> inner
restrict inner both
clone main -> other
restrict other s
";

#[test]
fn which_threads_reach_which_is_shown() {
    let ran = skein_with(&["explain", "-"], SCOPED.as_bytes());
    let shown = "
abstract_unix_socket: which thread (row) reaches which (column)
        main
        │ outer
        │ │ inner
        │ │ │ other
thread  │ │ │ │
main    + + + +
outer   + + + +
inner   - - + -
other   + + + +

signal: which thread (row) reaches which (column)
        main
        │ outer
        │ │ inner
        │ │ │ other
thread  │ │ │ │
main    + + + +
outer   - + + -
inner   - - + -
other   - - - +
";
    assert!(ran.out.ends_with(shown), "{}", ran.out);
}

/// What `explain` says of scopes must be what the calls of `run` answer.
#[test]
fn scopes_agree_with_the_calls() {
    let document = json(&skein_with(&["explain", "--json", "-"], SCOPED.as_bytes()).out);
    let mut asked = SCOPED.to_owned();
    for scope in document.at("scopes").list() {
        let call = match scope.at("scope").text() {
            "abstract_unix_socket" => "abstract_socket",
            other => other,
        };
        for from in scope.at("threads").list() {
            let thread = from.at("thread").number();
            expect_reached(&mut asked, &format!("{call} {thread}"), from);
        }
    }
    let ran = skein_with(&["run", "-"], asked.as_bytes());
    assert_eq!(ran.code, 0, "{}", ran.out);
    let whole = "41 calls, 32 expectations, 0 differing\n";
    assert!(ran.out.ends_with(whole), "{}", ran.out);
}

/// Appends a line for each thread that is reached or not.
fn expect_reached(lines: &mut String, request: &str, from: &Value) {
    for (list, answer) in [("granted", "0"), ("denied", "EPERM")] {
        for target in from.at(list).list() {
            let target = target.number();
            lines.push_str(&format!("{request} {target} => {answer}\n"));
        }
    }
}

#[test]
fn a_scope_that_no_layer_handles_is_not_shown() {
    let text = SCOPED.replace("scope=abstract_unix_socket+signal", "scope=signal");
    let ran = skein_with(&["explain", "-"], text.as_bytes());
    assert!(ran.out.contains("\nsignal: "), "{}", ran.out);
    assert!(!ran.out.contains("abstract_unix_socket"), "{}", ran.out);
}

#[test]
fn pictures_fit_in_80_columns() {
    let mut text = String::from("create main /d0 directory\n");
    for depth in 1..40 {
        let name = "n".repeat(depth);
        text.push_str(&format!("create main {depth} directory {name}\n"));
    }
    text.push_str(
        "poke system 1 4294967295\ncreate main /far regular -> far\nlink main far 40 near\n",
    );
    text.push_str(
        "create_ruleset fs=0xffff net=3 scope=3 -> r\nset_admin main on\nset_no_new_privs main\n",
    );
    text.push_str(&format!("clone main -> {}\n", "t".repeat(200)));
    text.push_str(&"restrict main r\n".repeat(16));
    text.push_str(&"restrict 1 r\n".repeat(16));
    for thread in ["u", "v", "w", "x", "y", "z"] {
        text.push_str(&format!("clone main -> {}\n", thread.repeat(200)));
    }
    let whole = skein_with(&["explain", "--all-rights", "-"], text.as_bytes());
    let tree = ["explain", "--all-rights", "-", "--thread", "1"];
    let tree = skein_with(&tree, text.as_bytes());
    let entry = skein_with(&["explain", "-", "--entry", "40"], text.as_bytes());
    for ran in [&whole, &tree, &entry] {
        assert_eq!((ran.code, ran.err.as_str()), (0, ""));
        for line in ran.out.lines() {
            assert!(line.chars().count() <= 80, "{line}");
        }
    }
    assert!(whole.out.contains(" 16 17 18 "), "{}", whole.out);
    assert!(
        whole.out.contains("\n…n/nnnnn/nnnnnn/nnnnnnn/nnnnnnnn  "),
        "{}",
        whole.out
    );
    assert!(tree.out.contains("…40 nn…"), "{}", tree.out);
    assert!(
        tree.out
            .contains("…N: an entry with N directories above it"),
        "{}",
        tree.out
    );
    assert!(tree.out.contains("4294967295 ×2"), "{}", tree.out);
}

#[test]
fn layers_and_marks_are_named() {
    let text = "\
create_ruleset fs=4 -> r
set_admin main on
set_no_new_privs main
restrict main r
restrict main r
";
    let ran = skein_with(&["explain", "-"], text.as_bytes());
    let shown = "thread  layers, oldest first\nmain    0 1; no_new_privs; admin\n";
    assert!(ran.out.contains(shown), "{}", ran.out);
}

#[test]
fn the_demo_shows_the_tree_and_the_worked_answers() {
    let ran = skein(&["demo"]);
    assert_eq!((ran.code, ran.err.as_str()), (0, ""));
    // The row of /cal, from document 01: A gives it 4, B 8452, C 8484, and main has no layer.
    let row = "/cal          wrRfm    -r---    -r-fm    -rRfm\n";
    assert!(ran.out.contains(row), "{}", ran.out);
    for case in [
        "A: execute 3 gives 0*",
        "C: rename 3 to 2 EXDEV*",
        "A 65th layer is E2BIG",
    ] {
        assert!(ran.out.contains(case), "{case}");
    }
    assert!(!ran.out.contains("DIFFERS"));
    for ran in [ran, skein(&["demo", "--all-rights"])] {
        assert!(ran.out.lines().all(|line| line.chars().count() <= 80));
    }
}

#[test]
fn the_demo_is_one_json_document() {
    let ran = skein(&["demo", "--json"]);
    let document = json(&ran.out);
    assert_eq!((ran.code, document.at("command").text()), (0, "demo"));
    assert_eq!(document.at("run").at("differing").number(), 0);
    assert_eq!(document.at("explain").at("threads").list().len(), 4);
}

#[test]
fn json_says_which_layer_denies_a_right() {
    // Layer 0 denies all that it handles but read_dir at the root, layer 1 above it write_file and, unasked, refer.
    let text = "\
create_ruleset fs=read_file+write_file+read_dir net=bind_tcp -> older => new 0
add_path_rule older root read_dir => 0
create_ruleset fs=write_file net=connect_tcp -> younger => new 1
set_no_new_privs main => 0
restrict main older => 0
restrict main younger => 0
";
    let document = json(&skein_with(&["explain", "--json", "-"], text.as_bytes()).out);
    let thread = &document.at("threads").list()[0];
    let by = |at: &Value| -> Vec<(u64, String)> {
        let denying = at.at("by").list().iter();
        let rights = |layer: &Value| layer.at("rights").texts().join("+");
        denying
            .map(|layer| (layer.at("layer").number(), rights(layer)))
            .collect()
    };
    let [root] = thread.at("access").list() else {
        panic!("one entry");
    };
    assert_eq!(root.at("granted").texts(), ["read_dir"]);
    assert_eq!(
        by(root),
        [
            (0, "read_file".to_owned()),
            (1, "write_file+refer".to_owned())
        ]
    );
    let [other] = thread.at("ports").list() else {
        panic!("all ports alike");
    };
    assert_eq!(
        by(other),
        [(0, "bind_tcp".to_owned()), (1, "connect_tcp".to_owned())]
    );
}
