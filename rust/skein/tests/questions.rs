//! `skein why`, `search`, `diff` and `least`: what they say is played.
mod support;
use random::Random;
use support::{example, json, skein, skein_with, Scratch, Value};

/// The answers of a scenario, by line.
fn answers(text: &str) -> Vec<(usize, String)> {
    let document = json(&skein_with(&["run", "--json", "-"], text.as_bytes()).out);
    let calls = document.at("calls").list().iter();
    calls
        .map(|call| {
            (
                call.at("line").number() as usize,
                call.at("answer").text().to_owned(),
            )
        })
        .collect()
}

/// The first sandbox of examples/together.skein alone, without the calls that show it.
fn together() -> String {
    let text = std::fs::read_to_string(example("together.skein")).expect("the example");
    let before = text.split("# The first by itself").next();
    before.expect("its beginning").to_owned()
}

/// A scenario with rules put in, and the refused changes of the tree above a line left out; and where that line then stands.
fn remedied(text: &str, line: usize, rules: &[(usize, String)]) -> (String, usize) {
    let refused: Vec<usize> = answers(text)
        .into_iter()
        .filter(|(_, answer)| answer.starts_with('E'))
        .map(|(line, _)| line)
        .collect();
    let (mut lines, mut at) = (Vec::new(), 0);
    for (place, written) in text.lines().enumerate() {
        let number = place + 1;
        let here = rules.iter().filter(|(before, _)| *before == number);
        lines.extend(here.map(|(_, rule)| rule.clone()));
        let call = written.split(' ').next().unwrap_or_default();
        let changes = ["create", "remove", "link", "rename", "exchange"].contains(&call);
        let left_out = number < line && changes && refused.contains(&number);
        lines.push(if left_out {
            String::new()
        } else {
            written.to_owned()
        });
        if number == line {
            at = lines.len();
        }
    }
    (lines.join("\n"), at)
}

/// Every remedy of the examples grants its line, and without any one of its rights the line is refused.
#[test]
fn every_remedy_is_enough_and_no_more() {
    let mut tried = 0;
    for name in [
        "incident.skein",
        "tutorial.skein",
        "together.skein",
        "worked.skein",
    ] {
        let text = std::fs::read_to_string(example(name)).expect("the example");
        let ran = skein(&["why", "--json", &example(name)]);
        assert_eq!(ran.code, 0, "{}", ran.err);
        for refusal in json(&ran.out).at("refusals").list() {
            if refusal.at("remedy") == &Value::Null {
                assert!(!refusal.at("no_remedy").text().is_empty());
                continue;
            }
            let line = refusal.at("call").at("line").number() as usize;
            let remedy = refusal.at("remedy");
            let rules = remedy.at("rules").list().iter();
            let rules: Vec<(usize, String)> = rules
                .map(|rule| {
                    (
                        rule.at("before").number() as usize,
                        rule.at("text").text().to_owned(),
                    )
                })
                .collect();
            let answer = |rules: &[(usize, String)]| {
                let (text, at) = remedied(&text, line, rules);
                let answers = answers(&text);
                let here = answers.into_iter().find(|(line, _)| *line == at);
                here.expect("the line").1
            };
            assert_eq!(answer(&rules), remedy.at("answer").text(), "{name}:{line}");
            for fewer in one_right_fewer(&rules) {
                let refused = answer(&fewer);
                assert!(
                    ["EACCES", "EXDEV"].contains(&refused.as_str()),
                    "{name}:{line}"
                );
                tried += 1;
            }
        }
    }
    assert!(tried > 25, "{tried}");
}

/// Rules without one right of one of them, for each right.
fn one_right_fewer(rules: &[(usize, String)]) -> Vec<Vec<(usize, String)>> {
    let mut all = Vec::new();
    for (place, (before, text)) in rules.iter().enumerate() {
        let (call, rights) = text.rsplit_once(' ').expect("rights at the end");
        let rights: Vec<&str> = rights.split('+').collect();
        for dropped in &rights {
            let kept: Vec<&str> = rights
                .iter()
                .copied()
                .filter(|right| right != dropped)
                .collect();
            let mut fewer = rules.to_vec();
            fewer.remove(place);
            if !kept.is_empty() {
                fewer.insert(place, (*before, format!("{call} {}", kept.join("+"))));
            }
            all.push(fewer);
        }
    }
    all
}

/// Two layers deny, and each gets its rule; refer that is handled unasked is granted by none; a line may be asked about that no
/// layer refused.
#[test]
fn each_layer_that_refuses_gets_its_rule() {
    let text = "\
create main /d directory
create main /d/f regular
create_ruleset fs=write_file -> one
create_ruleset fs=write_file+read_file net=bind_tcp -> two
set_no_new_privs main
restrict main one
restrict main two
access main /d/f write_file+read_file => EACCES layer=1 rights=write_file+read_file
port main 80 bind_tcp => EACCES
create main /d/e directory
rename main /d/f /d/e/f => EXDEV layer=1 rights=refer
access main /gone read_file => ENOENT
";
    let asked = |line: &str| skein_with(&["why", "-", "--line", line], text.as_bytes());
    let both = "\
8  access main /d/f write_file+read_file  EACCES
    EACCES: layer 1 denies write_file+read_file
    the least that grants it:
      add_path_rule one /d/f write_file  # before line 6
      add_path_rule two /d/f write_file+read_file  # before line 7
    played so, it answers 0
";
    assert_eq!(asked("8").out, both);
    let port = "\
9  port main 80 bind_tcp  EACCES
    EACCES: layer 1 denies bind_tcp
    the least that grants it:
      add_port_rule two 80 bind_tcp  # before line 7
    played so, it answers 0
";
    assert_eq!(asked("9").out, port);
    let unasked = "\
11  rename main /d/f /d/e/f  EXDEV
    EXDEV: layer 1 denies refer
    a link or move to another directory needs refer at both, and layer 1 denies
      it at one of them or both
    no rule would grant it: the ruleset must ask to handle refer before a rule
      can grant it
";
    assert_eq!(asked("11").out, unasked);
    let no_layer = "\
12  access main /gone read_file  ENOENT
    ENOENT: no such entry; no layer refused it, and no rule changes that
";
    assert_eq!(asked("12").out, no_layer);
    assert!(asked("1").out.ends_with("    it was not refused\n"));
    let nothing = asked("13");
    let left = (nothing.code, nothing.out.as_str(), nothing.err.as_str());
    assert_eq!(left, (2, "", "-:13: no call\n"));
    let ran = skein_with(&["why", "-"], b"clone main\n");
    assert_eq!(
        (ran.code, ran.out.as_str()),
        (0, "No layer refused a line.\n")
    );
}

/// What a search finds is played behind its file; each of the two threads alone finds nothing, and is one sandbox.
#[test]
fn what_is_found_plays() {
    let text = together();
    let found = skein_with(&["search", "-"], text.as_bytes());
    assert_eq!((found.code, found.err.as_str()), (1, ""));
    let whole = format!("{text}\n{}", found.out);
    let ran = skein_with(&["run", "-"], whole.as_bytes());
    assert_eq!(ran.code, 0, "{}{}", ran.out, ran.err);
    assert!(found
        .out
        .contains("\nrename mover /cal/table /import/table   => ok\n"));
    for one in ["mover", "writer"] {
        let ran = skein_with(&["search", "--json", "-", "--thread", one], text.as_bytes());
        let document = json(&ran.out);
        assert_eq!((ran.code, document.at("answer").text()), (0, "none"));
        assert_eq!(document.at("depth").number(), 4);
        assert_eq!(document.at("one_sandbox"), &Value::Bool(true));
        assert_eq!(document.at("found"), &Value::Null);
    }
    let document = json(&skein_with(&["search", "--json", "-"], text.as_bytes()).out);
    assert_eq!(document.at("threads").texts(), ["mover", "writer"]);
    assert_eq!(document.at("answer").text(), "found");
    assert_eq!(document.at("one_sandbox"), &Value::Bool(false));
    let found = document.at("found");
    assert_eq!(found.at("path").text(), "/cal/table");
    assert_eq!(found.at("right").text(), "write_file");
    assert_eq!(found.at("calls").list().len(), 1);
    assert_eq!(found.at("scenario").list().len(), 4);
}

#[test]
fn a_search_says_how_far_it_looked() {
    let text = together();
    for (options, code, said) in [
        (&["--right", "read_file"][..], 0, "None to depth 4"),
        (&["--entry", "/import", "--depth=2"], 0, "None to depth 2"),
        (
            &["--right=read_file", "--states", "5"],
            4,
            "None to depth 0",
        ),
        (&["--depth", "0"], 0, "None to depth 0"),
        (&["--entry", "/cal/table"], 1, "Found with 1 call"),
    ] {
        let words = [&["search", "-"], options].concat();
        let ran = skein_with(&words, text.as_bytes());
        assert_eq!((ran.code, ran.err.as_str()), (code, ""), "{options:?}");
        assert!(ran.out.starts_with(&format!("# {said}")), "{}", ran.out);
    }
    // Nothing is granted, so there is one state, whatever the depth.
    let shut = "create main /d directory\ncreate_ruleset fs=0xffff -> rs\nset_no_new_privs main\nrestrict main rs\n";
    let ran = skein_with(&["search", "-"], shut.as_bytes());
    let none = "# None: main comes to no right that it lacked, by any number of calls.\n# 1 state looked at.\n";
    assert!(ran.code == 0 && ran.out.starts_with(none), "{}", ran.out);
    for (text, words, message) in [
        (
            "clone main\n",
            &[][..],
            "skein: -: no thread has a layer; --thread names others\n",
        ),
        (
            "clone 9\n",
            &[],
            "-:1: `clone 9` must succeed, but answered ESRCH: no such thread\n",
        ),
        (
            shut,
            &["--thread", "mian"],
            "skein: -: there is no thread `mian` at the end; expected one: main\n",
        ),
    ] {
        let ran = skein_with(&[&["search", "-"], words].concat(), text.as_bytes());
        let left = (ran.code, ran.out.as_str(), ran.err.as_str());
        assert_eq!(left, (2, "", message));
    }
}

/// A small policy of two threads, with ports and scopes.
fn policy(random: &mut Random) -> String {
    let mut text = String::from("create main /a directory\ncreate main /a/x regular\ncreate main /b directory\nset_no_new_privs main\n");
    if random.chance(30) {
        text.push_str("create main /b/y fifo\n");
    }
    for thread in ["one", "two"] {
        let (fs, net, scope) = (random.bits_of(0xffff) | 4, random.below(4), random.below(4));
        text.push_str(&format!(
            "create_ruleset fs={fs} net={net} scope={scope} -> {thread}\n"
        ));
        for place in ["/a", "/a/x", "/b", "root"] {
            let rights = random.bits_of(fs);
            text.push_str(&format!("add_path_rule {thread} {place} {rights} => any\n"));
        }
        let port = random.between(80, 82);
        text.push_str(&format!("add_port_rule {thread} {port} {net} => any\n"));
        text.push_str(&format!(
            "clone main -> {thread}\nrestrict {thread} {thread}\n"
        ));
    }
    text
}

/// What one thread has at each path, by `explain`.
fn granted(text: &str, thread: usize) -> Vec<(String, Vec<String>)> {
    let words = ["explain", "--json", "--all-rights", "-"];
    let document = json(&skein_with(&words, text.as_bytes()).out);
    let paths = document.at("entries").list().iter();
    let paths = paths.map(|entry| entry.at("path").text().to_owned());
    let access = document.at("threads").list()[thread]
        .at("access")
        .list()
        .iter();
    let rights = access.map(|at| {
        at.at("granted")
            .texts()
            .iter()
            .map(|right| (*right).to_owned())
            .collect()
    });
    paths.zip(rights).collect()
}

/// What `diff` says of entries is what `explain` says of both files; a file differs in nothing from itself.
#[test]
fn differences_are_those_of_the_pictures() {
    let mut random = Random::new(7);
    for round in 0..12 {
        let [old, new] = [policy(&mut random), policy(&mut random)];
        let files = [("old", &old), ("new", &new)]
            .map(|(name, text)| Scratch::new(&format!("{name}{round}.skein"), text.as_bytes()));
        let [a, b] = [files[0].path(), files[1].path()];
        let ran = skein(&["diff", "--json", a, b]);
        assert_eq!((ran.code, ran.err.as_str()), (1, ""));
        let document = json(&ran.out);
        let mut said = Vec::new();
        for thread in document.at("threads").list() {
            for entry in thread.at("entries").list() {
                let of = |list: &str| entry.at(list).texts().join("+");
                let (thread, path) = (thread.at("thread").text(), entry.at("path").text());
                said.push(format!("{thread} {path} {} {}", of("gained"), of("lost")));
            }
        }
        let mut expected = Vec::new();
        for (thread, name) in ["main", "one", "two"].iter().enumerate() {
            let before = granted(&old, thread);
            for (path, now) in granted(&new, thread) {
                let Some((_, before)) = before.iter().find(|(old, _)| *old == path) else {
                    continue;
                };
                let less = |one: &[String], two: &[String]| {
                    let less: Vec<&str> = one
                        .iter()
                        .filter(|right| !two.contains(right))
                        .map(String::as_str)
                        .collect();
                    less.join("+")
                };
                let (gained, lost) = (less(&now, before), less(before, &now));
                if !(gained.is_empty() && lost.is_empty()) {
                    expected.push(format!("{name} {path} {gained} {lost}"));
                }
            }
        }
        assert_eq!(said, expected, "{old}\n{new}");
        assert_eq!(skein(&["diff", a, a]).code, 0);
        assert_eq!(
            skein(&["diff", b, b]).out,
            "No difference: the same rights for every thread.\n"
        );
    }
}

#[test]
fn both_files_of_a_difference_must_answer_as_they_say() {
    let good = Scratch::new("good.skein", b"clone main\n");
    let bad = Scratch::new("bad.skein", b"clone 9\n");
    let ran = skein(&["diff", good.path(), bad.path()]);
    assert_eq!((ran.code, ran.out.as_str()), (2, ""));
    assert!(ran.err.contains("bad.skein:1: "), "{}", ran.err);
    let ran = skein(&["diff", good.path(), "/no/such/file"]);
    assert_eq!((ran.code, ran.out.as_str()), (3, ""));
}

/// A file that may be made at the root only under a policy that does not handle that; refer is handled with any right, and cannot be
/// granted there.
#[test]
fn what_the_root_needs_is_not_handled() {
    let text =
        "create main /d directory\nclone main -> t\ncreate t /f regular\ncreate t /d/f regular\n";
    let ran = skein_with(&["least", "-"], text.as_bytes());
    let policy = "\
# The least policy of t, before line 3: no rule is needed; make_reg cannot be
# handled, as it is needed at the root, where no rule may grant it
create_ruleset fs=0xfeff net=0x3 -> least-t
set_no_new_privs t
restrict t least-t
close_ruleset least-t
";
    assert_eq!((ran.code, ran.out.as_str()), (0, policy));
    let text = format!("{text}rename t /f /d/g\n");
    let ran = skein_with(&["least", "-"], text.as_bytes());
    let none = "No policy lets every call succeed: no rule on the root may grant refer.\n";
    assert_eq!((ran.code, ran.out.as_str()), (1, none));
    let document = json(&skein_with(&["least", "--json", "-"], text.as_bytes()).out);
    assert!(document.at("policies").list().is_empty());
    assert_eq!(
        document.at("none").text(),
        "no rule on the root may grant refer"
    );
}

/// Two threads get a policy each, `--thread` and `--from` choose, and the lines are played where they belong.
#[test]
fn the_policies_of_a_trace_are_played() {
    let text = "\
create main /d directory
create main /d/f regular
clone main -> one
clone main -> two
access one /d/f read_file
access two /d/f write_file
port two 80 bind_tcp
access one /d/f write_file
";
    let document = json(&skein_with(&["least", "--json", "-"], text.as_bytes()).out);
    let mut lines: Vec<String> = text.lines().map(str::to_owned).collect();
    let [one, two] = document.at("policies").list() else {
        panic!("two policies");
    };
    assert_eq!(
        one.at("rules").list()[0].at("rights").texts(),
        ["write_file", "read_file"]
    );
    assert_eq!(two.at("rules").list()[0].at("path").text(), "/d/f");
    assert_eq!(two.at("rules").list()[1].at("port").number(), 80);
    for policy in [two, one] {
        let before = policy.at("before").number() as usize;
        let put_in = policy.at("lines").texts().into_iter().map(str::to_owned);
        lines.splice(before - 1..before - 1, put_in);
    }
    lines.push("access one /d/f execute => EACCES".to_owned());
    lines.push("port two 81 bind_tcp => EACCES".to_owned());
    let ran = skein_with(&["run", "-"], lines.join("\n").as_bytes());
    assert_eq!(ran.code, 0, "{}", ran.out);
    let words = ["least", "--json", "-", "--thread=one", "--from=6"];
    let document = json(&skein_with(&words, text.as_bytes()).out);
    let [one] = document.at("policies").list() else {
        panic!("one policy");
    };
    assert_eq!(one.at("before").number(), 8);
    assert_eq!(
        one.at("rules").list()[0].at("rights").texts(),
        ["write_file"]
    );
    for (words, message) in [
        (
            &["--thread", "three"][..],
            "skein: -: `three` makes no call with a verdict; these do: main, one, two\n",
        ),
        (
            &["--from", "9"],
            "skein: -: no call with a verdict from line 9 on\n",
        ),
    ] {
        let ran = skein_with(&[&["least", "-"], words].concat(), text.as_bytes());
        let left = (ran.code, ran.out.as_str(), ran.err.as_str());
        assert_eq!(left, (2, "", message));
    }
    for (anew, line) in [("fresh 6\n", 9), ("log 9\nrestart\n", 10)] {
        let ran = skein_with(&["least", "-"], format!("{text}{anew}").as_bytes());
        let message = format!("skein: -: line {line} starts anew, and no policy lasts so long\n");
        assert_eq!((ran.code, ran.err), (2, message));
    }
}
