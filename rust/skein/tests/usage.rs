//! Wrong usage, bad input, colour, help.
mod support;
use std::process::Stdio;
use support::{command, example, skein, skein_with, unbroken, Scratch};

#[test]
fn wrong_usage_is_64() {
    for words in [
        &[][..],
        &["walk"],
        &["run"],
        &["run", "a", "b"],
        &["demo", "a"],
        &["run", "a", "--fast"],
        &["run", "a", "--color", "blue"],
        &["run", "a", "--all-rights"],
    ] {
        let ran = skein(words);
        assert_eq!((ran.code, ran.out.as_str()), (64, ""), "{words:?}");
        assert!(
            ran.err.starts_with("skein: ") && ran.err.contains("usage:"),
            "{}",
            ran.err
        );
    }
}

#[test]
fn a_file_that_cannot_be_read_is_3() {
    for file in ["/no/such/file", "/"] {
        for command in ["run", "explain", "why", "search", "least"] {
            let ran = skein(&[command, file]);
            assert_eq!((ran.code, ran.out.as_str()), (3, ""), "{file}");
            assert!(
                ran.err.starts_with(&format!("skein: {file}: ")),
                "{}",
                ran.err
            );
        }
    }
}

#[test]
fn bad_input_is_2_with_its_places() {
    let text = b"clone main\nwalk\nclone main => maybe\n";
    for command in ["run", "explain", "why", "search", "least"] {
        for options in [&[command, "-"][..], &[command, "--json", "-"]] {
            let ran = skein_with(options, text);
            assert_eq!((ran.code, ran.out.as_str()), (2, ""));
            let messages = unbroken(&ran.err);
            let lines: Vec<&str> = messages.lines().collect();
            assert_eq!(lines.len(), 2);
            assert!(
                lines[0].starts_with("-:2: found `walk`; expected a call: fresh, "),
                "{}",
                lines[0]
            );
            assert!(
                lines[1].starts_with("-:3: found `maybe`; expected a number, `new`, "),
                "{}",
                lines[1]
            );
            assert!(ran.err.lines().all(|line| line.chars().count() <= 80));
        }
    }
}

#[test]
fn many_bad_lines_are_counted() {
    let ran = skein_with(&["run", "-"], &b"walk\n".repeat(1000));
    assert_eq!(ran.code, 2);
    assert_eq!(unbroken(&ran.err).lines().count(), 21);
    assert!(ran.err.ends_with("-: 980 more bad lines\n"), "{}", ran.err);
}

#[test]
fn a_scenario_without_a_call_is_bad_input() {
    for text in ["", "\n\n", "# clone main\n"] {
        for options in [
            &["run", "-"][..],
            &["run", "--json", "-"],
            &["explain", "-"],
            &["explain", "--json", "-"],
        ] {
            let ran = skein_with(options, text.as_bytes());
            let message = "-:1: found no call; expected at least one line with a call\n";
            assert_eq!(
                (ran.code, ran.out.as_str(), ran.err.as_str()),
                (2, "", message)
            );
        }
    }
}

#[test]
fn a_label_whose_call_was_refused_is_bad_input() {
    let text = b"clone 9 -> t => ESRCH\nclone t\n";
    let message = "\
-:2: found the thread `t`, whose call was refused; expected a label that a
    successful call bound
";
    let ran = skein_with(&["run", "-"], text);
    assert_eq!((ran.code, ran.err.as_str()), (2, message));
    let played = "\
1  clone 9  ESRCH  ok
1 call, 1 expectation, 0 differing; stopped at line 2
";
    assert_eq!(ran.out, played);
    for options in [
        &["run", "--json", "-"][..],
        &["explain", "-"],
        &["explain", "--json", "-"],
    ] {
        let ran = skein_with(options, text);
        let left = (ran.code, ran.out.as_str(), ran.err.as_str());
        assert_eq!(left, (2, "", message));
    }
}

#[test]
fn unknown_words_of_the_command_line_get_the_known_ones() {
    for (words, message) in [
        (&["walk"][..], "there is no command `walk`; expected one: run, explain, why, search, diff, least, demo, import, policy\n"),
        (&["Explain", "f"], "there is no command `Explain`; expected one: perhaps `explain`\n"),
        (&["run", "f", "--jsno"], "there is no option `--jsno`; expected one: perhaps `--json`\n"),
        (&["run", "f", "--colour=never"], "there is no option `--colour=never`; expected one: --json, --all-rights, --verbose, --color, --thread, --entry, --html, --line, --right, --depth, --states, --from, --policy, --level, --help, --version\n"),
    ] {
        let ran = skein(words);
        assert_eq!(ran.code, 64);
        assert!(unbroken(&ran.err).starts_with(&format!("skein: {message}")), "{}", ran.err);
    }
}

#[test]
fn control_characters_do_not_reach_the_terminal() {
    let odd = "a\u{1b}[2J\r\n\u{202e}b";
    let escaped = "a\\u{1b}[2J\\r\\n\\u{202e}b";
    let bad = Scratch::new(
        odd,
        format!("{odd}\nclone main => {odd}\nclone \0\n").as_bytes(),
    );
    let differing = Scratch::new(&format!("{odd}2"), b"clone 9\n");
    let color = format!("--{odd}");
    for words in [
        &["run", odd][..],
        &["run", bad.path()],
        &["explain", bad.path()],
        &["explain", differing.path()],
        &[odd],
        &["run", "a", odd],
        &["run", "a", &color],
        &["run", "a", "--color", odd],
    ] {
        let ran = skein(words);
        assert!([1, 2, 3, 64].contains(&ran.code), "{words:?}");
        let control = |c: char| c != '\n' && (c.is_control() || c == '\u{202e}');
        assert!(
            !ran.err.contains(control) && !ran.out.contains(control),
            "{}",
            ran.err
        );
        assert!(
            unbroken(&ran.err).contains(escaped),
            "{words:?}: {}",
            ran.err
        );
    }
}

#[test]
#[cfg(unix)]
fn words_need_not_be_text() {
    use std::ffi::OsStr;
    use std::os::unix::ffi::OsStrExt;
    let junk = OsStr::from_bytes(b"--\xff\xfe");
    for (words, code) in [
        (&["run"][..], 3),
        (&["run", "a"], 64),
        (&["run", "a", "--color"], 64),
        (&[], 64),
    ] {
        let output = command(words).arg(junk).output().expect("the program runs");
        assert_eq!(output.status.code(), Some(code), "{words:?}");
    }
}

#[test]
fn help_and_version_are_0() {
    let help = skein(&["--help"]);
    assert_eq!((help.code, help.err.as_str()), (0, ""));
    for word in [
        "run",
        "explain",
        "demo",
        "Exit codes",
        "64",
        "ioctl_dev",
        "signal THREAD TARGET",
        "abstract_socket THREAD TARGET",
        "poke TABLE",
        "Example",
    ] {
        assert!(help.out.contains(word), "{word}");
    }
    assert!(
        help.out.lines().all(|line| line.chars().count() <= 80),
        "wide help"
    );
    assert_eq!(skein(&["-h"]).out, help.out);
    let version = skein(&["--version"]);
    assert_eq!((version.code, version.out.as_str()), (0, "skein 0.1.0\n"));
}

#[test]
fn each_command_has_a_help_of_its_own() {
    for name in ["explain", "why", "search", "diff", "least"] {
        let help = skein(&[name, "--help"]);
        assert_eq!((help.code, help.err.as_str()), (0, ""));
        assert!(help.out.starts_with(&format!("usage: skein {name} ")));
        assert!(help.out.contains("Exit codes: 0 "), "{name}");
        assert!(help
            .out
            .contains(&format!("docs/{}.md", name.to_uppercase())));
        assert!(
            help.out.lines().all(|line| line.chars().count() <= 80),
            "{name}"
        );
    }
    assert_eq!(skein(&["run", "--help"]).out, skein(&["--help"]).out);
}

#[test]
fn the_example_of_the_help_plays() {
    let help = skein(&["--help"]).out;
    let (_, example) = help.split_once("cannot write in it\n").expect("an example");
    let ran = skein_with(&["run", "-"], example.as_bytes());
    assert_eq!(ran.code, 0, "{}{}", ran.out, ran.err);
    assert!(ran.out.ends_with("8 calls, 8 expectations, 0 differing\n"));
}

#[test]
fn colour_is_only_where_it_is_wanted() {
    for words in [&["run"][..], &["explain"], &["demo"]] {
        let file = example("incident.skein");
        let file = (words != ["demo"]).then_some(file.as_str());
        let with = |color: &str| {
            let words: Vec<&str> = words
                .iter()
                .copied()
                .chain(file)
                .chain(["--color", color])
                .collect();
            skein(&words).out.contains('\u{1b}')
        };
        assert!(
            with("always") && !with("never") && !with("auto"),
            "{words:?}"
        );
    }
}

#[test]
fn json_is_never_coloured() {
    let file = example("incident.skein");
    let ran = skein(&["explain", "--json", "--color", "always", &file]);
    assert!(!ran.out.contains('\u{1b}'));
}

#[test]
fn a_reader_that_stops_early_is_no_failure() {
    let mut command = command(&["run", &example("refusals.skein")]);
    let mut child = command
        .stdout(Stdio::piped())
        .stderr(Stdio::piped())
        .spawn()
        .expect("the program runs");
    drop(child.stdout.take());
    let output = child.wait_with_output().expect("the program ends");
    assert_eq!(output.status.code(), Some(0));
    assert!(output.stderr.is_empty());
}

#[test]
#[cfg(target_os = "linux")]
fn output_that_cannot_be_written_is_3() {
    let full = std::fs::OpenOptions::new()
        .write(true)
        .open("/dev/full")
        .expect("/dev/full");
    let output = command(&["demo"])
        .stdout(full)
        .output()
        .expect("the program runs");
    assert_eq!(output.status.code(), Some(3));
}

#[test]
fn junk_never_panics() {
    let mut state: u64 = 7;
    let mut byte = || {
        state = state
            .wrapping_mul(6364136223846793005)
            .wrapping_add(1442695040888963407);
        (state >> 56) as u8
    };
    let text = std::fs::read(example("tutorial.skein")).unwrap();
    for round in 0..60 {
        let junk: Vec<u8> = match round % 2 {
            0 => (0..500).map(|_| byte()).collect(),
            _ => text
                .iter()
                .map(|c| if byte() == 0 { byte() } else { *c })
                .collect(),
        };
        for command in ["run", "explain", "why", "least"] {
            let code = skein_with(&[command, "-"], &junk).code;
            assert!([0, 1, 2].contains(&code), "{command} {round}: {code}");
        }
    }
}
