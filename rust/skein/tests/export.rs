//! `skein policy export`, and `write_policy` in scenarios.
mod support;
use std::path::PathBuf;
use support::{command, json, ran, skein_with, unbroken, Ran};

/// A folder of its own for a test, removed afterwards.
struct Folder(PathBuf);

impl Folder {
    fn new(name: &str) -> Folder {
        let name = format!("skein-export-{name}-{}", std::process::id());
        let path = std::env::temp_dir().join(name);
        std::fs::create_dir_all(&path).expect("a folder");
        Folder(path)
    }

    fn write(&self, name: &str, text: &str) {
        std::fs::write(self.0.join(name), text).expect("a file");
    }

    fn read(&self, name: &str) -> Vec<u8> {
        std::fs::read(self.0.join(name)).expect("a file")
    }

    /// The program with these words, in this folder.
    fn skein(&self, words: &[&str]) -> Ran {
        let output = command(words).current_dir(&self.0).output();
        ran(output.expect("the program runs"))
    }
}

impl Drop for Folder {
    fn drop(&mut self) {
        let _ = std::fs::remove_dir_all(&self.0);
    }
}

/// Document 01's tree with ruleset A, its rules added in the other order.
const A: &str = "create main /cal directory\n\
    create main /import directory\n\
    create_ruleset fs=8486 -> a\n\
    add_path_rule a /import 8486\n\
    add_path_rule a /cal 4\n";

/// Request W12's 64 bytes.
fn bytes_of_a() -> Vec<u8> {
    let mut bytes = vec![0x01, 0x01, 0x00, 0x70, 0x02, 0x18, 0x00, 0x26, 0x21];
    bytes.extend([0; 22]);
    bytes.extend([0x03, 0x0c, 0x00, 0x04]);
    bytes.extend([0; 7]);
    bytes.extend(b"/cal");
    bytes.extend([0x03, 0x0f, 0x00, 0x26, 0x21]);
    bytes.extend([0; 6]);
    bytes.extend(b"/import");
    bytes
}

const TEXT_OF_A: &str = "ruleset p\n\
    masks fs=write_file+read_file+remove_file+make_reg+refer\n\
    path /cal read_file\n\
    path /import write_file+read_file+remove_file+make_reg+refer\n";

#[test]
fn a_ruleset_is_written_or_shown() {
    let folder = Folder::new("written");
    folder.write("a.skein", A);
    // By its label and by its number.
    for ruleset in ["a", "0"] {
        let shown = folder.skein(&["policy", "export", "a.skein", ruleset, "p"]);
        assert_eq!((shown.code, shown.out.as_str()), (0, TEXT_OF_A));
        let words = ["policy", "export", "a.skein", ruleset, "p", "a.policy"];
        let written = folder.skein(&words);
        assert_eq!(
            (written.code, written.out.as_str()),
            (0, "a.policy: 64 bytes\n")
        );
        assert_eq!(folder.read("a.policy"), bytes_of_a());
    }
    let shown = folder.skein(&["policy", "show", "a.policy"]);
    assert_eq!((shown.code, shown.out.as_str()), (0, TEXT_OF_A));
    // The scenario may be standard input.
    let shown = skein_with(&["policy", "export", "-", "a", "p"], A.as_bytes());
    assert_eq!((shown.code, shown.out.as_str()), (0, TEXT_OF_A));
}

#[test]
fn what_was_written_is_applied() {
    let folder = Folder::new("applied");
    folder.write("a.skein", A);
    folder.skein(&["policy", "export", "a.skein", "a", "p", "a.policy"]);
    let again = format!("{A}apply_policy a.policy none p -> b => new 1 length=64\n");
    folder.write("b.skein", &again);
    let written = folder.skein(&["policy", "export", "b.skein", "b", "p", "b.policy"]);
    assert_eq!(written.code, 0, "{}", written.err);
    assert_eq!(folder.read("b.policy"), bytes_of_a());
}

#[test]
fn a_refusal_is_said_in_words() {
    let folder = Folder::new("refused");
    let deep = "poke entries 3 2 84 3 0\npoke entries 4 0 84 3 1\npoke entries 5 1 84 3 1\n\
        poke_name 1 \\*48{d} 84\npoke system 1 85\ncreate_ruleset fs=read_file -> r\n\
        add_path_rule r 84 read_file\n";
    let long = "poke entries 3 2 83 3 0\npoke entries 4 0 83 3 1\npoke entries 5 1 83 3 1\n\
        poke_name 1 \\*48{d} 83\npoke system 1 84\ncreate_ruleset fs=read_file -> r\n\
        repeat 9 create main 83 regular \\i\n\
        repeat 9 add_path_rule r \\*83{/dddddddddddddddddddddddddddddddddddddddddddddddd}/\\i read_file\n";
    let ruleset = "create_ruleset fs=read_file -> r\n";
    let gone = "create main /f regular -> f\nadd_path_rule r f read_file\nremove main f\n";
    let root = "add_path_rule r root read_file\npoke rulesets 0 6\npoke rulesets 6 6\n";
    for (scenario, name, said) in [
        ("fresh 0", "p", "ruleset 0 is not written: EOPNOTSUPP: "),
        (
            "fresh 6",
            "p",
            "ruleset 0 is not written: EBADF: the ruleset is not open",
        ),
        (
            ruleset,
            "",
            "ruleset 0 is not written: EINVAL: the name has not 1 to 32 bytes",
        ),
        (
            ruleset,
            "nnnnnnnnnnnnnnnnnnnnnnnnnnnnnnnnn",
            "EINVAL: the name has not 1 to 32 bytes",
        ),
        (
            &format!("{ruleset}{root}"),
            "p",
            "EPERM: a rule grants write_file at the root, which no rule may",
        ),
        (
            &format!("{ruleset}{gone}"),
            "p",
            "ENOENT: object 1 of a rule has no entry left",
        ),
        (
            deep,
            "p",
            "ENAMETOOLONG: the first path of object 84 has 4116 bytes, more than 4095",
        ),
        (
            long,
            "p",
            "E2BIG: the file would have more than 32768 bytes",
        ),
        ("poke system 0 7", "p", "EIO: the tables are not sound"),
    ] {
        folder.write("a.skein", scenario);
        let words = ["policy", "export", "a.skein", "0", name, "a.policy"];
        let refused = folder.skein(&words);
        let message = unbroken(&refused.err);
        assert_eq!((refused.code, refused.out.as_str()), (1, ""), "{message}");
        assert!(message.starts_with("skein: a.skein: ruleset "), "{message}");
        assert!(message.contains(said), "{message}");
        assert!(!folder.0.join("a.policy").exists());
    }
}

#[test]
fn what_cannot_be_played_or_written() {
    let folder = Folder::new("bad");
    folder.write("a.skein", A);
    folder.write("differs.skein", &format!("{A}clone 9\n"));
    folder.write("closed.skein", &format!("{A}close_ruleset a\n"));
    folder.write("stopped.skein", "fresh 3\ncreate_ruleset net=bind_tcp\n");
    folder.write("bad.skein", "walk\n");
    for (words, code, said) in [
        (
            &["a.skein", "b", "p"][..],
            2,
            "a.skein: there is no ruleset `b` at the end; expected one",
        ),
        (
            &["closed.skein", "a", "p"],
            1,
            "closed.skein: ruleset a is not written: EBADF: the ruleset is not open",
        ),
        (
            &["differs.skein", "a", "p"],
            1,
            "nothing is written, as not every call answered as its line says",
        ),
        (&["stopped.skein", "0", "p"], 2, "stopped.skein:2: found"),
        (&["bad.skein", "0", "p"], 2, "bad.skein:1: found `walk`"),
        (
            &["nowhere.skein", "0", "p"],
            3,
            "nowhere.skein: No such file",
        ),
        (
            &["a.skein", "a", "p", "no/such/file"],
            3,
            "no/such/file: No such",
        ),
        (&["a.skein", "a"], 64, "policy export needs a SCENARIO"),
        (&["a.skein", "a", "p", "b", "c"], 64, "policy export needs"),
        (&["--json", "a.skein", "a", "p"], 64, "--json is for"),
    ] {
        let words = [&["policy", "export"], words].concat();
        let ran = folder.skein(&words);
        let message = unbroken(&ran.err);
        assert_eq!((ran.code, ran.out.as_str()), (code, ""), "{message}");
        assert!(message.contains(said), "{message}");
    }
}

#[test]
fn a_scenario_says_the_bytes() {
    let folder = Folder::new("scenario");
    let bytes = r"\x01\x01\x00p\x02\x18\x00\x26\x21\*22{\x00}\x03\x0c\x00\x04\*7{\x00}/cal\x03\x0f\x00\x26\x21\*6{\x00}/import";
    let lines = format!(
        "{A}write_policy a p => 64 bytes={bytes}\n\
        write_policy a p => ok bytes={bytes}\n\
        write_policy a p room=63 => ENOSPC\n\
        write_policy a p\n\
        write_policy a p => 63\n\
        write_policy a p => 64 bytes=\\x01\n\
        write_policy a p room=0\n"
    );
    folder.write("a.skein", &lines);
    let played = folder.skein(&["run", "a.skein"]);
    let out = unbroken(&played.out);
    assert_eq!(played.code, 1, "{out}");
    assert!(
        out.contains("12 calls, 5 expectations, 3 differing: lines 10, 11, 12"),
        "{out}"
    );
    assert!(out.contains("path /import write_file+"), "{out}");
    assert!(out.contains("the file is longer than the room"), "{out}");
    assert!(out.contains(r"DIFFERS: expected 64 bytes=\x01"), "{out}");
    let played = folder.skein(&["run", "--json", "a.skein"]);
    let document = json(&played.out);
    let calls = document.at("calls").list();
    assert_eq!(calls[5].at("number").number(), 64);
    let written = calls[5].at("written").text();
    assert!(
        written.starts_with(r"\x01\x01\x00p\x02\x18\x00&!\x00"),
        "{written}"
    );
    assert!(written.ends_with("/import"), "{written}");
    assert_eq!(calls[7].at("answer").text(), "ENOSPC");
}

#[test]
fn lines_that_are_not_as_the_form_asks() {
    let folder = Folder::new("lines");
    for (line, said) in [
        ("write_policy 0", "`write_policy RULESET NAME [room=N]`"),
        ("write_policy 0 p 64", "found `64`; expected `room=`"),
        ("write_policy 0 p room=x", "`room=` and at most 65536 bytes"),
        ("write_policy 0 p room=65537", "`room=` and at most 65536"),
        ("write_policy 0 p room=1 2", "no more than `write_policy"),
        ("write_policy 0 p -> x", "it only after create_ruleset"),
        ("write_policy 0 p => 64 layer=0", "bytes= or the end of the"),
        (
            "write_policy 0 p => 64 bytes=a bytes=a",
            "bytes= or the end",
        ),
        ("write_policy 0 p => 64 bytes=\\q", "`\\xNN` for a byte"),
        ("write_policy 0 p => any bytes=a", "`any` alone"),
        ("lookup / => 0 bytes=a", "the end of the line"),
    ] {
        folder.write("a.skein", line);
        let ran = folder.skein(&["run", "a.skein"]);
        let message = unbroken(&ran.err);
        assert_eq!(ran.code, 2, "{line}: {message}");
        assert!(message.contains(said), "{line}: {message}");
    }
}
