//! `skein policy`, the differences of policy files, policy files in scenarios, and the examples of docs/POLICY.md.
mod support;
use std::path::{Path, PathBuf};
use support::{command, example, json, ran, skein, skein_with, unbroken, Ran, Scratch};

/// A folder of its own for a test, removed afterwards.
struct Folder(PathBuf);

impl Folder {
    fn new(name: &str) -> Folder {
        let name = format!("skein-policy-{name}-{}", std::process::id());
        let path = std::env::temp_dir().join(name);
        std::fs::create_dir_all(&path).expect("a folder");
        Folder(path)
    }

    fn write(&self, name: &str, bytes: &[u8]) -> String {
        let path = self.0.join(name);
        std::fs::write(&path, bytes).expect("a file");
        path.to_str().expect("a UTF-8 path").to_owned()
    }

    /// The program with these words, in this folder.
    fn skein(&self, words: &[&str]) -> Ran {
        let output = command(words).current_dir(&self.0).output();
        ran(output.expect("the program runs"))
    }
}

impl Drop for Folder {
    fn drop(&mut self) {
        let _ = std::fs::remove_dir_all(&self.0);
    }
}

fn field(tag: u8, value: &[u8]) -> Vec<u8> {
    let length = u16::try_from(value.len()).expect("a length");
    [&[tag], &length.to_le_bytes()[..], value].concat()
}

fn ruleset(name: &[u8], masks: [u64; 3]) -> Vec<u8> {
    let masks = masks.map(u64::to_le_bytes).concat();
    [field(1, name), field(2, &masks)].concat()
}

fn path_rule(rights: u64, path: &[u8]) -> Vec<u8> {
    field(3, &[&rights.to_le_bytes(), path].concat())
}

fn port_rule(rights: u64, port: u16) -> Vec<u8> {
    let value = [&rights.to_le_bytes()[..], &port.to_le_bytes()];
    field(4, &value.concat())
}

fn group(level: u8, fields: &[u8]) -> Vec<u8> {
    field(5, &[&[level], fields].concat())
}

/// Fields in so many groups, each inside the next.
fn nested(depth: usize, fields: &[u8]) -> Vec<u8> {
    (0..depth).fold(fields.to_vec(), |inner, _| group(1, &inner))
}

/// Numbers that look random and are the same each time.
struct Noise(u64);

impl Noise {
    fn number(&mut self) -> u64 {
        self.0 ^= self.0 << 13;
        self.0 ^= self.0 >> 7;
        self.0 ^= self.0 << 17;
        self.0
    }

    fn below(&mut self, bound: usize) -> usize {
        (self.number() >> 17) as usize % bound
    }

    fn bytes(&mut self, most: usize) -> Vec<u8> {
        let length = self.below(most + 1);
        // Often text, now and then any byte.
        let byte = |noise: &mut Noise| match noise.below(4) {
            0 => noise.number() as u8,
            1 => b" #\\\"\t\n->="[noise.below(9)],
            _ => b"/abc.i*{}"[noise.below(9)],
        };
        (0..length).map(|_| byte(self)).collect()
    }

    fn mask(&mut self) -> u64 {
        match self.below(4) {
            0 => 0,
            1 => self.number(),
            _ => self.number() & 0xffff,
        }
    }

    /// A fine file.
    fn file(&mut self) -> Vec<u8> {
        let mut file = Vec::new();
        for number in 0..self.below(5) {
            let mut name = self.bytes(30);
            name.push(u8::try_from(number).expect("few rulesets"));
            file.extend(ruleset(&name, [0; 3].map(|_| self.mask())));
            file.extend(self.rules(8));
        }
        file
    }

    /// Rules and groups, where so many more may stand inside one another.
    fn rules(&mut self, depth: usize) -> Vec<u8> {
        let rules = (0..self.below(6)).flat_map(|_| match self.below(4) {
            0 => port_rule(self.mask(), self.number() as u16),
            1 if depth > 0 => {
                let level = 1 + self.below(6) as u8;
                group(level, &self.rules(depth - 1))
            }
            _ => path_rule(self.mask(), &self.bytes(40)),
        });
        rules.collect()
    }
}

#[test]
fn show_and_build_give_the_same_bytes() {
    let folder = Folder::new("same");
    let mut noise = Noise(0x9e37_79b9_7f4a_7c15);
    let mut longest = ruleset(b"p", [4, 0, 0]);
    longest.extend(path_rule(4, &vec![0xff; 32_768 - 31 - 11]));
    let deepest = [ruleset(b"p", [4, 0, 0]), nested(8, &path_rule(4, b"/"))].concat();
    let random = (0..60).map(|_| noise.file());
    for file in random.chain([Vec::new(), longest, deepest]) {
        let written = folder.write("file", &file);
        let shown = folder.skein(&["policy", "show", &written]);
        assert_eq!((shown.code, shown.err.as_str()), (0, ""), "{file:?}");
        assert!(shown
            .out
            .lines()
            .all(|line| !line.chars().any(char::is_control)));
        folder.write("text", shown.out.as_bytes());
        let built = folder.skein(&["policy", "build", "text", "again"]);
        assert_eq!(built.code, 0, "{}{}", shown.out, built.err);
        let again = std::fs::read(folder.0.join("again")).expect("a file");
        assert_eq!(again, file, "{}", shown.out);
    }
}

#[test]
fn what_is_wrong_is_said_in_words() {
    let folder = Folder::new("words");
    let p = ruleset(b"p", [4, 0, 0]);
    let name = field(1, b"p");
    for (file, place, words) in [
        (
            vec![9],
            0,
            "found 1 stray byte at the end; expected a field",
        ),
        (
            [&p[..], &[3, 8]].concat(),
            31,
            "found 2 stray bytes at the end",
        ),
        (
            p[..30].to_vec(),
            4,
            "a field of tag 2 with 24 bytes to come, of which 23 are there",
        ),
        (
            name.clone(),
            4,
            "found the end of the file; expected the masks (tag 2) of ruleset p",
        ),
        (
            [&name[..], &path_rule(4, b"/")].concat(),
            4,
            "found a path rule (tag 3); expected the masks",
        ),
        (
            [&name[..], &field(2, &[0; 23])].concat(),
            4,
            "found masks of 23 bytes; expected 24 bytes",
        ),
        (
            path_rule(4, b"/"),
            0,
            "expected a ruleset's name (tag 1) at the start",
        ),
        (
            ruleset(b"", [4, 0, 0]),
            0,
            "found a ruleset's name of 0 bytes; expected 1 to 32 bytes",
        ),
        (
            ruleset(&[b'n'; 33], [4, 0, 0]),
            0,
            "found a ruleset's name of 33 bytes",
        ),
        (
            [&p[..], &name].concat(),
            31,
            "found a second ruleset p; expected another name: the first is at byte 0",
        ),
        (
            [&p[..], &p[4..]].concat(),
            31,
            "found masks (tag 2); expected them right behind a ruleset's name",
        ),
        (
            [&p[..], &field(3, &[0; 7])].concat(),
            31,
            "found a path rule of 7 bytes; expected at least 8",
        ),
        (
            [&p[..], &field(4, &[0; 9])].concat(),
            31,
            "found a port rule of 9 bytes; expected 10 bytes",
        ),
        (
            [&p[..], &field(9, &[0; 9])].concat(),
            31,
            "found tag 9, which means nothing; expected",
        ),
        (group(1, &[]), 0, "found a group (tag 5); expected a ruleset's name (tag 1) at the start"),
        ([&p[..], &field(5, &[])].concat(), 31, "found a group without a level; expected a level from 1 to 6"),
        ([&p[..], &group(7, &[])].concat(), 31, "found a group from level 7 on; expected a level from 1 to 6"),
        ([&p[..], &group(6, &p)].concat(), 35, "found a ruleset's name (tag 1); expected it outside of groups"),
        ([&p[..], &group(6, &[9, 9])].concat(), 35, "found 2 stray bytes at the end"),
        ([&p[..], &group(6, &[3, 9, 0, 1]), &path_rule(4, b"/")].concat(), 35, "of which 1 is there; expected a value that ends with its group"),
        ([&p[..], &group(2, &group(6, &field(9, &[])))].concat(), 39, "found tag 9, which means nothing; expected a path rule (tag 3), a port rule (4) or a group (5)"),
        ([&p[..], &nested(9, &[])].concat(), 63, "found a group inside 8 others; expected at most 8"),
    ] {
        folder.write("file", &file);
        let Ran { code, out, err } = folder.skein(&["policy", "check", "file"]);
        let said = unbroken(&err);
        assert_eq!((code, out.as_str()), (2, ""), "{said}");
        assert!(said.starts_with(&format!("file: byte {place}:")), "{said}");
        assert!(said.contains(words), "{said}");
        // The same of both files, and nothing of a show.
        assert_eq!(folder.skein(&["policy", "show", "file"]).err, err);
        assert_eq!(
            folder.skein(&["policy", "find", "none", "file", "p"]).err,
            err
        );
    }
    folder.write("file", &[0; 32_769]);
    let long = folder.skein(&["policy", "check", "file"]);
    assert!(
        long.code == 2 && long.err.contains("more than 32768 bytes"),
        "{}",
        long.err
    );
}

#[test]
fn bad_lines_are_named() {
    let folder = Folder::new("lines");
    for (text, line, words) in [
        ("ruleset", 1, "`ruleset NAME`"),
        ("\nruleset a b\n", 2, "found `ruleset a b`"),
        ("walk", 1, "found `walk`; expected `ruleset NAME`"),
        (
            "ruleset p\nmasks fs=read",
            2,
            "expected a number, none, or rights at files joined by +",
        ),
        ("ruleset p\nmasks fs=read_fil", 2, "perhaps `read_file`"),
        ("ruleset p\nmasks fs=4 fs=4", 2, "it once"),
        ("ruleset p\nmasks ports=1", 2, "fs=, net= or scope="),
        ("ruleset p\nmasks fs=4\npath /a", 3, "`path PATH RIGHTS`"),
        ("ruleset p\nmasks fs=4\npath /\\i 4", 3, "no `\\i`"),
        (
            "ruleset p\nmasks fs=4\npath /\\x 4",
            3,
            "`\\xNN` for a byte",
        ),
        (
            "ruleset p\nmasks fs=4\nport 65536 1",
            3,
            "a port up to 65535",
        ),
        ("ruleset p\nmasks fs=4\nport x 1", 3, "a port: a number"),
        (
            "ruleset p\nmasks fs=4\nend",
            3,
            "found `end`; expected it behind a `group`",
        ),
        (
            "ruleset p\nmasks fs=4\ngroup 4\npath / 4",
            3,
            "found a group without `end`",
        ),
        ("ruleset p\nmasks fs=4\ngroup\nend", 3, "`group LEVEL`"),
        (
            "ruleset p\nmasks fs=4\ngroup 256\nend",
            3,
            "a level from 1 to 6",
        ),
        (
            "ruleset p\nmasks fs=4\ngroup 7\nend",
            3,
            "found a group from level 7 on",
        ),
        (
            "ruleset p\nmasks fs=4\ngroup 4\n\nruleset q\nmasks\nend",
            5,
            "it outside of groups",
        ),
        // What the broker finds is said with its line, too.
        (
            "ruleset p\n# comment\nmasks fs=4\n\nruleset p\nmasks fs=4",
            5,
            "a second ruleset p",
        ),
        ("ruleset p\n", 1, "the end of the file; expected the masks"),
        (
            "ruleset p\nmasks fs=4\n\n\nmasks fs=4",
            5,
            "right behind a ruleset's name",
        ),
        (
            "ruleset p\nmasks fs=4\npath \\*32767{/} 4\npath / 4",
            3,
            "expected at most 32768",
        ),
    ] {
        folder.write("text.txt", text.as_bytes());
        let checked = folder.skein(&["policy", "check", "text.txt"]);
        let said = unbroken(&checked.err);
        assert_eq!(checked.code, 2, "{text}: {said}");
        assert!(
            said.starts_with(&format!("text.txt:{line}: ")),
            "{text}: {said}"
        );
        assert!(said.contains(words), "{text}: {said}");
        let built = folder.skein(&["policy", "build", "text.txt", "file"]);
        assert_eq!((built.code, &built.err), (2, &checked.err));
        assert!(!folder.0.join("file").exists());
    }
}

#[test]
fn files_that_cannot_be_read_or_written() {
    let folder = Folder::new("unread");
    folder.write("fine.txt", b"ruleset p\nmasks fs=4\n");
    for words in [
        &["policy", "check", "nowhere"][..],
        &["policy", "show", "nowhere.txt"],
        &["policy", "find", "none", "nowhere", "p"],
        &["policy", "build", "nowhere", "file"],
        &["policy", "build", "fine.txt", "no/folder"],
    ] {
        let ran = folder.skein(words);
        assert_eq!((ran.code, ran.out.as_str()), (3, ""), "{words:?}");
        assert!(ran.err.contains("No such file"), "{}", ran.err);
    }
    let missing = folder.skein(&["policy", "find", "fine.txt", "none", "q"]);
    assert_eq!(missing.code, 1);
    assert!(missing
        .err
        .contains("neither fine.txt nor none has a ruleset `q`"));
    let input = ruleset(b"p", [4, 0, 0]);
    let shown = skein_with(&["policy", "show", "-"], &input);
    assert_eq!(shown.out, "ruleset p\nmasks fs=read_file\n");
}

#[test]
fn a_scenario_says_where_and_what() {
    let folder = Folder::new("scenario");
    folder.write("fine.txt", b"ruleset p\nmasks fs=4\npath /x read_file\n");
    folder.write("cut.policy", &[1, 1, 0, b'p']);
    let scenario = "find_policy fine.txt none p => 0 file=stock place=0 length=44\n\
        find_policy fine.txt cut.policy p => EBADMSG file=site place=4 length=0\n\
        apply_policy fine.txt none p => ENOENT file=none\n\
        apply_policy fine.txt cut.policy p\n";
    folder.write("a.skein", scenario.as_bytes());
    // From another directory, too: files are where the scenario is.
    let path = folder.0.join("a.skein");
    let played = skein(&["run", path.to_str().expect("a path")]);
    assert_eq!(played.code, 1, "{}{}", played.out, played.err);
    let out = unbroken(&played.out);
    assert!(out.contains("stock file, bytes 0 to 44"), "{out}");
    assert!(
        out.contains("site file, byte 4: found the end of the file"),
        "{out}"
    );
    assert!(
        out.contains("4 calls, 3 expectations, 1 differing: line 4"),
        "{out}"
    );
    let played = skein(&["run", "--json", path.to_str().expect("a path")]);
    let document = json(&played.out);
    let calls = document.at("calls").list();
    assert_eq!(calls[1].at("policy").at("file").text(), "site");
    assert_eq!(calls[1].at("policy").at("place").number(), 4);
    assert!(calls[1].at("policy").at("fault").text().contains("masks"));
    assert_eq!(calls[0].at("policy").at("length").number(), 44);
}

#[test]
fn files_of_a_scenario_that_cannot_be_read() {
    let folder = Folder::new("bad");
    folder.write("wrong.txt", b"\nruleset p q\n");
    for (line, words) in [
        ("find_policy nowhere none p", "`nowhere`: No such file"),
        ("find_policy none wrong.txt p", "`wrong.txt`, line 2: found"),
        ("find_policy bytes= none p", "bytes behind `bytes=`"),
        ("find_policy none none", "too few words"),
        (
            "find_policy none none p -> x",
            "it only after create_ruleset, apply_policy",
        ),
        (
            "find_policy none none p => ENOENT layer=0",
            "file=, place=, length=",
        ),
        (
            "find_policy none none p => ENOENT file=here",
            "stock, site or none",
        ),
        (
            "access main root 4 => 0 file=none",
            "layer=, rights=, entries_read=",
        ),
    ] {
        folder.write("a.skein", line.as_bytes());
        let ran = folder.skein(&["run", "a.skein"]);
        let said = unbroken(&ran.err);
        assert_eq!(ran.code, 2, "{line}: {said}");
        assert!(
            said.contains(words.trim_end_matches(" found")),
            "{line}: {said}"
        );
    }
}

#[test]
fn the_example_plays() {
    let played = skein(&["run", &example("policy/policy.skein")]);
    assert_eq!(played.code, 0, "{}{}", played.out, played.err);
    for file in ["stock.txt", "site.txt"] {
        let path = example(&format!("policy/{file}"));
        let checked = skein(&["policy", "check", &path]);
        assert_eq!(checked.code, 0, "{}", checked.err);
    }
}

/// The differences of two files that are built from text.
fn differences(name: &str, texts: [&str; 2], level: &str) -> Ran {
    let folder = Folder::new(name);
    folder.write("old.txt", texts[0].as_bytes());
    folder.write("new.txt", texts[1].as_bytes());
    let words = ["diff", "--policy", "--level", level, "old.txt", "new.txt"];
    let text = folder.skein(&words);
    // The same of the files as bytes, and nothing between a file and its text.
    for file in ["old", "new"] {
        let built = folder.skein(&["policy", "build", &format!("{file}.txt"), file]);
        assert_eq!(built.code, 0, "{}", built.err);
        let same = folder.skein(&["diff", "--policy", file, &format!("{file}.txt")]);
        let expected = "No difference: the same rulesets at level 6.\n";
        assert_eq!((same.code, same.out.as_str()), (0, expected));
    }
    let bytes = folder.skein(&["diff", "--policy", "--level", level, "old", "new"]);
    let named = text.out.replace("in old.txt:", "in old:");
    assert_eq!(bytes.out, named.replace("in new.txt:", "in new:"));
    assert_eq!(bytes.code, text.code);
    text
}

#[test]
fn rulesets_of_two_files_differ_in_masks_and_rules() {
    let old = "ruleset a\nmasks fs=execute+read_file net=bind_tcp\n\
        path /x read_file\npath /gone execute\npath /same execute\nport 7 bind_tcp\nport 10 bind_tcp\n\
        ruleset b\nmasks fs=refer\nruleset c\nmasks net=bind_tcp\n";
    let new = "ruleset d\\x20d\nmasks fs=refer\nruleset c\nmasks net=bind_tcp\n\
        ruleset a\nmasks fs=read_file+ioctl_dev scope=signal\n\
        path /x execute\npath /x read_file\npath /same execute\npath \"\" 0x10002\nport 10 connect_tcp\n";
    let ran = differences("masks", [old, new], "6");
    let expected = "\
only in old.txt: ruleset b
only in new.txt: ruleset d\\x20d

ruleset a
  masks fs     + ioctl_dev
               - execute
  masks net    - bind_tcp
  masks scope  + signal
  \"\"           + 0x10002
  /gone        - execute
  /x           + execute
  port 7       - bind_tcp
  port 10      + connect_tcp
               - bind_tcp
";
    assert_eq!((ran.code, ran.out.as_str()), (1, expected));
}

/// A group counts from its level on and those around it; a group, be it empty, cuts the masks of its ruleset, but not the bits that no
/// level knows.
#[test]
fn differences_are_those_of_a_level() {
    let masks = "masks fs=0x1e000 net=bind_tcp scope=signal\n";
    let old = format!("ruleset a\n{masks}");
    let new = format!(
        "ruleset a\n{masks}group 3\ngroup 2\npath /deep truncate\nend\nport 1 bind_tcp\nend\n\
         group 6\nend\n"
    );
    let cut = |fs: &str, more: &str| format!("ruleset a\n  masks fs     - {fs}\n{more}");
    let scope = "  masks scope  - signal\n";
    let below = format!("  masks net    - bind_tcp\n{scope}");
    let rules = "  /deep        + truncate\n  port 1       + bind_tcp\n";
    for (level, expected) in [
        ("1", cut("refer+truncate+ioctl_dev", &below)),
        ("2", cut("truncate+ioctl_dev", &below)),
        ("3", cut("ioctl_dev", &format!("{below}{rules}"))),
        ("4", cut("ioctl_dev", &format!("{scope}{rules}"))),
        ("5", format!("ruleset a\n{scope}{rules}")),
        (
            "6",
            "ruleset a\n  /deep   + truncate\n  port 1  + bind_tcp\n".to_owned(),
        ),
    ] {
        let ran = differences("level", [&old, &new], level);
        assert_eq!((ran.code, ran.out), (1, expected), "level {level}");
    }
    // Inside a group of a higher level one of a lower level does not count.
    let outer = format!("ruleset a\n{masks}group 5\ngroup 1\nport 1 bind_tcp\nend\nend\n");
    let empty = format!("ruleset a\n{masks}group 1\nend\n");
    let ran = differences("level", [&empty, &outer], "4");
    let expected = "No difference: the same rulesets at level 4.\n";
    assert_eq!((ran.code, ran.out.as_str()), (0, expected));
}

#[test]
fn differences_of_policies_as_json() {
    let old = "ruleset a\nmasks fs=0x10004\npath /x read_file\nruleset b\nmasks net=bind_tcp\n";
    let new = "ruleset a\nmasks fs=refer\npath /x write_file+execute\nport 80 bind_tcp\n";
    let folder = Folder::new("json");
    folder.write("old.txt", old.as_bytes());
    folder.write("new.txt", new.as_bytes());
    let ran = folder.skein(&["diff", "--json", "--policy", "old.txt", "new.txt"]);
    let expected = concat!(
        r#"{"command":"diff","old":"old.txt","new":"new.txt","level":6,"#,
        r#""only_old":{"rulesets":["b"]},"only_new":{"rulesets":[]},"#,
        r#""rulesets":[{"ruleset":"a","#,
        r#""masks":[{"mask":"fs","gained":["refer"],"lost":["0x10004"]}],"#,
        r#""paths":[{"path":"/x","gained":["execute","write_file"],"lost":["read_file"]}],"#,
        r#""ports":[{"port":80,"gained":["bind_tcp"],"lost":[]}]}]}"#,
        "\n"
    );
    assert_eq!((ran.code, ran.out.as_str()), (1, expected));
}

/// Either file may be at fault, and it is said as `policy check` says it.
#[test]
fn a_damaged_file_has_no_differences() {
    let folder = Folder::new("damaged");
    folder.write("cut", &[1, 1, 0, b'p']);
    folder.write("wrong.txt", b"ruleset p\npath / 4\n");
    for bad in ["cut", "wrong.txt", "nowhere"] {
        let checked = folder.skein(&["policy", "check", bad]);
        assert_eq!(checked.code, if bad == "nowhere" { 3 } else { 2 });
        for files in [[bad, "none"], ["none", bad]] {
            let ran = folder.skein(&["diff", "--policy", files[0], files[1]]);
            assert_eq!((ran.code, ran.out.as_str()), (checked.code, ""));
            assert_eq!(ran.err, checked.err);
        }
    }
}

/// The blocks of docs/POLICY.md: text or bytes of a file, or a scenario, and commands that are run on the last one above.
#[test]
fn every_example_of_the_document_is_run() {
    let path = Path::new(env!("CARGO_MANIFEST_DIR")).join("../../docs/POLICY.md");
    let document = std::fs::read_to_string(path).expect("the document");
    let (mut file, mut scenario, mut compared) = (Vec::new(), Vec::new(), 0);
    let mut blocks = document.split("\n```");
    while let (Some(_), Some(block)) = (blocks.next(), blocks.next()) {
        let (language, text) = block.split_once('\n').expect("a block of lines");
        match language {
            "policy" => file = text.as_bytes().to_vec(),
            "skein" => scenario = text.as_bytes().to_vec(),
            "bytes" => {
                let words = text.split_whitespace();
                let bytes = words.map(|word| u8::from_str_radix(word, 16).expect("a byte"));
                file = bytes.collect();
            }
            "console" => {
                let exports = text.starts_with("$ skein policy export ");
                runs(text, if exports { &scenario } else { &file });
                compared += 1;
            }
            other => panic!("`{other}` is no kind of example"),
        }
    }
    assert_eq!(compared, 6);
}

/// Runs a command on a file, which is its third word, and compares what it writes.
fn runs(text: &str, file: &[u8]) {
    let (first, expected) = text.split_once('\n').expect("a command");
    let line = first.strip_prefix("$ skein ").expect("a command");
    let words = line.strip_suffix("; echo \"exit $?\"").expect("its end");
    let words: Vec<&str> = words.split(' ').collect();
    let scratch = Scratch::new(words[2], file);
    let folder = scratch.0.parent().expect("a folder");
    let output = command(&words).current_dir(folder).output();
    let Ran { code, out, err } = ran(output.expect("the program runs"));
    let written = format!("{out}{err}exit {code}");
    assert_eq!(written, expected, "{written}");
}
