//! Whatever a file holds, it is read or refused, played and shown, and nothing panics. The seeds are fixed.
use super::{with_bytes, Outcome, View, BAD_INPUT, DIFFERS};
use crate::lines::broken;
use crate::paint::Paint;
use crate::picture::{explain, Chosen};
use crate::play::play;
use crate::scenario::parse;
use crate::why::why;
use std::ops::Range;
use std::path::Path;

const WIDTH: usize = 80;

/// Numbers that look random and are the same each time.
struct Noise(u64);

impl Noise {
    fn below(&mut self, bound: usize) -> usize {
        self.0 = self
            .0
            .wrapping_mul(6364136223846793005)
            .wrapping_add(1442695040888963407);
        (self.0 >> 33) as usize % bound
    }

    fn pick<'v, T>(&mut self, values: &'v [T]) -> &'v T {
        &values[self.below(values.len())]
    }

    /// A part of something of this length.
    fn part(&mut self, length: usize, longest: usize) -> Range<usize> {
        let from = self.below(length + 1);
        let most = longest.min(length - from);
        from..from + self.below(most + 1)
    }
}

/// How many inputs were good, differing and bad.
#[derive(Debug, Default)]
struct Tried([usize; 3]);

impl Tried {
    /// Reads, plays and shows a scenario in every way.
    fn out(&mut self, bytes: &[u8]) {
        let codes = [false, true].map(|json| {
            let view = View {
                json,
                all_rights: !json,
                verbose: true,
                width: WIDTH,
                paint: Paint { on: false },
            };
            let folder = Path::new("");
            let ran = with_bytes("file", folder, bytes, |name, read| {
                view.run(name, play(read))
            });
            let all = Chosen::default();
            let explained = with_bytes("file", folder, bytes, |name, read| {
                explain(&view, name, play(read), &all)
            });
            let why = with_bytes("file", folder, bytes, |name, read| {
                why(&view, name, read, None)
            });
            for outcome in [&ran, &explained, &why] {
                look_at(outcome, json, bytes);
            }
            assert_eq!(why.code == BAD_INPUT, ran.code == BAD_INPUT);
            assert_eq!(ran.messages.is_empty(), ran.code != BAD_INPUT);
            assert_eq!(explained.messages.is_empty(), explained.code == 0);
            assert_eq!(ran.code, explained.code, "{}", bytes.escape_ascii());
            // Nothing is drawn of a policy that is not as written.
            let drawn = ["granted", "No layer handles"].map(|word| explained.output.contains(word));
            assert!(explained.code == 0 || drawn == [false, false]);
            ran.code
        });
        assert_eq!(codes[0], codes[1], "{}", bytes.escape_ascii());
        self.0[usize::from(codes[0])] += 1;
    }
}

/// What a terminal shows has no control character, and no line is too wide.
fn look_at(outcome: &Outcome, json: bool, bytes: &[u8]) {
    let input = bytes.escape_ascii();
    assert!([0, DIFFERS, BAD_INPUT].contains(&outcome.code), "{input}");
    let messages = outcome.messages.lines();
    let messages: String = messages.map(|line| broken(line, 4, WIDTH)).collect();
    for (text, may_be_wide) in [(&outcome.output, json), (&messages, false)] {
        for line in text.lines() {
            assert!(!line.chars().any(char::is_control), "{line}: {input}");
            let narrow = line.chars().count() <= WIDTH;
            assert!(may_be_wide || narrow, "{line}: {input}");
        }
    }
}

#[test]
fn any_bytes_are_read_or_refused() {
    let mut noise = Noise(1);
    for _ in 0..3000 {
        let length = noise.below(200);
        let bytes: Vec<u8> = (0..length).map(|_| noise.below(256) as u8).collect();
        let _ = parse(&bytes);
    }
}

/// The scenarios of the repository.
fn scenarios() -> Vec<Vec<u8>> {
    let root = Path::new(env!("CARGO_MANIFEST_DIR")).join("../..");
    let mut files = Vec::new();
    for folder in ["examples", "tests/scenarios"] {
        for file in std::fs::read_dir(root.join(folder)).expect(folder) {
            let path = file.expect(folder).path();
            if path.extension().is_some_and(|end| end == "skein") {
                files.push(path);
            }
        }
    }
    // So that each run of the test mutates the same.
    files.sort();
    let read = |path| std::fs::read(path).expect("a scenario");
    files.iter().map(read).collect()
}

/// Words that no scenario has, and some that many have, in bytes that need not be text.
fn odd_words() -> Vec<Vec<u8>> {
    let words: [&[u8]; 45] = [
        b"\0",
        b"\r",
        b"\r\n",
        b"\n",
        b"\t",
        b"#",
        b"\xff",
        b"\xc3",
        b"\xed\xa0\x80",
        b"\x1b[2J",
        "\u{202e}\u{300}\u{feff}".as_bytes(),
        "é界".as_bytes(),
        b"->",
        b"=>",
        b"=> any",
        b"=> ok",
        b"=> new",
        b"=> -13",
        b"layer=0",
        b"rights=refer",
        b"entries_read=2",
        b"-> root",
        b"+",
        b"none",
        b"0",
        b"-0",
        b"0x",
        b"0xffffffffffffffff",
        b"18446744073709551616",
        b"99999999999999999999999999999999999999999",
        b"hex=",
        b"hex=0",
        b"size=18446744073709551615",
        b"size=",
        b"fs=0xffffffffffffffff",
        b"flags=1",
        b"\npoke system 0 0\n",
        b"\npoke threads 0 0xffffffffffffffff 32 1 0\n",
        b"\npoke entries 0 1 1024 3 0\n",
        b"\nfresh 3\n",
        b"repeat",
        b"repeat 3",
        b"\nrepeat 9 clone main\n",
        b"\ncreate_ruleset net=3 scope=3\n",
        b"\ncreate_ruleset fs=4 size=18446744073709551615\n",
    ];
    let long = [
        "x".repeat(65_536),
        "é".repeat(70_000),
        "9".repeat(70_000),
        "read_file+".repeat(7_000),
        format!("hex={}", "00".repeat(40_000)),
        format!("-> {}", "n".repeat(65_536)),
        " ".repeat(70_000),
    ];
    let long = long.into_iter().map(String::into_bytes);
    words.into_iter().map(<[u8]>::to_vec).chain(long).collect()
}

/// The places of words in a text.
fn words(text: &[u8]) -> Vec<Range<usize>> {
    let mut words = Vec::new();
    let mut from = 0;
    for word in text.split(u8::is_ascii_whitespace) {
        let to = from + word.len();
        if !word.is_empty() {
            words.push(from..to);
        }
        from = to + 1;
    }
    words
}

/// Changes a text in one place, or one word of it everywhere.
fn mutate(text: &mut Vec<u8>, odd: &[Vec<u8>], noise: &mut Noise) {
    let places = words(text);
    if places.is_empty() {
        text.extend(noise.pick(odd));
        return;
    }
    let word = noise.pick(&places).clone();
    let end = word.end..word.end;
    match noise.below(8) {
        0 => text[word.start] = noise.below(256) as u8,
        1 => drop(text.splice(end, noise.pick(odd).clone())),
        2 => drop(text.splice(end, [b" ", noise.pick(odd).as_slice()].concat())),
        3 => drop(text.splice(word, noise.pick(odd).clone())),
        4 => drop(text.drain(noise.part(text.len(), 40))),
        5 => {
            let again = text[noise.part(text.len(), 200)].to_vec();
            drop(text.splice(end, again));
        }
        6 => {
            let other = text[noise.pick(&places).clone()].to_vec();
            drop(text.splice(word, other));
        }
        _ => {
            let (old, new) = (text[word].to_vec(), noise.pick(odd));
            for place in places.into_iter().rev() {
                if text[place.clone()] == old {
                    text.splice(place, new.iter().copied());
                }
            }
        }
    }
}

/// The lines of a text that can be read.
fn readable(text: &[u8]) -> Vec<u8> {
    let mut lines: Vec<&[u8]> = text.split(|byte| *byte == b'\n').collect();
    while let Err(bad) = parse(&lines.join(&b'\n')) {
        let is_bad = |place: usize| bad.iter().any(|bad| bad.line == place + 1);
        let places = lines.into_iter().enumerate();
        let good = places.filter(|(place, _)| !is_bad(*place));
        lines = good.map(|(_, line)| line).collect();
        if lines.is_empty() {
            break;
        }
    }
    lines.join(&b'\n')
}

#[test]
fn mutated_scenarios_are_read_or_refused_and_played() {
    let (scenarios, odd) = (scenarios(), odd_words());
    let mut noise = Noise(3);
    let mut tried = Tried::default();
    for _ in 0..1000 {
        let lines: Vec<&[u8]> = noise
            .pick(&scenarios)
            .split(|byte| *byte == b'\n')
            .collect();
        let mut text = lines[noise.part(lines.len(), 60)].join(&b'\n');
        for _ in 0..=noise.below(4) {
            mutate(&mut text, &odd, &mut noise);
        }
        tried.out(&text);
        // Without its bad lines it is played.
        tried.out(&readable(&text));
    }
    // Each end is reached many times, so that the test looks at what it says.
    assert!(tried.0.iter().all(|count| *count > 20), "{tried:?}");
}

#[test]
fn any_words_are_read_or_refused_and_played() {
    let text = scenarios().concat();
    let mut known: Vec<&[u8]> = words(&text).into_iter().map(|word| &text[word]).collect();
    known.sort();
    known.dedup();
    let mut noise = Noise(2);
    for _ in 0..300 {
        let words: Vec<&[u8]> = (0..noise.below(60))
            .map(|_| match noise.below(5) {
                0 => b"\n".as_slice(),
                _ => *noise.pick(&known),
            })
            .collect();
        let text = words.join(&b' ');
        Tried::default().out(&text);
    }
}

/// Calls with the number of their arguments.
const CALLS: &[(&str, usize)] = &[
    ("fresh", 1),
    ("close_ruleset", 1),
    ("add_path_rule", 4),
    ("add_port_rule", 4),
    ("restrict", 3),
    (r"find_policy bytes=\x01\x01\x00p none", 1),
    (
        r"find_policy none bytes=\x01\x01\x001\x02\x18\x00\*24{\x01}",
        1,
    ),
    (
        r"apply_policy bytes=\x01\x01\x001\x02\x18\x00\x04\*23{\x00} none",
        1,
    ),
    ("apply_policy none", 2),
    ("write_policy", 2),
    ("write_policy 0 p room=64", 0),
    ("layer_rules", 1),
    ("clone", 1),
    ("end", 1),
    ("clone main -> other\nend", 1),
    ("set_no_new_privs", 1),
    ("set_admin", 2),
    ("access", 3),
    ("port", 3),
    ("signal", 2),
    ("abstract_socket", 2),
    ("create", 4),
    ("remove", 2),
    ("link", 4),
    ("rename", 4),
    ("exchange", 4),
    ("lookup", 1),
    ("component", 2),
    ("ask access", 3),
    ("ask port", 3),
    ("ask link", 4),
    ("ask rename", 3),
    ("ask exchange", 4),
    ("post", 4),
    ("post 3 main root 4\nslot", 1),
    ("post 7 main root 4\nturn\npost", 4),
    ("log", 1),
    ("log 100", 1),
    ("log 30\ncreate", 4),
    ("create main /1 2\nlog 20\nrename main /1", 2),
    ("log 100\ncreate main /1 2\nrestart\nreplay\ncut", 1),
    (
        "log 100\ncreate main /1 1\ncreate main /2 1\nwritten\nrestart\nreplay\nremove main",
        1,
    ),
    (
        r"replay bytes=\x10\x04\x00\x01\x00\x001\x11\x02\x00\x01\x00",
        0,
    ),
    (r"replay bytes=\x12\x05\x00\x01\x00\x00\x001", 0),
    ("poke states", 2),
    ("poke states 2 1\npoke requests", 2),
    ("poke answers 8 13 1 0 0\npoke states 2 2\nslot", 1),
    ("poke cursor 0", 1),
    ("poke_name", 2),
    ("poke_name", 3),
    ("poke names", 2),
    ("create main /1 2\nrename main /1", 2),
    ("poke threads", 2),
    ("poke threads", 5),
];
const NUMBERS: &[&str] = &[
    "0",
    "1",
    "2",
    "7",
    "31",
    "1024",
    "0x8000000000000000",
    "0xffffffffffffffff",
    "/1",
];

/// Whole lines, so that most are read and reach the core.
#[test]
fn any_numbers_are_played() {
    let mut noise = Noise(4);
    let mut tried = Tried::default();
    for _ in 0..1500 {
        let (call, count) = *noise.pick(CALLS);
        let numbers: Vec<&str> = (0..count).map(|_| *noise.pick(NUMBERS)).collect();
        let last = noise.pick(&["", "\nturn", "\nslot 2"]);
        tried.out(format!("{call} {}{last}", numbers.join(" ")).as_bytes());
    }
    assert!(tried.0.iter().all(|count| *count > 20), "{tried:?}");
}
