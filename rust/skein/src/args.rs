//! The command line.
use crate::least::Traced;
use crate::picture::Chosen;
use crate::policy::{Export, PolicyCommand};
use crate::search::Question;
use crate::words::{one_of, quoted};
use skeinrabbit::{parse_number, Level};
use std::ffi::{OsStr, OsString};
use std::io::IsTerminal;

pub const COMMANDS: [&str; 9] = [
    "run", "explain", "why", "search", "diff", "least", "demo", "import", "policy",
];

const POLICY_COMMANDS: [&str; 5] = ["check", "show", "build", "find", "export"];

/// An option: what its value is called where it has one, and the commands that take it.
struct Known {
    name: &'static str,
    short: Option<&'static str>,
    value: Option<&'static str>,
    of: &'static [&'static str],
}

const fn known(
    name: &'static str,
    value: Option<&'static str>,
    of: &'static [&'static str],
) -> Known {
    Known {
        name,
        short: None,
        value,
        of,
    }
}

const OPTIONS: [Known; 16] = [
    known(
        "--json",
        None,
        &["run", "explain", "why", "search", "diff", "least", "demo"],
    ),
    known("--all-rights", None, &["explain", "demo"]),
    Known {
        short: Some("-v"),
        ..known("--verbose", None, &["run"])
    },
    known("--color", Some("always, never or auto"), &COMMANDS),
    known(
        "--thread",
        Some("a thread"),
        &["explain", "search", "least"],
    ),
    known("--entry", Some("an entry"), &["explain", "search"]),
    known("--html", Some("a FILE"), &["explain"]),
    known("--line", Some("a line"), &["why"]),
    known("--right", Some("rights"), &["search"]),
    known("--depth", Some("a number"), &["search"]),
    known("--states", Some("a number"), &["search"]),
    known("--from", Some("a line"), &["least"]),
    known("--policy", None, &["diff"]),
    known("--level", Some("a level"), &["diff"]),
    Known {
        short: Some("-h"),
        ..known("--help", None, &COMMANDS)
    },
    Known {
        short: Some("-V"),
        ..known("--version", None, &COMMANDS)
    },
];

/// What to do.
#[derive(Debug, PartialEq, Eq)]
pub enum Command {
    Run(OsString),
    Explain(OsString, Chosen),
    /// The line that is asked about; without it all that a layer refused.
    Why(OsString, Option<usize>),
    Search(OsString, Question),
    Diff(OsString, OsString),
    /// Two policy files, at a level.
    DiffPolicies([OsString; 2], Level),
    Least(OsString, Traced),
    Demo,
    Import(OsString),
    Policy(PolicyCommand),
    /// The help of a command, or of all.
    Help(Option<&'static str>),
    Version,
}

/// When to colour.
#[derive(Clone, Copy, Debug, Default, PartialEq, Eq)]
pub enum Color {
    Always,
    Never,
    #[default]
    Auto,
}

impl Color {
    fn parse(word: &str) -> Result<Color, String> {
        match word {
            "always" => Ok(Color::Always),
            "never" => Ok(Color::Never),
            "auto" => Ok(Color::Auto),
            _ => Err(format!(
                "--color is always, never or auto, not {}",
                quoted(word)
            )),
        }
    }

    /// Whether standard output is to be coloured.
    pub fn wanted(self) -> bool {
        match self {
            Color::Always => true,
            Color::Never => false,
            Color::Auto => {
                std::env::var_os("NO_COLOR").is_none() && std::io::stdout().is_terminal()
            }
        }
    }
}

/// A command with its options.
#[derive(Debug, PartialEq, Eq)]
pub struct Options {
    pub command: Command,
    pub json: bool,
    pub all_rights: bool,
    pub verbose: bool,
    pub color: Color,
}

/// The words so far: plain ones, and options with their values.
#[derive(Default)]
struct Words {
    plain: Vec<OsString>,
    given: Vec<(&'static Known, OsString)>,
}

/// Reads the words after the program's name; answers what is wrong with them where something is.
pub fn parse(mut words: impl Iterator<Item = OsString>) -> Result<Options, String> {
    let mut read = Words::default();
    while let Some(word) = words.next() {
        if word == "--" {
            read.plain.extend(words);
            break;
        }
        read.take(word, &mut words)?;
    }
    read.options()
}

impl Words {
    fn take(
        &mut self,
        word: OsString,
        rest: &mut dyn Iterator<Item = OsString>,
    ) -> Result<(), String> {
        let text = word.to_str().unwrap_or_default();
        // A single dash is standard input.
        if !text.starts_with('-') || text == "-" {
            self.plain.push(word);
            return Ok(());
        }
        let (name, joined) = match text.split_once('=') {
            Some((name, value)) => (name, Some(OsString::from(value))),
            None => (text, None),
        };
        let mut options = OPTIONS.iter();
        let found = options.find(|known| known.name == name || known.short == Some(name));
        let option = match (found, &joined) {
            (Some(option), None) => option,
            (Some(option), Some(_)) if option.value.is_some() => option,
            _ => return Err(unknown("option", text, &OPTIONS.map(|known| known.name))),
        };
        let value = match (option.value, joined) {
            (None, _) => OsString::new(),
            (Some(_), Some(value)) => value,
            (Some(what), None) => rest.next().ok_or(format!("{name} needs {what}"))?,
        };
        self.given.push((option, value));
        Ok(())
    }

    fn has(&self, name: &str) -> bool {
        self.given.iter().any(|(option, _)| option.name == name)
    }

    /// The values of an option that may be given several times.
    fn all(&self, name: &str) -> Vec<String> {
        let given = self.given.iter().filter(|(option, _)| option.name == name);
        given
            .map(|(_, value)| value.to_string_lossy().into_owned())
            .collect()
    }

    /// The last value of an option.
    fn last(&self, name: &str) -> Option<&OsStr> {
        let mut given = self.given.iter().rev();
        let last = given.find(|(option, _)| option.name == name);
        last.map(|(_, value)| value.as_os_str())
    }

    fn number(&self, name: &str, least: usize) -> Result<Option<usize>, String> {
        let Some(word) = self.last(name) else {
            return Ok(None);
        };
        let word = word.to_string_lossy();
        let number = parse_number(&word).and_then(|number| usize::try_from(number).ok());
        match number.filter(|number| *number >= least) {
            Some(number) => Ok(Some(number)),
            None => Err(format!(
                "{name} is a number from {least}, not {}",
                quoted(&word)
            )),
        }
    }

    fn options(self) -> Result<Options, String> {
        let color = self.last("--color").map(OsStr::to_string_lossy);
        let color = color.map(|word| Color::parse(&word)).transpose()?;
        let command = if self.has("--version") {
            Command::Version
        } else if self.has("--help") {
            Command::Help(self.plain.first().and_then(|name| command_name(name)))
        } else {
            self.command()?
        };
        Ok(Options {
            command,
            json: self.has("--json"),
            all_rights: self.has("--all-rights"),
            verbose: self.has("--verbose"),
            color: color.unwrap_or_default(),
        })
    }

    fn command(&self) -> Result<Command, String> {
        let Some((word, rest)) = self.plain.split_first() else {
            return Err(format!("a command is missing: {}", COMMANDS.join(", ")));
        };
        let Some(name) = command_name(word) else {
            return Err(unknown("command", &word.to_string_lossy(), &COMMANDS));
        };
        if let Some((option, _)) = self
            .given
            .iter()
            .find(|(known, _)| !known.of.contains(&name))
        {
            let takers = option.of.join(", ");
            return Err(format!("{} is for {takers}, not for {name}", option.name));
        }
        match name {
            "run" => Ok(Command::Run(one(name, "FILE", rest)?)),
            "explain" => Ok(Command::Explain(one(name, "FILE", rest)?, self.chosen())),
            "why" => Ok(Command::Why(
                one(name, "FILE", rest)?,
                self.number("--line", 1)?,
            )),
            "search" => Ok(Command::Search(one(name, "FILE", rest)?, self.question()?)),
            "least" => Ok(Command::Least(one(name, "TRACE", rest)?, self.traced()?)),
            "import" => Ok(Command::Import(one(name, "DIRECTORY", rest)?)),
            "policy" => Ok(Command::Policy(policy(rest)?)),
            "diff" => self.diff(rest),
            _ => match rest {
                [] => Ok(Command::Demo),
                [more, ..] => Err(too_many(more)),
            },
        }
    }

    fn diff(&self, files: &[OsString]) -> Result<Command, String> {
        let (a, b) = match files {
            [a, b] => (a.clone(), b.clone()),
            [_, _, more, ..] => return Err(too_many(more)),
            _ => return Err("diff needs two FILEs".to_owned()),
        };
        match (self.has("--policy"), self.level()?) {
            (true, level) => Ok(Command::DiffPolicies(
                [a, b],
                level.unwrap_or(Level::LATEST),
            )),
            (false, None) => Ok(Command::Diff(a, b)),
            (false, Some(_)) => Err("--level is for diff --policy".to_owned()),
        }
    }

    fn level(&self) -> Result<Option<Level>, String> {
        let Some(word) = self.last("--level").map(OsStr::to_string_lossy) else {
            return Ok(None);
        };
        let level = parse_number(&word).map(Level::new);
        match level.filter(|level| (Level::new(1)..=Level::LATEST).contains(level)) {
            Some(level) => Ok(Some(level)),
            None => Err(format!(
                "--level is a level from 1 to {}, not {}",
                Level::LATEST,
                quoted(&word)
            )),
        }
    }

    fn chosen(&self) -> Chosen {
        Chosen {
            threads: self.all("--thread"),
            entries: self.all("--entry"),
            html: self.last("--html").map(OsStr::to_owned),
        }
    }

    fn question(&self) -> Result<Question, String> {
        let start = Question::default();
        let rights = match self.last("--right").map(OsStr::to_string_lossy) {
            Some(word) => word
                .parse()
                .map_err(|_| format!("--right is rights joined by +, not {}", quoted(&word)))?,
            None => start.rights,
        };
        Ok(Question {
            threads: self.all("--thread"),
            entries: self.all("--entry"),
            rights,
            depth: self.number("--depth", 0)?.unwrap_or(start.depth),
            states: self.number("--states", 1)?.unwrap_or(start.states),
        })
    }

    fn traced(&self) -> Result<Traced, String> {
        Ok(Traced {
            threads: self.all("--thread"),
            from: self.number("--from", 1)?,
        })
    }
}

/// The command of a name.
fn command_name(word: &OsStr) -> Option<&'static str> {
    COMMANDS.into_iter().find(|name| word == *name)
}

/// The one word that a command takes.
fn one(name: &str, what: &str, rest: &[OsString]) -> Result<OsString, String> {
    match rest {
        [word] => Ok(word.clone()),
        [] => Err(format!("{name} needs a {what}")),
        [_, more, ..] => Err(too_many(more)),
    }
}

/// What to do with policy files.
fn policy(words: &[OsString]) -> Result<PolicyCommand, String> {
    let Some((name, rest)) = words.split_first() else {
        let commands = POLICY_COMMANDS.join(", ");
        return Err(format!("policy needs one of {commands}"));
    };
    let needs = match (name.to_str(), rest) {
        (Some("check"), [file]) => return Ok(PolicyCommand::Check(file.clone())),
        (Some("show"), [file]) => return Ok(PolicyCommand::Show(file.clone())),
        (Some("build"), [text, file]) => {
            return Ok(PolicyCommand::Build(text.clone(), file.clone()))
        }
        (Some("find"), [stock, site, name]) => {
            let words = [stock, site, name].map(Clone::clone);
            return Ok(PolicyCommand::Find(words));
        }
        (Some("export"), [scenario, ruleset, name, file @ ..]) if file.len() <= 1 => {
            return Ok(PolicyCommand::Export(Export {
                scenario: scenario.clone(),
                ruleset: ruleset.clone(),
                name: name.clone(),
                file: file.first().cloned(),
            }))
        }
        (Some("check" | "show"), _) => "a FILE",
        (Some("build"), _) => "a TEXT and a FILE",
        (Some("find"), _) => "STOCK, SITE and a NAME",
        (Some("export"), _) => "a SCENARIO, a RULESET, a NAME and perhaps a FILE",
        _ => {
            let name = name.to_string_lossy();
            return Err(unknown("command policy", &name, &POLICY_COMMANDS));
        }
    };
    let name = name.to_string_lossy();
    Err(format!("policy {name} needs {needs} and nothing else"))
}

fn too_many(word: &OsStr) -> String {
    format!("{} is one word too many", quoted(&word.to_string_lossy()))
}

/// A word that is none of those of its kind.
fn unknown(kind: &str, word: &str, known: &[&str]) -> String {
    let known = one_of("expected one", word, known);
    format!("there is no {kind} {}; {known}", quoted(word))
}

#[cfg(test)]
mod tests {
    use super::*;
    use skeinrabbit::Rights;

    fn read(line: &str) -> Result<Options, String> {
        parse(line.split_whitespace().map(OsString::from))
    }

    #[test]
    fn options_stand_anywhere() {
        let options = Options {
            command: Command::Explain("f".into(), Chosen::default()),
            json: true,
            all_rights: true,
            verbose: false,
            color: Color::Never,
        };
        for line in [
            "explain f --json --all-rights --color never",
            "--json --color=never explain --all-rights f",
            "--json --color=never --all-rights -- explain f",
        ] {
            assert_eq!(read(line).as_ref(), Ok(&options), "{line}");
        }
    }

    #[test]
    fn values_are_joined_or_stand_behind() {
        let question = Question {
            threads: vec!["a".to_owned(), "b".to_owned()],
            entries: vec!["/x=y".to_owned()],
            rights: Rights::WRITE_FILE,
            depth: 0,
            states: 7,
        };
        let line =
            "search f --thread=a --thread b --entry=/x=y --right write_file --depth 0 --states=7";
        let command = read(line).map(|options| options.command);
        assert_eq!(command, Ok(Command::Search("f".into(), question)));
        let from = read("least --from 3 t").map(|options| options.command);
        let traced = Traced {
            threads: vec![],
            from: Some(3),
        };
        assert_eq!(from, Ok(Command::Least("t".into(), traced)));
        let why = read("why t --line 3").map(|options| options.command);
        assert_eq!(why, Ok(Command::Why("t".into(), Some(3))));
    }

    #[test]
    fn policies_differ_at_a_level() {
        for (line, level) in [
            ("diff --policy a b", 6),
            ("diff a b --level 1 --policy", 1),
            ("diff a --policy --level=6 b", 6),
        ] {
            let command = read(line).map(|options| options.command);
            let expected = Command::DiffPolicies(["a".into(), "b".into()], Level::new(level));
            assert_eq!(command, Ok(expected), "{line}");
        }
    }

    #[test]
    fn files_may_look_like_options() {
        assert_eq!(read("run -").unwrap().command, Command::Run("-".into()));
        assert_eq!(
            read("import -- -d").unwrap().command,
            Command::Import("-d".into())
        );
        assert_eq!(
            read("run -- -f").unwrap().command,
            Command::Run("-f".into())
        );
    }

    #[test]
    fn wrong_words_are_refused() {
        for line in [
            "",
            "run",
            "explain",
            "walk",
            "run a b",
            "demo a",
            "import",
            "import a b",
            "import a --json",
            "import a -v",
            "import --all-rights a",
            "policy",
            "policy walk a",
            "policy check",
            "policy check a b",
            "policy show",
            "policy build a",
            "policy build a b c",
            "policy find a b",
            "policy find a b c d",
            "policy check --json a",
            "run --fast a",
            "run a --color",
            "run a --color blue",
            "run a --color=",
            "run a --json=yes",
            "run --all-rights a",
            "explain --verbose a",
            "demo -v",
            "-j",
            "diff a",
            "diff a b c",
            "diff --policy a",
            "diff --policy=yes a b",
            "diff --level 3 a b",
            "diff --policy --level 0 a b",
            "diff --policy --level 7 a b",
            "diff --policy --level x a b",
            "run --policy a",
            "policy check --level 3 a",
            "why a --line 0",
            "why a --line x",
            "why a --depth 3",
            "search a --right maybe",
            "search a --states 0",
            "search a --depth",
            "least a --entry /x",
        ] {
            assert!(read(line).is_err(), "{line}");
        }
    }

    #[test]
    fn a_run_may_be_verbose() {
        for line in ["run f -v", "--verbose run f"] {
            assert!(read(line).unwrap().verbose, "{line}");
        }
        assert!(!read("run f").unwrap().verbose);
    }

    #[test]
    fn help_needs_nothing_else() {
        let help = |line| read(line).unwrap().command;
        assert_eq!(help("--help"), Command::Help(None));
        assert_eq!(help("run --help"), Command::Help(Some("run")));
        assert_eq!(help("-h why"), Command::Help(Some("why")));
        assert_eq!(help("walk --help"), Command::Help(None));
        assert_eq!(help("-V"), Command::Version);
    }
}
