//! Document 01's worked tree and cases.
use crate::json::Json;
use crate::lines::broken;
use crate::paint::Paint;
use crate::picture::{self, Explained};
use crate::play::{play, Play, Played};
use crate::scenario::{parse, Answer, BadLine, Call, RulesetCall, Scenario, ThreadCall, TreeCall};
use crate::transcript::{self, Layout};

const TREE: &str = include_str!("demo.skein");
const CASES: &str = include_str!("../../../examples/worked.skein");

/// The name of the cases in output.
const CASES_FILE: &str = "examples/worked.skein";
/// The name of the tree in output.
pub const TREE_FILE: &str = "demo.skein";

/// The tree and the cases, as they are read.
pub struct Demo {
    tree: Scenario,
    cases: Scenario,
}

/// The tree and the cases, played.
pub struct Shown<'d> {
    pub tree: Play<'d>,
    explained: Explained,
    pub cases: Play<'d>,
}

impl Demo {
    pub fn new() -> Result<Demo, Vec<BadLine>> {
        Ok(Demo {
            tree: parse(TREE.as_bytes())?,
            cases: parse(CASES.as_bytes())?,
        })
    }

    pub fn play(&self, all_rights: bool) -> Shown<'_> {
        let mut tree = play(&self.tree);
        let explained = Explained::of(&mut tree, all_rights);
        let cases = play(&self.cases);
        Shown {
            tree,
            explained,
            cases,
        }
    }
}

impl Shown<'_> {
    pub fn text(&self, width: usize, paint: Paint) -> String {
        let mut out = paint
            .heading("Document 01's worked tree: a thread under each of the layers A, B and C");
        out.push_str("\n\n");
        out.push_str(&picture::text(&self.explained, width, paint));
        out.push_str(&format!(
            "\n{}\n",
            paint.heading("The worked cases, each starting anew")
        ));
        out.push_str(&cases_text(&self.cases, width, paint));
        let summary = transcript::summary(&self.cases);
        out.push_str(&format!("\n{CASES_FILE}: {summary}\n"));
        out
    }

    pub fn json(&self) -> Json {
        let explain = picture::json(TREE_FILE, &self.tree, &self.explained);
        Json::Object(vec![
            ("command", Json::text("demo")),
            ("explain", explain),
            ("run", transcript::json(CASES_FILE, &self.cases)),
        ])
    }
}

/// The cases with their headings, without the calls that only prepare them.
fn cases_text(cases: &Play, width: usize, paint: Paint) -> String {
    let layout = Layout::of(&cases.played, width);
    let mut out = String::new();
    for (place, played) in cases.played.iter().enumerate() {
        if matches!(played.statement.call, Call::Fresh { .. }) {
            out.push('\n');
            for line in &played.statement.heading {
                out.push_str(&broken(line, 0, width));
            }
        }
        let next = cases.played.get(place + 1);
        let last = next.is_none_or(|next| matches!(next.statement.call, Call::Fresh { .. }));
        if last || !prepares(played) {
            out.push_str(&layout.line(played, paint));
        }
    }
    out
}

/// Whether a call only prepares what a case is about.
fn prepares(played: &Played) -> bool {
    let prepares = match &played.statement.call {
        Call::Ruleset(call) => !matches!(call, RulesetCall::Close { .. }),
        Call::Tree { call, .. } => matches!(call, TreeCall::Create { .. }),
        Call::Thread { call, .. } => matches!(call, ThreadCall::SetNoNewPrivs),
        Call::Fresh { .. } => true,
        _ => false,
    };
    prepares && !matches!(played.answer, Answer::Refused(_)) && !played.differs()
}
