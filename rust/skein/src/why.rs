//! `skein why`: which layer refused a line, for which rights, and the least rules that would grant it.
use crate::json::Json;
use crate::lines::Row;
use crate::named::path_of;
use crate::outcome::{Outcome, View, BAD_INPUT};
use crate::picture::heading;
use crate::play::{Played, Player};
use crate::remedy::{add, call_text, least, missing, NoRule, Refused, Rules, Tried};
use crate::request::{Asked, Request};
use crate::scenario::{Answer, BadLine, Call, Mask, RulesetCall, Scenario, Statement};
use crate::transcript::{call_json, reason};
use crate::words::{cut, escaped, shown, WIDEST};
use skeinrabbit::{Errno, Layer, Rights};
use std::collections::BTreeMap;

/// Why a line was refused.
struct Why<'s> {
    played: Played<'s>,
    /// What a layer refused; none where no layer did.
    denied: Option<Denied>,
}

/// What a layer refused, in words, and what would grant it.
struct Denied {
    refused: Refused,
    words: Vec<String>,
    remedy: Result<Remedy, NoRule>,
}

/// The least rules that would grant a line.
struct Remedy {
    rules: Vec<NewRule>,
    /// What the line answers with them.
    answer: Answer,
    /// The other lines that then answer otherwise, with both answers.
    changes: Vec<(usize, Answer, Answer)>,
}

/// A rule, and the line of the restrict that it must stand before.
struct NewRule {
    before: usize,
    text: String,
}

/// Explains a line, or all lines that a layer refused.
pub fn why(view: &View, name: &str, scenario: &Scenario, line: Option<usize>) -> Outcome {
    let (whys, stopped) = Story::read(scenario, line);
    if let Some(stopped) = &stopped {
        return Outcome::bad_lines(name, std::slice::from_ref(stopped));
    }
    if let (Some(line), []) = (line, whys.as_slice()) {
        return Outcome::refused(format!("{}:{line}: no call\n", escaped(name)), BAD_INPUT);
    }
    let output = if view.json {
        let whys = Json::list(&whys, why_json);
        let members = vec![
            ("command", Json::text("why")),
            ("file", Json::text(name)),
            ("refusals", whys),
        ];
        format!("{}\n", Json::Object(members))
    } else if whys.is_empty() {
        "No layer refused a line.\n".to_owned()
    } else {
        let texts: Vec<String> = whys.iter().map(|why| why_text(why, view)).collect();
        texts.join("\n")
    };
    Outcome::output(output)
}

/// A part of a scenario, from fresh tables on.
struct Story<'s> {
    /// Tables and names before the first of the lines.
    start: Player,
    lines: &'s [Statement],
    /// What each line answered.
    answers: BTreeMap<usize, Answer>,
}

impl<'s> Story<'s> {
    /// Plays a scenario and explains a line, or all that a layer refused; answers the line that ended the play early too.
    fn read(scenario: &'s Scenario, line: Option<usize>) -> (Vec<Why<'s>>, Option<BadLine>) {
        let mut whys = Vec::new();
        let mut player = Player::new(scenario.folder.clone());
        let fresh = |statement: &Statement| matches!(statement.call, Call::Fresh { .. });
        for lines in scenario.statements.chunk_by(|_, next| !fresh(next)) {
            let mut story = Story {
                start: player.clone(),
                lines,
                answers: BTreeMap::new(),
            };
            let mut played = Vec::new();
            for statement in lines {
                match player.play(statement) {
                    Ok(line) => played.push(line),
                    Err(bad) => {
                        let line = statement.line;
                        return (whys, Some(BadLine { line, bad }));
                    }
                }
            }
            let answers = played.iter();
            story.answers = answers
                .map(|line| (line.statement.line, line.answer))
                .collect();
            let asked = played.into_iter().filter(|played| match line {
                Some(line) => played.statement.line == line,
                None => Refused::layer_of(played).is_some(),
            });
            whys.extend(asked.map(|played| story.why(played)));
        }
        (whys, None)
    }

    fn why(&self, played: Played<'s>) -> Why<'s> {
        let target = (played.statement, played.round);
        let denied = self.at(target, &Rules::new());
        let denied = denied.ok().and_then(|(player, played, request)| {
            let refused = Refused::of(&played, request)?;
            Some(Denied {
                words: words(&player, &refused),
                remedy: self.remedy(target),
                refused,
            })
        });
        Why { played, denied }
    }

    /// The least rules that grant a line, checked by playing them.
    fn remedy(&self, target: (&'s Statement, u64)) -> Result<Remedy, NoRule> {
        let rules = least(|rules| {
            let (player, played, request) = self.at(target, rules)?;
            let Some(refused) = Refused::of(&played, request) else {
                return Ok(Tried::Granted);
            };
            let before = *player.restricted.get(&refused.layer).ok_or_else(|| {
                let layer = refused.layer;
                NoRule::Other(format!("no restrict of this file made layer {layer}"))
            })?;
            let then = self.before(before, rules)?;
            missing(before, &player.tables, &then.tables, &refused)
        })?;
        let (_, played, _) = self.at(target, &rules)?;
        let answer = match played.report.and_then(|report| report.slot) {
            Some(slot) => slot.answer(),
            None => played.answer,
        };
        Ok(Remedy {
            answer,
            changes: self.changes(target.0.line, &rules),
            rules: rules
                .iter()
                .map(|((before, spot), rights)| NewRule {
                    before: *before,
                    text: call_text(&self.ruleset_word(*before), spot, *rights),
                })
                .collect(),
        })
    }

    /// The ruleset that the restrict of a line names, as it is written there.
    fn ruleset_word(&self, line: usize) -> String {
        let restrict = self.lines.iter().find(|statement| statement.line == line);
        let words = restrict.map_or("", |statement| statement.text.as_str());
        // [repeat N] restrict THREAD RULESET
        let mut words = words.split(' ').skip_while(|word| *word != "restrict");
        words.nth(2).unwrap_or_default().to_owned()
    }

    /// The play before a line, with rules added.
    fn before(&self, line: usize, rules: &Rules) -> Result<Player, NoRule> {
        let mut player = self.start.clone();
        for statement in self.lines.iter().take_while(|other| other.line < line) {
            self.step(&mut player, statement, rules)?;
        }
        Ok(player)
    }

    /// The play up to and with a round of a line, with rules added; and what is asked for there.
    fn at(
        &self,
        (target, round): (&'s Statement, u64),
        rules: &Rules,
    ) -> Result<(Player, Played<'s>, Option<Request>), NoRule> {
        let mut player = self.before(target.line, rules)?;
        for earlier in 1..round {
            player.round(target, earlier)?;
        }
        player.at(target, round);
        let request = Request::of(&player, &target.call)?;
        let played = player.round(target, round)?;
        Ok((player, played, request))
    }

    /// Plays a line with the rules that stand before it. A change of the tree that was refused is left out, so that the tree is the
    /// one of the line that is asked about.
    fn step(&self, player: &mut Player, line: &Statement, rules: &Rules) -> Result<(), NoRule> {
        add_before(player, line, rules)?;
        let refused = matches!(self.answers.get(&line.line), Some(Answer::Refused(_)));
        if refused && line.rounds.is_none() && matches!(line.call, Call::Tree { .. }) {
            return Ok(());
        }
        player.play(line)?;
        Ok(())
    }

    /// The other lines that answer otherwise where all is played with the rules.
    fn changes(&self, but: usize, rules: &Rules) -> Vec<(usize, Answer, Answer)> {
        let mut player = self.start.clone();
        let mut changes = Vec::new();
        for statement in self.lines {
            if add_before(&mut player, statement, rules).is_err() {
                break;
            }
            let Ok(played) = player.play(statement) else {
                break;
            };
            let line = statement.line;
            match self.answers.get(&line) {
                Some(old) if *old != played.answer && line != but => {
                    changes.push((line, *old, played.answer));
                }
                _ => {}
            }
        }
        changes
    }
}

impl Refused {
    /// The layer that refused a line, or the request of the slot that a turn served.
    fn layer_of(played: &Played) -> Option<Layer> {
        let report = played.report?;
        match (played.answer, report.slot) {
            (Answer::Refused(_), _) | (Answer::Served(_), Some(_)) => report.layer,
            _ => None,
        }
    }
}

/// Adds the rules that stand before a line, to the ruleset that it names.
fn add_before(player: &mut Player, line: &Statement, rules: &Rules) -> Result<(), NoRule> {
    let Call::Ruleset(RulesetCall::Restrict { ruleset, .. }) = &line.call else {
        return Ok(());
    };
    for ((before, spot), rights) in rules {
        if *before == line.line {
            let ruleset = player.ruleset(ruleset)?;
            add(player, ruleset, spot, *rights)?;
        }
    }
    Ok(())
}

/// What a refusal means.
fn words(player: &Player, refused: &Refused) -> Vec<String> {
    let Refused { layer, rights, .. } = refused;
    if refused.errno != Errno::EXDEV {
        return Vec::new();
    }
    if *rights == Mask::Files(Rights::REFER) {
        return vec![format!(
            "a link or move to another directory needs refer at both, and layer {layer} denies it at one of them or both"
        )];
    }
    let path = |entry| cut(&path_of(player, entry), WIDEST);
    let (moved, to) = match refused.request.asked {
        Asked::Link { source, directory }
        | Asked::Rename {
            source, directory, ..
        } => (path(source), path(directory)),
        Asked::Exchange {
            source,
            entry,
            directory,
        } => ([source, entry].map(path).join(" or "), path(directory)),
        _ => return Vec::new(),
    };
    vec![
        format!("layer {layer} denies {rights} to {moved} where it stands, and would not at its new place in {to}"),
        "such a move is refused exactly if something would be gained, and these are all the rights that would be (`EXDEV is never needless`, docs/THEOREMS.md)".to_owned(),
    ]
}

/// A line with its answer, then why, and what would grant it.
fn why_text(why: &Why, view: &View) -> String {
    let statement = why.played.statement;
    let call = shown(&statement.text, view.width.saturating_sub(24));
    let head = format!("{}  {call}  {}", statement.line, why.played.answer);
    let mut out = heading(&head, view.width, view.paint);
    let mut say = |line: &str| {
        let mut row = Row::new(6, view.width);
        row.fill(4, line);
        out.push_str(&row.end());
    };
    let Some(denied) = &why.denied else {
        match reason(&why.played) {
            Some(reason) => say(&format!(
                "{reason}; no layer refused it, and no rule changes that"
            )),
            None => say("it was not refused"),
        }
        return out;
    };
    say(&denied_text(&denied.refused));
    denied.words.iter().for_each(|words| say(words));
    match &denied.remedy {
        Err(reason) => say(&format!("no rule would grant it: {reason}")),
        Ok(remedy) => remedy_text(remedy).iter().for_each(|line| say(line)),
    }
    out
}

fn denied_text(refused: &Refused) -> String {
    let Refused {
        layer,
        rights,
        errno,
        ..
    } = refused;
    match *errno {
        Errno::EXDEV if *rights != Mask::Files(Rights::REFER) => {
            format!("EXDEV: under layer {layer} the move would gain {rights}")
        }
        _ => format!("{errno}: layer {layer} denies {rights}"),
    }
}

/// The most other lines that are named.
const MOST_CHANGES: usize = 4;

fn remedy_text(remedy: &Remedy) -> Vec<String> {
    let mut lines = vec!["the least that grants it:".to_owned()];
    let rules = remedy.rules.iter();
    lines.extend(rules.map(|rule| format!("  {}  # before line {}", rule.text, rule.before)));
    let mut played = format!("played so, it answers {}", remedy.answer);
    let changes = remedy.changes.iter();
    let changes = changes.map(|(line, old, new)| format!("line {line} ({old} to {new})"));
    let mut changes: Vec<String> = changes.collect();
    let more = changes.len().saturating_sub(MOST_CHANGES);
    changes.truncate(MOST_CHANGES);
    if more > 0 {
        changes.push(format!("{more} more"));
    }
    if !changes.is_empty() {
        played.push_str(&format!("; it also changes {}", changes.join(", ")));
    }
    lines.push(played);
    lines
}

fn why_json(why: &Why) -> Json {
    let denied = why.denied.as_ref();
    let cause = denied.map(
        |denied| match (denied.refused.errno, denied.refused.rights) {
            (Errno::EXDEV, Mask::Files(Rights::REFER)) => "refer",
            (Errno::EXDEV, _) => "gain",
            _ => "denied",
        },
    );
    let remedy = denied.and_then(|denied| denied.remedy.as_ref().ok());
    let none = denied.and_then(|denied| denied.remedy.as_ref().err());
    Json::Object(vec![
        ("call", call_json(&why.played)),
        ("cause", Json::option(cause, Json::text)),
        ("remedy", Json::option(remedy, remedy_json)),
        (
            "no_remedy",
            Json::option(none, |none| Json::text(none.to_string())),
        ),
    ])
}

fn remedy_json(remedy: &Remedy) -> Json {
    let rule = |rule: &NewRule| {
        let before = Json::count(rule.before);
        Json::Object(vec![("before", before), ("text", Json::text(&rule.text))])
    };
    let change = |(line, old, new): &(usize, Answer, Answer)| {
        Json::Object(vec![
            ("line", Json::count(*line)),
            ("old", Json::text(old.to_string())),
            ("new", Json::text(new.to_string())),
        ])
    };
    Json::Object(vec![
        ("rules", Json::list(&remedy.rules, rule)),
        ("answer", Json::text(remedy.answer.to_string())),
        ("changes", Json::list(&remedy.changes, change)),
    ])
}
