//! `skein least`: the least policy under which a recorded list of calls succeeds.
use crate::json::Json;
use crate::lines::broken;
use crate::messages::not_as_written;
use crate::named::thread_name;
use crate::outcome::{Outcome, View, BAD_INPUT, FOUND};
use crate::play::{play, Play, Played, Player};
use crate::remedy::{
    add, call_text, least as least_rules, missing, NoRule, Refused, Rules, Spot, Tried,
};
use crate::request::Request;
use crate::scenario::{written, Answer, Call, LogCall, Mask, Scenario, Space, Statement};
use crate::transcript::{counted, mask_json, rights_json};
use crate::words::quoted;
use skeinrabbit::{parse_number, Attribute, Errno, Layer, PortRights, Rights, Tables, Thread};
use std::collections::BTreeMap;

/// Whose policies are asked for, and from which line on.
#[derive(Debug, Default, PartialEq, Eq)]
pub struct Traced {
    pub threads: Vec<String>,
    pub from: Option<usize>,
}

/// A policy: the ruleset of one thread, in force from a line on.
struct Policy {
    thread: Thread,
    name: String,
    from: usize,
    handled: Attribute,
    /// What it cannot handle: a call needs it at the root, where no rule may grant it.
    left_out: Rights,
}

pub fn least(view: &View, name: &str, scenario: &Scenario, traced: &Traced) -> Outcome {
    let played = play(scenario);
    if let Some(messages) = not_as_written(name, &played) {
        return Outcome::refused(messages, BAD_INPUT);
    }
    let mut trace = match Trace::of(scenario, &played, traced) {
        Ok(trace) => trace,
        Err(message) => return Outcome::bad_file(name, message),
    };
    let rules = match trace.least() {
        Ok(rules) => rules,
        Err(reason) => {
            let message = format!("No policy lets every call succeed: {reason}.");
            return Outcome::output(match view.json {
                true => format!("{}\n", trace.json(name, None, Some(&reason))),
                false => broken(&message, 4, view.width),
            })
            .with_code(FOUND);
        }
    };
    Outcome::output(match view.json {
        true => format!("{}\n", trace.json(name, Some(&rules), None)),
        false => trace.text(&rules, view.width),
    })
}

/// A recorded list of calls, and the policies that are put in.
struct Trace<'s> {
    scenario: &'s Scenario,
    /// The lines that succeeded, which must succeed under the policies too.
    succeeded: Vec<usize>,
    policies: Vec<Policy>,
}

impl<'s> Trace<'s> {
    fn of(scenario: &'s Scenario, played: &Play, traced: &Traced) -> Result<Trace<'s>, String> {
        let lines = &scenario.statements;
        let from = traced.from.unwrap_or(0);
        let callers = callers(scenario, from);
        let chosen: Vec<Thread> = match traced.threads.as_slice() {
            [] => default_threads(&callers),
            words => words
                .iter()
                .map(|word| caller(&played.player, &callers, word))
                .collect::<Result<_, _>>()?,
        };
        if chosen.is_empty() {
            return Err(format!("no call with a verdict from line {from} on"));
        }
        let first = chosen.iter().filter_map(|thread| callers.get(thread)).min();
        let fresh = |line: &&Statement| {
            matches!(line.call, Call::Fresh { .. } | Call::Log(LogCall::Restart))
        };
        let mut later = lines.iter().filter(|line| Some(&line.line) >= first);
        if let Some(fresh) = later.find(fresh) {
            let line = fresh.line;
            return Err(format!(
                "line {line} starts anew, and no policy lasts so long"
            ));
        }
        let ok = played.played.iter().filter(|line| succeeded(line));
        let policies = chosen.into_iter().map(|thread| Policy {
            thread,
            name: thread_name(&played.player, thread),
            from: callers.get(&thread).copied().unwrap_or(0),
            handled: all_of(&played.player.tables),
            left_out: Rights::NONE,
        });
        Ok(Trace {
            scenario,
            succeeded: ok.map(|line| line.statement.line).collect(),
            policies: policies.collect(),
        })
    }

    /// The least rules of the policies. A right that is needed at the root, where no rule may grant it, is not handled.
    fn least(&mut self) -> Result<Rules, NoRule> {
        loop {
            match least_rules(|rules| self.play(rules)) {
                Err(NoRule::AtRoot(place, rights)) if !rights.contains(Rights::REFER) => {
                    if let Some(policy) = self.policies.get_mut(place) {
                        policy.handled.fs -= rights;
                        policy.left_out |= rights;
                    }
                }
                other => return other,
            }
        }
    }

    /// Plays all with the policies put in.
    fn play(&self, rules: &Rules) -> Result<Tried, NoRule> {
        let mut player = Player::new(self.scenario.folder.clone());
        let mut made: BTreeMap<Layer, (usize, Tables)> = BTreeMap::new();
        for line in &self.scenario.statements {
            for (place, policy) in self.policies.iter().enumerate() {
                if policy.from == line.line {
                    let then = player.tables.clone();
                    let layer = policy.put_in(place, &mut player, rules)?;
                    made.insert(layer, (place, then));
                }
            }
            for round in 1..=line.rounds.unwrap_or(1) {
                player.at(line, round);
                let request = Request::of(&player, &line.call)?;
                let played = player.round(line, round)?;
                if succeeded(&played) || !self.succeeded.contains(&line.line) {
                    continue;
                }
                let refused = Refused::of(&played, request);
                let by = refused.and_then(|refused| Some((refused, made.get(&refused.layer)?)));
                let Some((refused, (place, then))) = by else {
                    let (line, answer) = (line.line, played.answer);
                    return Err(NoRule::Other(format!("line {line} then answers {answer}")));
                };
                return missing(*place, &player.tables, then, &refused);
            }
        }
        Ok(Tried::Granted)
    }
}

impl Policy {
    /// Restricts the thread, as the lines of the text do.
    fn put_in(&self, place: usize, player: &mut Player, rules: &Rules) -> Result<Layer, NoRule> {
        let refused = |errno: Errno| {
            let name = &self.name;
            NoRule::Other(format!("the policy of {name} is refused: {errno}"))
        };
        let attribute = self.handled.to_bytes();
        let ruleset = player.tables.create_ruleset(&attribute, 0);
        let ruleset = ruleset.map_err(refused)?;
        for ((_, spot), rights) in rules.iter().filter(|((of, _), _)| *of == place) {
            add(player, ruleset, spot, *rights)?;
        }
        let tables = &mut player.tables;
        tables.set_no_new_privs(self.thread).map_err(refused)?;
        let layer = tables.restrict(self.thread, ruleset, 0).map_err(refused)?;
        tables.close_ruleset(ruleset).map_err(refused)?;
        Ok(layer)
    }

    /// The lines that put it in, and what it is above them.
    fn lines(&self, place: usize, rules: &Rules) -> Vec<String> {
        let Policy { name, handled, .. } = self;
        let label = format!("least-{name}");
        let masks = [("fs", handled.fs.bits()), ("net", handled.net.bits())];
        let masks = masks.iter().filter(|(_, bits)| *bits != 0);
        let masks: Vec<String> = masks
            .map(|(mask, bits)| format!("{mask}={bits:#x}"))
            .collect();
        let mut lines = vec![format!("create_ruleset {} -> {label}", masks.join(" "))];
        let own = rules.iter().filter(|((of, _), _)| *of == place);
        lines.extend(own.map(|((_, spot), rights)| call_text(&label, spot, *rights)));
        lines.extend([
            format!("set_no_new_privs {name}"),
            format!("restrict {name} {label}"),
            format!("close_ruleset {label}"),
        ]);
        lines
    }
}

/// Every right that a ruleset can handle at the level.
fn all_of(tables: &Tables) -> Attribute {
    Attribute {
        fs: Rights::from_all(tables.level()),
        net: PortRights::from_all(tables.level()),
        ..Attribute::default()
    }
}

/// Whether a line succeeded, with the answer of the slot where it is a turn.
fn succeeded(played: &Played) -> bool {
    let slot = played.report.and_then(|report| report.slot);
    let answered = slot.is_none_or(|slot| slot.answer.is_ok());
    answered && !matches!(played.answer, Answer::Refused(_))
}

/// The threads that make a call with a verdict from a line on, each with the line of its first.
fn callers(scenario: &Scenario, from: usize) -> BTreeMap<Thread, usize> {
    let mut player = Player::new(scenario.folder.clone());
    let mut callers = BTreeMap::new();
    for line in &scenario.statements {
        player.at(line, 1);
        let request = Request::of(&player, &line.call).ok().flatten();
        let Ok(played) = player.play(line) else {
            break;
        };
        let slot = played.report.and_then(|report| report.slot);
        let served = slot.map(|slot| Request::of_slot(&slot));
        if let Some(request) = request.or(served).filter(|_| line.line >= from) {
            callers.entry(request.thread).or_insert(line.line);
        }
    }
    callers
}

/// All but the first thread, or that one where there is no other.
fn default_threads(callers: &BTreeMap<Thread, usize>) -> Vec<Thread> {
    let others: Vec<Thread> = callers
        .keys()
        .copied()
        .filter(|thread| *thread != Thread::MAIN)
        .collect();
    if others.is_empty() {
        callers.keys().copied().collect()
    } else {
        others
    }
}

fn caller(
    player: &Player,
    callers: &BTreeMap<Thread, usize>,
    word: &str,
) -> Result<Thread, String> {
    let number = parse_number(word).or_else(|| player.names.number(Space::Thread, word));
    let thread = number
        .map(Thread::new)
        .filter(|thread| callers.contains_key(thread));
    thread.ok_or_else(|| {
        let known: Vec<String> = callers
            .keys()
            .map(|thread| thread_name(player, *thread))
            .collect();
        let known = known.join(", ");
        format!(
            "{} makes no call with a verdict; these do: {known}",
            quoted(word)
        )
    })
}

impl Trace<'_> {
    /// For each thread the lines to put in before its first call.
    fn text(&self, rules: &Rules, width: usize) -> String {
        let mut out = String::new();
        for (place, policy) in self.policies.iter().enumerate() {
            let own = rules.iter().filter(|((of, _), _)| *of == place);
            let rights: usize = own.map(|(_, rights)| rights.each().len()).sum();
            let mut heading = format!(
                "The least policy of {}, before line {}: ",
                policy.name, policy.from
            );
            heading.push_str(&match rights {
                0 => "no rule is needed".to_owned(),
                _ => format!(
                    "{}, and without any one of them a call is refused",
                    counted(rights, "right")
                ),
            });
            if !policy.left_out.is_empty() {
                heading.push_str(&format!("; {} cannot be handled, as it is needed at the root, where no rule may grant it", policy.left_out));
            }
            if place > 0 {
                out.push('\n');
            }
            let lines = broken(&heading, 0, width.saturating_sub(2));
            lines
                .lines()
                .for_each(|line| out.push_str(&format!("# {line}\n")));
            for line in policy.lines(place, rules) {
                out.push_str(&format!("{line}\n"));
            }
        }
        out
    }

    fn json(&self, name: &str, rules: Option<&Rules>, reason: Option<&NoRule>) -> Json {
        let policies = rules.map(|rules| {
            let policies = self.policies.iter().enumerate();
            Json::list(policies, |(place, policy)| policy.json(place, rules))
        });
        Json::Object(vec![
            ("command", Json::text("least")),
            ("file", Json::text(name)),
            ("policies", policies.unwrap_or(Json::List(Vec::new()))),
            (
                "none",
                Json::option(reason, |reason| Json::text(reason.to_string())),
            ),
        ])
    }
}

impl Policy {
    fn json(&self, place: usize, rules: &Rules) -> Json {
        let own = rules.iter().filter(|((of, _), _)| *of == place);
        let rule = |((_, spot), rights): (&(usize, Spot), &Mask)| {
            let place = match spot {
                Spot::Path(path) => ("path", Json::text(written(path))),
                Spot::Port(port) => ("port", Json::Number(*port)),
            };
            Json::Object(vec![place, ("rights", mask_json(*rights))])
        };
        Json::Object(vec![
            ("thread", Json::text(&self.name)),
            ("before", Json::count(self.from)),
            ("fs", rights_json(self.handled.fs.iter())),
            ("net", rights_json(self.handled.net.iter())),
            ("left_out", rights_json(self.left_out.iter())),
            ("rules", Json::list(own, rule)),
            ("lines", Json::list(self.lines(place, rules), Json::text)),
        ])
    }
}

#[cfg(test)]
mod tests;
