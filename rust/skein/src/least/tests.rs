//! Least policies compared with all policies of small trees.
use super::{Trace, Traced};
use crate::brute::tree;
use crate::picture::is_above;
use crate::play::play;
use crate::remedy::{without, Rules, Spot};
use crate::scenario::{parse, written, Answer, Mask};
use random::Random;
use std::collections::BTreeSet;

/// The line before which the policy stands.
const FROM: usize = 6;

/// A tree, and calls of a client there.
fn trace(random: &mut Random) -> String {
    let mut text = tree(random);
    text.push_str("clone main -> client\n");
    let b = if text.contains("/a/b") { "/a/b" } else { "/b" };
    for round in 0..5 {
        let places = ["/a", b];
        let names = ["/a/x", "/a/y", "/a/b/x", "/b/x", "/b/y", "/a/b/y", "/a/n1"];
        let (source, place) = (random.pick(&names), random.pick(&places));
        let right = random.pick(&["read_file", "write_file", "execute"]);
        let call = match random.below(5) {
            0 => format!("create client {place}/n{round} regular"),
            1 => format!("link client {source} {place}/l{round}"),
            2 => format!("access client {source} {right}"),
            _ => format!(
                "rename client {source} {place}/{}",
                random.pick(&["x", "y"])
            ),
        };
        text.push_str(&format!("{call} => any\n"));
    }
    text
}

/// Which lines of a scenario succeed, without those of a policy that is put in.
fn succeeding(text: &str, put_in: &[String]) -> Vec<bool> {
    let mut lines: Vec<&str> = text.lines().collect();
    lines.splice(FROM - 1..FROM - 1, put_in.iter().map(String::as_str));
    let scenario = parse(lines.join("\n").as_bytes()).expect("a scenario");
    let play = play(&scenario);
    let is_own = |line: usize| line < FROM || line >= FROM + put_in.len();
    let own = play
        .played
        .iter()
        .filter(|played| is_own(played.statement.line));
    own.map(|played| !matches!(played.answer, Answer::Refused(_)))
        .collect()
}

/// Of many small traces: under the policy each call that succeeded does; without any one of its rights one does not; and no other
/// choice of places for a right is enough that grants it at fewer entries, all of them among those of the policy.
#[test]
fn no_policy_that_is_enough_grants_less() {
    let mut random = Random::new(4);
    let (mut rules_seen, mut moves_seen) = (0, 0);
    for _ in 0..25 {
        let text = trace(&mut random);
        let scenario = parse(text.as_bytes()).expect("a scenario");
        let played = play(&scenario);
        let mut trace = Trace::of(&scenario, &played, &Traced::default()).expect("a trace");
        let Ok(rules) = trace.least() else {
            continue;
        };
        let [policy] = trace.policies.as_slice() else {
            panic!("one thread");
        };
        let wanted = succeeding(&text, &[]);
        let works = |rules: &Rules| succeeding(&text, &policy.lines(0, rules)) == wanted;
        assert!(works(&rules), "{text}{rules:?}");
        rules_seen += rules.len();
        moves_seen += usize::from(
            rules
                .values()
                .any(|rights| rights.to_string().contains("refer")),
        );
        for (place, rights) in &rules {
            for right in rights.each() {
                let fewer = without(&rules, right, [place].into_iter());
                assert!(!works(&fewer), "{text}{fewer:?}");
                assert!(!less_works(&text, &rules, right, &works), "{text}{rules:?}");
            }
        }
    }
    assert!(
        rules_seen > 30 && moves_seen > 5,
        "{rules_seen} and {moves_seen}"
    );
}

/// Whether some other places for a right are enough, and grant it at some of the entries only where it is granted now.
fn less_works(text: &str, rules: &Rules, right: Mask, works: &impl Fn(&Rules) -> bool) -> bool {
    let paths = paths(text);
    let own = rules
        .iter()
        .filter(|(_, rights)| rights.each().contains(&right));
    let own: Vec<String> = own
        .filter_map(|((_, spot), _)| match spot {
            Spot::Path(path) => Some(written(path)),
            Spot::Port(_) => None,
        })
        .collect();
    let granted_at = |by: &[String]| -> BTreeSet<&String> {
        let granted = |path: &&String| by.iter().any(|above| is_above(above, path));
        paths.iter().filter(granted).collect()
    };
    let now = granted_at(&own);
    let mut parts = 0..1_u32 << paths.len();
    parts.any(|part| {
        let chosen = paths.iter().enumerate();
        let chosen = chosen.filter(|(bit, _)| part & (1 << bit) != 0);
        let chosen: Vec<String> = chosen.map(|(_, path)| path.clone()).collect();
        let then = granted_at(&chosen);
        if !then.is_subset(&now) || then == now {
            return false;
        }
        let mut other = without(rules, right, rules.keys());
        for path in &chosen {
            let spot = (0, Spot::Path(path.clone().into_bytes()));
            let rule = other.entry(spot).or_insert(right);
            *rule = rule.joined(right);
        }
        works(&other)
    })
}

/// The paths of the tree that a trace starts with.
fn paths(text: &str) -> Vec<String> {
    let made = text.lines().take(FROM - 2);
    made.filter_map(|line| line.split(' ').nth(2).map(str::to_owned))
        .collect()
}
