//! Two policy files: the rulesets that one alone has, and what the masks and rules of the others gain and lose.
use super::change::{block, joined, only_in, outcome, port_name, Change, Line, RightSet, WIDEST};
use crate::json::Json;
use crate::outcome::{Outcome, View};
use crate::policy::{fine, rulesets, Ruleset};
use crate::scenario::written;
use crate::words::shown;
use skeinrabbit::{Level, PortRights, Rights, Scopes};
use std::collections::{BTreeMap, BTreeSet};
use std::ffi::OsString;

type Rulesets = BTreeMap<Vec<u8>, Ruleset>;

/// What differs between two policy files at a level.
struct Difference {
    /// The rulesets that only one of them has.
    only: [Vec<String>; 2],
    rulesets: Vec<RulesetDifference>,
}

struct RulesetDifference {
    name: String,
    fs: Option<Change<(), Rights>>,
    net: Option<Change<(), PortRights>>,
    scope: Option<Change<(), Scopes>>,
    paths: Vec<Change<Vec<u8>, Rights>>,
    ports: Vec<Change<u64, PortRights>>,
}

pub fn policies(view: &View, files: &[OsString; 2], level: Level) -> Outcome {
    let [old, new] = files
        .each_ref()
        .map(|file| fine(file).map(|bytes| rulesets(&bytes, level)));
    let (old, new) = match (old, new) {
        (Ok(old), Ok(new)) => (old, new),
        (Err(refused), _) | (_, Err(refused)) => return refused,
    };
    let names = files.each_ref().map(|file| file.to_string_lossy());
    let names = names.each_ref().map(|name| name.as_ref());
    let difference = Difference::of(&old, &new);
    outcome(
        view,
        difference.is_empty(),
        || difference.json(names, level),
        || difference.text(names, level, view),
    )
}

impl Difference {
    fn of(old: &Rulesets, new: &Rulesets) -> Difference {
        let both = new.iter().filter_map(|(name, now)| {
            let before = old.get(name)?;
            Some(RulesetDifference::of(written(name), before, now))
        });
        Difference {
            only: [only(old, new), only(new, old)],
            rulesets: both.filter(|ruleset| !ruleset.is_empty()).collect(),
        }
    }

    fn is_empty(&self) -> bool {
        self.rulesets.is_empty() && self.only.iter().all(Vec::is_empty)
    }

    fn text(&self, files: [&str; 2], level: Level, view: &View) -> String {
        if self.is_empty() {
            return format!("No difference: the same rulesets at level {level}.\n");
        }
        let only = files.iter().zip(&self.only);
        let only = only.map(|(file, names)| only_in(file, "ruleset", names, view));
        let blocks = self.rulesets.iter();
        joined(
            only.collect(),
            blocks.map(|ruleset| block("ruleset", &ruleset.name, &ruleset.lines(), view)),
        )
    }

    fn json(&self, [old, new]: [&str; 2], level: Level) -> Json {
        let only = |only: &[String]| Json::Object(vec![("rulesets", Json::list(only, Json::text))]);
        let [only_old, only_new] = &self.only;
        Json::Object(vec![
            ("command", Json::text("diff")),
            ("old", Json::text(old)),
            ("new", Json::text(new)),
            ("level", Json::Number(level.number())),
            ("only_old", only(only_old)),
            ("only_new", only(only_new)),
            (
                "rulesets",
                Json::list(&self.rulesets, RulesetDifference::json),
            ),
        ])
    }
}

/// The rulesets that the first has and the second has not.
fn only(one: &Rulesets, two: &Rulesets) -> Vec<String> {
    let names = one.keys().filter(|name| !two.contains_key(*name));
    names.map(|name| written(name)).collect()
}

impl RulesetDifference {
    fn of(name: String, old: &Ruleset, new: &Ruleset) -> RulesetDifference {
        RulesetDifference {
            name,
            fs: Change::of((), old.masks.fs, new.masks.fs),
            net: Change::of((), old.masks.net, new.masks.net),
            scope: Change::of((), old.masks.scope, new.masks.scope),
            paths: changes(&old.paths, &new.paths),
            ports: changes(&old.ports, &new.ports),
        }
    }

    fn is_empty(&self) -> bool {
        let masks = self.fs.is_none() && self.net.is_none() && self.scope.is_none();
        masks && self.paths.is_empty() && self.ports.is_empty()
    }

    fn lines(&self) -> Vec<Line> {
        let about = |mask: &str| format!("masks {mask}");
        let masks = [
            self.fs.as_ref().map(|change| change.line(about("fs"))),
            self.net.as_ref().map(|change| change.line(about("net"))),
            self.scope
                .as_ref()
                .map(|change| change.line(about("scope"))),
        ];
        let paths = self.paths.iter();
        let paths = paths.map(|change| change.line(shown(&written(&change.place), WIDEST)));
        let ports = self.ports.iter();
        let ports = ports.map(|change| change.line(port_name(Some(change.place))));
        masks
            .into_iter()
            .flatten()
            .chain(paths)
            .chain(ports)
            .collect()
    }

    fn json(&self) -> Json {
        let masks = [
            self.fs.as_ref().map(|change| mask_json("fs", change)),
            self.net.as_ref().map(|change| mask_json("net", change)),
            self.scope.as_ref().map(|change| mask_json("scope", change)),
        ];
        let path = |change: &Change<Vec<u8>, Rights>| {
            change.json("path", Json::text(written(&change.place)))
        };
        let port =
            |change: &Change<u64, PortRights>| change.json("port", Json::Number(change.place));
        Json::Object(vec![
            ("ruleset", Json::text(&self.name)),
            ("masks", Json::List(masks.into_iter().flatten().collect())),
            ("paths", Json::list(&self.paths, path)),
            ("ports", Json::list(&self.ports, port)),
        ])
    }
}

fn mask_json<R: RightSet>(mask: &str, change: &Change<(), R>) -> Json {
    change.json("mask", Json::text(mask))
}

/// What is gained and lost at each place that a rule of either names; where no rule is there are no rights.
fn changes<P: Clone + Ord, R: RightSet>(
    old: &BTreeMap<P, R>,
    new: &BTreeMap<P, R>,
) -> Vec<Change<P, R>> {
    let places: BTreeSet<&P> = old.keys().chain(new.keys()).collect();
    let changes = places.into_iter().filter_map(|place| {
        let [before, now] = [old, new].map(|rules| rules.get(place).copied().unwrap_or_default());
        Change::of(place.clone(), before, now)
    });
    changes.collect()
}
