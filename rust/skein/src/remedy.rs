//! The least rules under which calls are granted, found by playing them.
use crate::play::{Played, Player};
use crate::request::{Place, Request};
use crate::scenario::{written, Answer, Bad, Mask};
use crate::words::{cut, WIDEST};
use skeinrabbit::{Attribute, Entry, Errno, Layer, PortRights, Rights, Ruleset, Tables};
use std::collections::BTreeMap;
use std::fmt;

/// A call that a layer refused.
#[derive(Clone, Copy, Debug)]
pub struct Refused {
    pub errno: Errno,
    pub layer: Layer,
    pub rights: Mask,
    pub request: Request,
}

impl Refused {
    /// The refusal of a line by a layer, if that is what it answered; of a turn that of the slot it served.
    pub fn of(played: &Played, request: Option<Request>) -> Option<Refused> {
        let report = played.report?;
        let (errno, request) = match (played.answer, report.slot) {
            (Answer::Refused(errno), _) => (errno, request?),
            (Answer::Served(_), Some(slot)) => (slot.answer.err()?, Request::of_slot(&slot)),
            _ => return None,
        };
        Some(Refused {
            errno,
            layer: report.layer?,
            rights: report.rights,
            request,
        })
    }
}

/// Where a rule stands: at a path of the moment when it is added, or at a port.
#[derive(Clone, Debug, PartialEq, Eq, PartialOrd, Ord)]
pub enum Spot {
    Path(Vec<u8>),
    Port(u64),
}

/// Rules that are added: for each, which of several rulesets it is in (a number that the caller gives a meaning) and its spot.
pub type Rules = BTreeMap<(usize, Spot), Mask>;

/// What a play with some rules comes to.
pub enum Tried {
    /// Everything that is asked is granted.
    Granted,
    /// A layer refuses something: these rights are missing, in this ruleset.
    Missing(usize, Vec<(Spot, Mask)>),
}

/// Why no rule grants something.
#[derive(Clone, Debug, PartialEq, Eq)]
pub enum NoRule {
    /// The ruleset does not ask to handle these rights, but denies them.
    Unasked(Rights),
    /// A rule of this ruleset on the root may not grant these.
    AtRoot(usize, Rights),
    Other(String),
}

impl fmt::Display for NoRule {
    fn fmt(&self, f: &mut fmt::Formatter<'_>) -> fmt::Result {
        match self {
            NoRule::Unasked(rights) => {
                write!(
                    f,
                    "the ruleset must ask to handle {rights} before a rule can grant it"
                )
            }
            NoRule::AtRoot(_, rights) => write!(f, "no rule on the root may grant {rights}"),
            NoRule::Other(reason) => f.write_str(reason),
        }
    }
}

/// What keeps a line from being played.
impl From<Bad> for NoRule {
    fn from(bad: Bad) -> NoRule {
        NoRule::Other(format!("a line then has {}", bad.found))
    }
}

/// The least rules that a play is granted with, or why there are none. Rules are added where something is refused until nothing is;
/// then rights are taken out until without any one of them something is refused.
pub fn least(play: impl Fn(&Rules) -> Result<Tried, NoRule>) -> Result<Rules, NoRule> {
    let mut rules = Rules::new();
    loop {
        let (ruleset, missing) = match play(&rules)? {
            Tried::Granted => break,
            Tried::Missing(ruleset, missing) => (ruleset, missing),
        };
        let before = rules.clone();
        for (spot, rights) in missing {
            let rule = rules.entry((ruleset, spot)).or_insert(rights.none());
            *rule = rule.joined(rights);
        }
        if rules == before {
            let reason = "the rules that are missing do not help";
            return Err(NoRule::Other(reason.to_owned()));
        }
    }
    let granted = |rules: &Rules| matches!(play(rules), Ok(Tried::Granted));
    loop {
        let before = rules.clone();
        for right in rights_of(&rules) {
            rules = fewest(&rules, right, &granted);
        }
        if rules == before {
            return Ok(rules);
        }
    }
}

/// The most rules with one right of which all parts are tried.
const MOST_TRIED: usize = 8;

/// The rules with as few of them as can be granting a right. Rights do not depend on each other, but the places of one do: a right
/// at the target of a move may need the same right at its source, so one at a time is not enough.
fn fewest(rules: &Rules, right: Mask, granted: &impl Fn(&Rules) -> bool) -> Rules {
    let places: Vec<(usize, Spot)> = rules
        .iter()
        .filter(|(_, rights)| rights.contains(right))
        .map(|(place, _)| place.clone())
        .collect();
    if places.len() <= MOST_TRIED {
        let mut parts: Vec<u32> = (0..1 << places.len()).collect();
        parts.sort_by_key(|part| part.count_ones());
        let kept = |part: &u32| {
            let dropped = places.iter().enumerate();
            let dropped = dropped.filter(|(bit, _)| part & (1 << bit) == 0);
            without(rules, right, dropped.map(|(_, place)| place))
        };
        let mut tried = parts.iter().map(kept);
        return tried.find(|rules| granted(rules)).unwrap_or(rules.clone());
    }
    let mut rules = rules.clone();
    for place in &places {
        let fewer = without(&rules, right, [place].into_iter());
        if granted(&fewer) {
            rules = fewer;
        }
    }
    rules
}

/// The rules without a right at some places, and without those that then grant nothing.
pub fn without<'p>(
    rules: &Rules,
    right: Mask,
    places: impl Iterator<Item = &'p (usize, Spot)>,
) -> Rules {
    let mut fewer = rules.clone();
    for place in places {
        if let Some(rights) = fewer.get_mut(place) {
            *rights = rights.less(right);
        }
    }
    fewer.retain(|_, rights| !rights.is_empty());
    fewer
}

/// Every right that some rule grants, one by one.
fn rights_of(rules: &Rules) -> Vec<Mask> {
    let mut all: Vec<Mask> = rules.values().flat_map(|rights| rights.each()).collect();
    all.sort();
    all.dedup();
    all
}

/// The rules of a ruleset that would grant what a layer made of it refused, on the tables of that moment: each at the nearest entry
/// from the place up whose object had an entry when the layer was made.
pub fn missing(
    ruleset: usize,
    now: &Tables,
    then: &Tables,
    refused: &Refused,
) -> Result<Tried, NoRule> {
    let handled = now.layer(refused.layer).map(|row| row.attribute);
    let Refused { errno, rights, .. } = *refused;
    let mut spots = Vec::new();
    for (place, rights) in refused.request.wanted(now, errno, rights) {
        let spot = match place {
            Place::Port(port) => Spot::Port(port),
            Place::Entry(entry) => Spot::Path(path_then(now, then, entry)),
        };
        can_be_added(ruleset, &spot, rights, handled.unwrap_or_default())?;
        spots.push((spot, rights));
    }
    Ok(Tried::Missing(ruleset, spots))
}

/// The path, where rules are added, of the nearest entry from this one up that was there.
fn path_then(now: &Tables, then: &Tables, entry: Entry) -> Vec<u8> {
    let above = |row: &skeinrabbit::EntryRow| {
        let above = (row.entry != Entry::ROOT).then(|| now.entry(row.parent));
        above.flatten()
    };
    let way = std::iter::successors(now.entry(entry), above);
    let mut there = way.filter_map(|row| {
        let mut entries = then.entries();
        entries.find(|old| old.object == row.object)
    });
    let there = there.next().map_or(Entry::ROOT, |row| row.entry);
    then.path(there).unwrap_or_else(|| b"/".to_vec())
}

/// Whether the broker takes a rule of these rights, or why not.
fn can_be_added(
    ruleset: usize,
    spot: &Spot,
    rights: Mask,
    handled: Attribute,
) -> Result<(), NoRule> {
    let Mask::Files(rights) = rights else {
        return Ok(());
    };
    let unasked = rights - handled.fs;
    let sweeping = rights & Rights::NOT_AT_ROOT;
    if !unasked.is_empty() {
        Err(NoRule::Unasked(unasked))
    } else if *spot == Spot::Path(b"/".to_vec()) && !sweeping.is_empty() {
        Err(NoRule::AtRoot(ruleset, sweeping))
    } else {
        Ok(())
    }
}

/// Adds a rule to a ruleset of a play.
pub fn add(player: &mut Player, ruleset: Ruleset, spot: &Spot, rights: Mask) -> Result<(), NoRule> {
    let added = match (spot, rights) {
        (Spot::Path(path), Mask::Files(rights)) => {
            let entry = player.tables.lookup(path);
            entry.and_then(|entry| player.tables.add_path_rule(ruleset, entry, rights, 0))
        }
        (Spot::Port(port), Mask::Ports(rights)) => {
            player.tables.add_port_rule(ruleset, *port, rights, 0)
        }
        _ => Err(Errno::EINVAL),
    };
    let refused = |errno| {
        let spot = cut(&spot_text(spot), WIDEST);
        format!("the rule at {spot} is refused: {errno}")
    };
    added.map_err(|errno| NoRule::Other(refused(errno)))
}

/// The call that adds a rule, as a scenario writes it.
pub fn call_text(ruleset: &str, spot: &Spot, rights: Mask) -> String {
    match spot {
        Spot::Path(path) => format!("add_path_rule {ruleset} {} {rights}", written(path)),
        Spot::Port(port) => format!("add_port_rule {ruleset} {port} {rights}"),
    }
}

fn spot_text(spot: &Spot) -> String {
    match spot {
        Spot::Path(path) => written(path),
        Spot::Port(port) => format!("port {port}"),
    }
}

/// Sets of rights of one sort.
impl Mask {
    fn none(self) -> Mask {
        match self {
            Mask::Files(_) => Mask::Files(Rights::NONE),
            Mask::Ports(_) => Mask::Ports(PortRights::NONE),
        }
    }

    pub fn is_empty(self) -> bool {
        self == self.none()
    }

    pub fn joined(self, other: Mask) -> Mask {
        match (self, other) {
            (Mask::Files(one), Mask::Files(two)) => Mask::Files(one | two),
            (Mask::Ports(one), Mask::Ports(two)) => Mask::Ports(one | two),
            _ => self,
        }
    }

    fn less(self, other: Mask) -> Mask {
        match (self, other) {
            (Mask::Files(one), Mask::Files(two)) => Mask::Files(one - two),
            (Mask::Ports(one), Mask::Ports(two)) => Mask::Ports(one - two),
            _ => self,
        }
    }

    fn contains(self, other: Mask) -> bool {
        self.joined(other) == self && self.less(other) != self
    }

    /// The rights one by one.
    pub fn each(self) -> Vec<Mask> {
        match self {
            Mask::Files(rights) => rights.iter().map(Mask::Files).collect(),
            Mask::Ports(rights) => rights.iter().map(Mask::Ports).collect(),
        }
    }
}
