//! The calls on rulesets: create, close, add a rule.

use crate::refusal::{Answer, Refusal};
use crate::rights::{Masks, Rights};
use crate::state::{lowest_free, Key, Model, Ruleset, MAX_PORT, MAX_RULES, MAX_RULESETS, ROOT};

const SHORTEST_ATTRIBUTE: usize = 8;
const LONGEST_ATTRIBUTE: usize = 4096;

/// The attribute bytes that a level knows.
pub fn known_size(level: u64) -> usize {
    match level {
        0..=3 => 8,
        4 | 5 => 16,
        _ => 24,
    }
}

/// The little-endian mask at an offset; missing bytes count as zero.
fn mask_at(bytes: &[u8], offset: usize) -> Rights {
    let part = bytes.iter().skip(offset).take(8);
    Rights(
        part.rev()
            .fold(0, |mask, byte| mask << 8 | u64::from(*byte)),
    )
}

/// The masks that attribute bytes ask for at a level.
fn masks_of(bytes: &[u8], level: u64) -> Result<Masks, Refusal> {
    if bytes.len() < SHORTEST_ATTRIBUTE {
        return Err(Refusal::AttributeTooShort);
    }
    if bytes.len() > LONGEST_ATTRIBUTE {
        return Err(Refusal::AttributeTooLong);
    }
    let known = &bytes[..bytes.len().min(known_size(level))];
    if bytes[known.len()..].iter().any(|byte| *byte != 0) {
        return Err(Refusal::BytePastKnownSize);
    }
    let masks = Masks {
        fs: mask_at(known, 0),
        net: mask_at(known, 8),
        scope: mask_at(known, 16),
    };
    if !masks.within(&Masks::known(level)) {
        return Err(Refusal::UnknownBit);
    }
    if masks.is_empty() {
        return Err(Refusal::NothingHandled);
    }
    Ok(masks)
}

impl Model {
    pub fn create_ruleset(&mut self, bytes: &[u8], flags: u64) -> Answer {
        self.needs_landlock()?;
        no_flags(flags)?;
        let masks = masks_of(bytes, self.level)?;
        let number = lowest_free(&self.rulesets, MAX_RULESETS).ok_or(Refusal::NoFreeRuleset)?;
        let rules = Default::default();
        self.rulesets.insert(number, Ruleset { masks, rules });
        Ok(number)
    }

    pub fn close_ruleset(&mut self, ruleset: u64) -> Answer {
        match self.rulesets.remove(&ruleset) {
            Some(_) => Ok(0),
            None => Err(Refusal::RulesetNotOpen),
        }
    }

    pub fn add_path_rule(&mut self, ruleset: u64, number: u64, rights: u64, flags: u64) -> Answer {
        let rights = Rights(rights);
        let handled = self.rule_target(ruleset, rights, flags)?.masks.fs;
        if !rights.within(handled) {
            return Err(Refusal::RightsNotHandled);
        }
        let entry = *self.entries.get(&number).ok_or(Refusal::RuleEntryNotLive)?;
        if number == ROOT && rights.meets(Rights::CHANGING) {
            return Err(Refusal::SweepingRule);
        }
        if !rights.within(entry.kind.rights()) {
            return Err(Refusal::RightsNotForFile);
        }
        self.add_rule(ruleset, Key::Object(entry.object), rights)
    }

    pub fn add_port_rule(&mut self, ruleset: u64, port: u64, rights: u64, flags: u64) -> Answer {
        let rights = Rights(rights);
        let handled = self.rule_target(ruleset, rights, flags)?.masks.net;
        if !rights.within(handled) {
            return Err(Refusal::RightsNotHandled);
        }
        if port > MAX_PORT {
            return Err(Refusal::PortOutOfRange);
        }
        self.add_rule(ruleset, Key::Port(port), rights)
    }

    /// Refuses where Landlock is disabled.
    pub(crate) fn needs_landlock(&self) -> Result<(), Refusal> {
        if self.level == 0 {
            Err(Refusal::Disabled)
        } else {
            Ok(())
        }
    }

    pub(crate) fn open_ruleset(&self, ruleset: u64) -> Result<&Ruleset, Refusal> {
        self.rulesets.get(&ruleset).ok_or(Refusal::RulesetNotOpen)
    }

    /// The checks that path and port rules share; the ruleset that the rule is for.
    fn rule_target(&self, ruleset: u64, rights: Rights, flags: u64) -> Result<&Ruleset, Refusal> {
        self.needs_landlock()?;
        no_flags(flags)?;
        let ruleset = self.open_ruleset(ruleset)?;
        if rights.is_empty() {
            return Err(Refusal::NoRights);
        }
        Ok(ruleset)
    }

    fn add_rule(&mut self, ruleset: u64, key: Key, rights: Rights) -> Answer {
        let rules = &mut self
            .rulesets
            .get_mut(&ruleset)
            .ok_or(Refusal::RulesetNotOpen)?
            .rules;
        if !rules.contains(key) && rules.len() == MAX_RULES {
            return Err(Refusal::RulesetFull);
        }
        rules.add(key, rights);
        Ok(0)
    }
}

/// No call knows a flag.
pub(crate) fn no_flags(flags: u64) -> Result<(), Refusal> {
    if flags == 0 {
        Ok(())
    } else {
        Err(Refusal::FlagsNotZero)
    }
}
