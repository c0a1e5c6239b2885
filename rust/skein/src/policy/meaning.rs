//! What the rulesets of a policy file handle and grant at a level.
use super::{fields, little_endian, Field, GROUP, MASKS, PATH_RULE, PORT_RULE, RULESET};
use skeinrabbit::{Attribute, Level, PortRights, Rights, Scopes};
use std::collections::BTreeMap;

/// The masks of a ruleset, and what its rules grant at each path and port.
#[derive(Default)]
pub struct Ruleset {
    pub masks: Attribute,
    pub paths: BTreeMap<Vec<u8>, Rights>,
    pub ports: BTreeMap<u64, PortRights>,
}

/// The rulesets of a fine file by their names, as they are at a level.
pub fn rulesets(file: &[u8], level: Level) -> BTreeMap<Vec<u8>, Ruleset> {
    let all: Vec<Field> = fields(file, 0).collect();
    let parts = all.chunk_by(|_, next| next.tag != RULESET);
    let rulesets = parts.filter_map(|part| {
        let (name, own) = part.split_first()?;
        Some((name.value.to_vec(), Ruleset::of(own, level)))
    });
    rulesets.collect()
}

impl Ruleset {
    fn of(own: &[Field], level: Level) -> Ruleset {
        let mut ruleset = Ruleset::default();
        for field in own {
            ruleset.take(*field, level);
        }
        // An empty group, and one that does not count, cut the masks too.
        if own.iter().any(|field| field.tag == GROUP) {
            ruleset.masks = cut(ruleset.masks, level);
        }
        ruleset
    }

    /// Takes masks, a rule or the rules of a group that counts. Rules for the same place join their rights.
    fn take(&mut self, field: Field, level: Level) {
        match field.tag {
            MASKS => self.masks = field.masks(),
            PATH_RULE => {
                let (rights, path) = field.rule();
                *self.paths.entry(path.to_vec()).or_default() |= Rights::from_bits(rights);
            }
            PORT_RULE => {
                let (rights, port) = field.rule();
                let port = self.ports.entry(little_endian(port)).or_default();
                *port |= PortRights::from_bits(rights);
            }
            GROUP if u64::from(field.level()) <= level.number() => {
                field.inner().for_each(|inner| self.take(inner, level));
            }
            _ => {}
        }
    }
}

/// Masks without the bits that only higher levels know. Those that no level knows stay.
fn cut(masks: Attribute, level: Level) -> Attribute {
    Attribute {
        fs: masks.fs - (Rights::ALL - Rights::from_all(level)),
        net: masks.net - (PortRights::ALL - PortRights::from_all(level)),
        scope: masks.scope - (Scopes::ALL - Scopes::from_all(level)),
    }
}
