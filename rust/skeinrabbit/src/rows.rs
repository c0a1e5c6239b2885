//! Rows of the tables, read as they stand and not tested.
use crate::cells::row;
use crate::kind::Kind;
use crate::level::Level;
use crate::numbers::{Entry, Layer, Ruleset, Thread};
use crate::rights::{AccessFs, AccessNet, Scope};
use crate::rules::Rules;
use crate::tables::Tables;
use skeinrabbit_sys::layout::{
    LAYER_WIDTH, MAX_DOMAIN, MAX_ENTRIES, MAX_LAYERS, MAX_RULES, MAX_RULESETS, MAX_THREADS,
    RULESET_HEAD, RULESET_WIDTH, RULE_WIDTH,
};

/// A live entry.
#[derive(Clone, Copy, Debug, PartialEq, Eq)]
pub struct EntryRow {
    /// Its number.
    pub entry: Entry,
    /// What it is.
    pub kind: Kind,
    /// The directory it is in; the root is its own.
    pub parent: Entry,
    /// The object that rules attach to. Two entries of one object are hard links.
    pub object: u64,
}

/// An open ruleset.
#[derive(Clone, Copy, Debug, PartialEq, Eq)]
pub struct RulesetRow<'t> {
    /// Its number.
    pub ruleset: Ruleset,
    /// What it handles.
    pub attribute: Attribute,
    /// Its rules.
    pub rules: Rules<'t>,
}

/// A layer in use. Its rules come from [`Tables::layer_rules`].
#[derive(Clone, Copy, Debug, PartialEq, Eq)]
pub struct LayerRow {
    /// Its number.
    pub layer: Layer,
    /// The layer below it.
    pub parent: Option<Layer>,
    /// What it was asked to handle; it handles REFER too, unless it was asked for nothing of the file system.
    pub attribute: Attribute,
    /// How many hold it: live threads whose youngest layer it is, and layers whose parent it is.
    pub holders: u64,
}

/// A live thread.
#[derive(Clone, Copy, Debug, PartialEq, Eq)]
pub struct ThreadRow {
    /// Its number.
    pub thread: Thread,
    /// The layer that was added last.
    pub youngest: Option<Layer>,
    /// Whether it gave up new privileges.
    pub no_new_privs: bool,
    /// Whether it may restrict itself without that.
    pub admin: bool,
}

/// What a ruleset or layer handles.
#[derive(Clone, Copy, Debug, PartialEq, Eq, Default)]
pub struct Attribute {
    /// Rights at the file system.
    pub fs: AccessFs,
    /// Rights at ports.
    pub net: AccessNet,
    /// Scopes.
    pub scope: Scope,
}

impl Attribute {
    /// The attribute as [`Tables::create_ruleset`] takes it: three masks of eight bytes, lowest byte first.
    ///
    /// ```
    /// use skeinrabbit::{AccessFs, Attribute};
    /// let attribute = Attribute { fs: AccessFs::MAKE_REG, ..Attribute::default() };
    /// assert_eq!(attribute.to_bytes()[..3], [0, 1, 0]);
    /// ```
    pub fn to_bytes(self) -> [u8; 24] {
        let mut bytes = [0; 24];
        let masks = [self.fs.bits(), self.net.bits(), self.scope.bits()];
        for (place, mask) in bytes.chunks_exact_mut(8).zip(masks) {
            place.copy_from_slice(&mask.to_le_bytes());
        }
        bytes
    }

    fn from_cells(fs: u64, net: u64, scope: u64) -> Self {
        Self {
            fs: AccessFs::from_bits(fs),
            net: AccessNet::from_bits(net),
            scope: Scope::from_bits(scope),
        }
    }
}

/// # Rows
///
/// These read the cells as they stand. [`Tables::is_sound`] tells whether the tables mean anything.
impl Tables {
    /// The level.
    pub fn level(&self) -> Level {
        let [level, ..] = *self.cells().system;
        Level::new(level)
    }

    /// An entry, if it is live.
    ///
    /// ```
    /// # use skeinrabbit::*;
    /// let tables = Tables::new(Level::LATEST)?;
    /// assert_eq!(tables.entry(Entry::ROOT).map(|row| row.kind), Some(Kind::DIRECTORY));
    /// assert_eq!(tables.entry(Entry::new(1)), None);
    /// # Ok::<(), Errno>(())
    /// ```
    pub fn entry(&self, entry: Entry) -> Option<EntryRow> {
        let [kind, parent, object] = row(self.cells().entries.as_slice(), entry.number())?;
        (kind != 0).then_some(EntryRow {
            entry,
            kind: Kind::new(kind),
            parent: Entry::new(parent),
            object,
        })
    }

    /// The live entries, lowest number first.
    pub fn entries(&self) -> impl Iterator<Item = EntryRow> + '_ {
        (0..MAX_ENTRIES as u64).filter_map(|number| self.entry(Entry::new(number)))
    }

    /// A ruleset, if it is open.
    pub fn open_ruleset(&self, ruleset: Ruleset) -> Option<RulesetRow<'_>> {
        let [fs, net, scope, count] = {
            let row: [u64; RULESET_WIDTH] =
                row(self.cells().rulesets.as_slice(), ruleset.number())?;
            let [fs, net, scope, count, ..] = row;
            [fs, net, scope, count]
        };
        let attribute = Attribute::from_cells(fs, net, scope);
        let number = usize::try_from(ruleset.number()).ok()?;
        let start = number.checked_mul(RULESET_WIDTH)?;
        let row = self.cells().rulesets.get(start..start + RULESET_WIDTH)?;
        let rules = row.get(RULESET_HEAD..)?;
        let length = RULE_WIDTH * usize::try_from(count).map_or(MAX_RULES, |n| n.min(MAX_RULES));
        (attribute != Attribute::default()).then_some(RulesetRow {
            ruleset,
            attribute,
            rules: Rules::new(rules.get(..length)?),
        })
    }

    /// The open rulesets, lowest number first.
    pub fn open_rulesets(&self) -> impl Iterator<Item = RulesetRow<'_>> + '_ {
        (0..MAX_RULESETS as u64).filter_map(|number| self.open_ruleset(Ruleset::new(number)))
    }

    /// A layer, if it is in use: if someone holds it.
    pub fn layer(&self, layer: Layer) -> Option<LayerRow> {
        let [parent, fs, net, scope, _, _, holders]: [u64; LAYER_WIDTH] =
            row(self.cells().layers.as_slice(), layer.number())?;
        (holders != 0).then_some(LayerRow {
            layer,
            parent: Layer::from_cell(parent),
            attribute: Attribute::from_cells(fs, net, scope),
            holders,
        })
    }

    /// The layers in use, lowest number first.
    pub fn layers(&self) -> impl Iterator<Item = LayerRow> + '_ {
        (0..MAX_LAYERS as u64).filter_map(|number| self.layer(Layer::new(number)))
    }

    /// A thread, if it is live.
    pub fn thread(&self, thread: Thread) -> Option<ThreadRow> {
        let [live, youngest, no_new_privs, admin] =
            row(self.cells().threads.as_slice(), thread.number())?;
        (live != 0).then_some(ThreadRow {
            thread,
            youngest: Layer::from_cell(youngest),
            no_new_privs: no_new_privs != 0,
            admin: admin != 0,
        })
    }

    /// The live threads, lowest number first.
    pub fn threads(&self) -> impl Iterator<Item = ThreadRow> + '_ {
        (0..MAX_THREADS as u64).filter_map(|number| self.thread(Thread::new(number)))
    }

    /// The domain of a thread: its layers, youngest first, at most 64.
    pub fn domain(&self, thread: Thread) -> impl Iterator<Item = LayerRow> + '_ {
        let youngest = self.thread(thread).and_then(|row| row.youngest);
        let first = youngest.and_then(|layer| self.layer(layer));
        core::iter::successors(first, |row| row.parent.and_then(|layer| self.layer(layer)))
            .take(MAX_DOMAIN)
    }
}
