//! Rules, as they stand in the cells.
use crate::rights::{AccessFs, AccessNet};
use core::fmt;
use core::slice::ChunksExact;
use skeinrabbit_sys::layout::RULE_WIDTH;

/// What a ruleset or layer grants at one object or port.
#[derive(Clone, Copy, Debug, PartialEq, Eq)]
pub enum Rule {
    /// Rights at an object, and at everything below it.
    Path {
        /// The object's number.
        object: u64,
        /// What is granted.
        rights: AccessFs,
    },
    /// Rights at a port.
    Port {
        /// The port.
        port: u64,
        /// What is granted.
        rights: AccessNet,
    },
}

impl Rule {
    fn from_cells(cells: &[u64]) -> Option<Rule> {
        match *cells {
            [1, object, rights] => Some(Rule::Path {
                object,
                rights: AccessFs::from_bits(rights),
            }),
            [2, port, rights] => Some(Rule::Port {
                port,
                rights: AccessNet::from_bits(rights),
            }),
            _ => None,
        }
    }
}

/// The rules of a layer or ruleset, in the order first added: a part of a table, not a copy.
#[derive(Clone, Copy, PartialEq, Eq)]
pub struct Rules<'t> {
    cells: &'t [u64],
}

impl<'t> Rules<'t> {
    pub(crate) fn new(cells: &'t [u64]) -> Self {
        Self { cells }
    }

    /// The cells, three to a rule: type, object number or port, rights.
    pub fn cells(self) -> &'t [u64] {
        self.cells
    }

    /// The number of rules.
    pub fn len(self) -> usize {
        self.cells.len() / RULE_WIDTH
    }

    /// Whether there is no rule.
    pub fn is_empty(self) -> bool {
        self.cells.is_empty()
    }

    /// The rules one by one. Cells that are no rule are passed over; sound tables have none.
    pub fn iter(self) -> RulesIter<'t> {
        RulesIter(self.cells.chunks_exact(RULE_WIDTH))
    }
}

impl<'t> IntoIterator for Rules<'t> {
    type Item = Rule;
    type IntoIter = RulesIter<'t>;

    fn into_iter(self) -> RulesIter<'t> {
        self.iter()
    }
}

impl fmt::Debug for Rules<'_> {
    fn fmt(&self, f: &mut fmt::Formatter<'_>) -> fmt::Result {
        f.debug_list().entries(self.iter()).finish()
    }
}

/// Goes through [`Rules`].
#[derive(Clone, Debug)]
pub struct RulesIter<'t>(ChunksExact<'t, u64>);

impl Iterator for RulesIter<'_> {
    type Item = Rule;

    fn next(&mut self) -> Option<Rule> {
        self.0.by_ref().find_map(Rule::from_cells)
    }
}
