//! What happened since a log was empty, as long as the log is unbroken.

use super::Tree;
use crate::state::Model;

/// A log's starting tables, and the tree after each of its fields.
#[derive(Clone, Debug)]
pub struct History {
    start: Model,
    /// The bytes that were written, and the tree then.
    moments: Vec<(usize, Tree)>,
}

impl History {
    /// An empty log at sound tables.
    pub fn new(start: &Model) -> History {
        History {
            start: start.clone(),
            moments: vec![(0, start.tree())],
        }
    }

    pub fn start(&self) -> &Model {
        &self.start
    }

    /// Notes that so many bytes are written.
    pub fn note(&mut self, used: usize, model: &Model) {
        if self.moments.last().is_some_and(|(last, _)| *last < used) {
            self.moments.push((used, model.tree()));
        }
    }

    /// What replay of the first bytes of the log onto its starting tables is to give: "the tree after exactly those
    /// changes whose fields are whole", and how many bytes are dropped.
    pub fn after(&self, bytes: usize) -> (Model, u64) {
        let whole = self.moments.iter().filter(|(used, _)| *used <= bytes);
        let (used, tree) = &self.moments[whole.count() - 1];
        let mut model = self.start.clone();
        model.set_tree(tree.clone());
        (model, (bytes - used) as u64)
    }
}
