//! Request W10: what a thread reaches, which the scopes of its layers keep within their domain.

use crate::refusal::{Answer, Refusal};
use crate::rights::Rights;
use crate::state::Model;
use std::collections::BTreeSet;

impl Model {
    pub fn signal(&self, thread: u64, target: u64) -> Answer {
        self.reach(thread, target, Rights::SIGNAL)
    }

    pub fn abstract_socket(&self, thread: u64, target: u64) -> Answer {
        self.reach(thread, target, Rights::ABSTRACT_UNIX_SOCKET)
    }

    /// Every layer of the caller's domain that handles the scope must be one of the target's.
    fn reach(&self, thread: u64, target: u64, scope: Rights) -> Answer {
        let caller = self.thread(thread)?.youngest;
        let target = self.thread(target).map_err(|_| Refusal::TargetNotLive)?;
        let there = BTreeSet::from_iter(self.domain(target.youngest));
        let mut handling = BTreeSet::from_iter(self.domain(caller));
        handling.retain(|number| self.layers[number].masks.scope.meets(scope));
        if !handling.is_subset(&there) {
            return Err(Refusal::OutOfScope);
        }
        Ok(0)
    }
}
