//! The calls on threads and their domains: restrict, layer rules, clone, end, marks.

use crate::refusal::{Answer, Refusal};
use crate::rulesets::no_flags;
use crate::state::{
    lowest_free, Layer, Model, Thread, MAX_DOMAIN, MAX_LAYERS, MAX_THREADS, POOL_PLACES,
};

impl Model {
    pub fn restrict(&mut self, thread: u64, ruleset: u64, flags: u64) -> Answer {
        let caller = *self.thread(thread)?;
        self.needs_landlock()?;
        if !caller.no_new_privs && !caller.admin {
            return Err(Refusal::NoMark);
        }
        no_flags(flags)?;
        let ruleset = self.open_ruleset(ruleset)?.clone();
        if self.domain(caller.youngest).len() == MAX_DOMAIN {
            return Err(Refusal::DomainFull);
        }
        if self.layers.len() == MAX_LAYERS {
            return Err(Refusal::NoFreeLayer);
        }
        let in_order = self.layers.keys().zip(0..);
        let record = in_order.take_while(|(used, n)| *used == n).count();
        if ruleset.rules.len() > POOL_PLACES - self.pool_used() {
            return Err(Refusal::PoolFull);
        }
        let layer = Layer {
            parent: caller.youngest,
            masks: ruleset.masks,
            rules: ruleset.rules,
        };
        self.add_layer(record, layer);
        self.change_thread(thread, |thread| thread.youngest = Some(record))
    }

    /// Where a layer's rules stand in the pool: the first place and the number of rules.
    pub fn layer_rules(&self, layer: u64) -> Result<(usize, usize), Refusal> {
        let number = usize::try_from(layer).map_err(|_| Refusal::LayerNotInUse)?;
        let layer = self.layers.get(&number).ok_or(Refusal::LayerNotInUse)?;
        Ok((self.places()[number], layer.rules.len()))
    }

    /// Clones a thread; the copy has its domain and marks.
    pub fn clone_thread(&mut self, thread: u64) -> Answer {
        let copy = *self.thread(thread)?;
        let number = lowest_free(&self.threads, MAX_THREADS).ok_or(Refusal::NoFreeThread)?;
        self.threads.insert(number, copy);
        Ok(number)
    }

    /// Ends a thread; layers that no other thread reaches are given back.
    pub fn end_thread(&mut self, thread: u64) -> Answer {
        self.thread(thread)?;
        if self.threads.len() == 1 {
            return Err(Refusal::OnlyThread);
        }
        self.threads.remove(&thread);
        self.give_back();
        Ok(0)
    }

    pub fn set_no_new_privs(&mut self, thread: u64) -> Answer {
        self.change_thread(thread, |thread| thread.no_new_privs = true)
    }

    pub fn set_admin(&mut self, thread: u64, on: bool) -> Answer {
        self.change_thread(thread, |thread| thread.admin = on)
    }

    fn change_thread(&mut self, number: u64, change: impl FnOnce(&mut Thread)) -> Answer {
        let thread = self.threads.get_mut(&number);
        change(thread.ok_or(Refusal::ThreadNotLive)?);
        Ok(0)
    }
}
