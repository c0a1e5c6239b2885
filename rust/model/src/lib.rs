//! An independent program that answers as document 01 and the requests of document 02 say, written
//! from the papers alone, and the means to compare it with another broker over the same tables.
//!
//! The model is [`state`] with the calls in [`rulesets`], [`threads`], [`judge`], [`scopes`], [`tree`]
//! and [`names`], and what a refused verdict names in [`denial`]; [`tables`] and [`sound`] convert
//! between it and cells. Many verdicts at once are asked for in a [`batch`]. Beside the tables stands the [`queue`].
//! Rulesets may come from [`policy`] files, and be written into one. Changes of the tree go into a [`log`].
//! The comparison is [`compare`], fed by [`start`], [`generate`], [`paths`],
//! [`damage`], [`odd`] and [`attributes`], and by [`long_run`] with very many calls on the same tables; a
//! difference is made short by [`shrink`] and printed by [`scenario`].

pub mod attributes;
pub mod batch;
pub mod call;
pub mod compare;
pub mod damage;
pub mod denial;
pub mod generate;
pub mod judge;
pub mod log;
pub mod long_run;
pub mod names;
pub mod odd;
pub mod paths;
pub mod policy;
#[cfg(feature = "core")]
pub mod proved;
pub mod queue;
pub mod reference;
pub mod refusal;
pub mod rights;
pub mod rulesets;
pub mod scenario;
pub mod scopes;
pub mod shrink;
pub mod sound;
pub mod start;
pub mod state;
pub mod tables;
pub mod tally;
pub mod threads;
pub mod tree;
