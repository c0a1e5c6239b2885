//! The same work in ordinary Rust.

pub mod batch;
pub mod broker;
pub mod files;
pub mod own;
pub mod soundness;
pub mod verdict;
pub mod written;
