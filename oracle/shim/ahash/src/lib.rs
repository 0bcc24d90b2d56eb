//! Stands in for ahash.
//!
//! No answer depends on the hasher; the benchmark takes the real one.

pub use std::hash::RandomState;
