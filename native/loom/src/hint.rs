//! Hints.

pub use pct::hint::*;
