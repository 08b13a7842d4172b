//! [Loom](https://github.com/tokio-rs/loom)'s calls over pct, as version 0.5.6: see the package pct-loom.

pub use pct_loom::*;
