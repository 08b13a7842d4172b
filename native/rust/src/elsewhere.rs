//! What other systems than Linux don't tell: on which processors a thread may run, and where programs
//! are in memory.

use crate::ffi::Processors;

pub(crate) fn allowed() -> Option<Processors> {
    None
}

pub(crate) fn allow(_: &Processors) -> bool {
    false
}

pub(crate) fn images() -> Vec<(usize, usize)> {
    Vec::new()
}
