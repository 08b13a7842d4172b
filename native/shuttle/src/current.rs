//! The run and the thread that the caller is in.

pub use pct::thread::ThreadId;

/// How many steps the run has taken.
///
/// # Panics
///
/// Outside of a run.
pub fn context_switches() -> usize {
    pct::layer::steps().expect("it is called outside of a run") as usize
}

/// The calling thread.
pub fn me() -> ThreadId {
    pct::thread::current().id()
}
