//! Threads, as `std::thread` has them.

mod builder;
mod handle;
mod park;
mod scope;

pub use builder::Builder;
pub use handle::JoinHandle;
pub(crate) use park::spin;
pub use park::{current, park, park_timeout, Thread, ThreadId};
pub use scope::{scope, Scope, ScopedJoinHandle};
pub use std::thread::{available_parallelism, panicking, AccessError, LocalKey, Result};

use crate::place::Place;
use crate::seat;
use std::panic::Location;
use std::time::Duration;

/// Spawns a thread: one step.
#[track_caller]
pub fn spawn<F, T>(act: F) -> JoinHandle<T>
where
    F: FnOnce() -> T + Send + 'static,
    T: Send + 'static,
{
    Builder::new().spawn(act).expect("failed to spawn thread")
}

/// Waits until another thread has changed something, where nothing has changed since this thread
/// waited so last.
#[track_caller]
pub fn yield_now() {
    if !look() {
        std::thread::yield_now();
    }
}

/// Waits as [`yield_now`] does; in a run no time passes.
#[track_caller]
pub fn sleep(time: Duration) {
    if !look() {
        std::thread::sleep(time);
    }
}

/// As [`sleep`], with the time in milliseconds.
#[deprecated(since = "0.1.0", note = "replaced by `sleep`, as in std")]
#[track_caller]
pub fn sleep_ms(ms: u32) {
    sleep(Duration::from_millis(u64::from(ms)));
}

/// As `park_timeout`, with the time in milliseconds.
#[deprecated(since = "0.1.0", note = "replaced by `park_timeout`, as in std")]
#[track_caller]
pub fn park_timeout_ms(ms: u32) {
    park_timeout(Duration::from_millis(u64::from(ms)));
}

/// Whether it is in a run, where it waits for a change.
#[track_caller]
pub(crate) fn look() -> bool {
    look_at(Place::of(Location::caller()))
}

/// As [`look`], of that place.
pub(crate) fn look_at(place: Place) -> bool {
    seat::current(|live, me| live.look(me, place)).is_some()
}
