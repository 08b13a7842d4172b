//! What threads share, as `std::sync` has it, and semaphores.

pub mod atomic;
mod barrier;
mod condvar;
mod lazy_lock;
pub mod mpsc;
mod mutex;
mod once;
mod once_lock;
mod rwlock;
mod semaphore;

pub use barrier::{Barrier, BarrierWaitResult};
pub use condvar::{Condvar, WaitTimeoutResult};
pub use lazy_lock::LazyLock;
pub use mutex::{Mutex, MutexGuard};
pub use once::{Once, OnceState};
pub use once_lock::OnceLock;
pub use rwlock::{RwLock, RwLockReadGuard, RwLockWriteGuard};
pub use semaphore::Semaphore;
pub use std::sync::{Arc, LockResult, PoisonError, TryLockError, TryLockResult, Weak};

use crate::ask::Late;
use crate::objects::Id;
use crate::place::Place;
use crate::raw::Ask;
use crate::seat;

/// Makes a step on an object in a run, and gives its answer; none outside of a run.
pub(crate) fn step(id: &Id, first: i64, place: Place, ask: u32) -> Option<i64> {
    seat::current(|live, me| {
        let number = live.sure_number(id, first, place);
        live.ask(me, place, Late::Ask(Ask::of(ask, number))).value
    })
}

/// The book gave a lock that std's own says is held: a fault of this crate.
pub(crate) fn departs(what: &str) -> ! {
    let fault = format!("the book gave {what} that is held");
    seat::current(|live, _| live.fail(fault.clone()));
    unreachable!("{fault}, and outside of a run")
}
