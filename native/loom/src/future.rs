//! Futures, polled by the thread that waits for them.

use pct::sync::Mutex;
use std::task::Waker;

pub use pct::future::block_on;

/// The waker of one task, which others wake.
#[derive(Debug, Default)]
pub struct AtomicWaker(Mutex<Option<Waker>>);

impl AtomicWaker {
    /// Without a waker.
    pub const fn new() -> AtomicWaker {
        AtomicWaker(Mutex::new(None))
    }

    /// This waker is woken next.
    #[track_caller]
    pub fn register(&self, waker: Waker) {
        let old = self.replace(Some(waker));
        drop(old);
    }

    /// As [`AtomicWaker::register`].
    #[track_caller]
    pub fn register_by_ref(&self, waker: &Waker) {
        self.register(waker.clone());
    }

    /// The waker, which nobody wakes from now on.
    #[track_caller]
    pub fn take_waker(&self) -> Option<Waker> {
        self.replace(None)
    }

    /// Wakes the waker that was registered last and wasn't woken.
    #[track_caller]
    pub fn wake(&self) {
        if let Some(waker) = self.take_waker() {
            waker.wake();
        }
    }

    #[track_caller]
    fn replace(&self, waker: Option<Waker>) -> Option<Waker> {
        let mut held = self.0.lock().unwrap_or_else(|poisoned| poisoned.into_inner());
        std::mem::replace(&mut *held, waker)
    }
}
