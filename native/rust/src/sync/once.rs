//! Something that is done once, as `std::sync::Once` has it.

use super::atomic::{AtomicBool, Ordering::SeqCst};
use super::{Condvar, Mutex, MutexGuard};
use crate::seat;
use std::marker::PhantomData;
use std::sync;

/// A flag with a mutex: what is to be done is done under the mutex. `read`; where that is 0,
/// `lock`, `read`, then what is to be done, `write`, `broadcast`, `unlock`.
pub(crate) struct Gate {
    is_done: AtomicBool,
    doing: Mutex<()>,
    done: Condvar,
}

/// Who does it.
pub(crate) struct Doing<'a> {
    gate: &'a Gate,
    _guard: MutexGuard<'a, ()>,
}

impl Gate {
    pub const fn new() -> Gate {
        Gate { is_done: AtomicBool::new(false), doing: Mutex::new(()), done: Condvar::new() }
    }

    /// It is done before any run: no step.
    pub fn set_done(&mut self) {
        *self.is_done.get_mut() = true;
    }

    #[track_caller]
    pub fn is_done(&self) -> bool {
        self.is_done.load(SeqCst)
    }

    /// Waits until nobody does it; none where it is done.
    #[track_caller]
    pub fn enter(&self) -> Option<Doing<'_>> {
        if self.is_done() {
            return None;
        }
        let guard = self.doing.lock().unwrap_or_else(|poisoned| poisoned.into_inner());
        (!self.is_done()).then_some(Doing { gate: self, _guard: guard })
    }

    /// Waits until it is done.
    #[track_caller]
    pub fn wait(&self) {
        let mut guard = self.doing.lock().unwrap_or_else(|poisoned| poisoned.into_inner());
        while !self.is_done() {
            guard = self.done.wait(guard).unwrap_or_else(|poisoned| poisoned.into_inner());
        }
    }
}

impl Doing<'_> {
    /// It is done.
    #[track_caller]
    pub fn finish(self) {
        self.gate.is_done.store(true, SeqCst);
        self.gate.done.notify_all();
    }
}

/// A thing that is done once for all threads.
pub struct Once {
    gate: Gate,
    is_poisoned: sync::Mutex<bool>,
    inner: sync::Once,
}

/// What `call_once_force` gives its closure.
pub struct OnceState {
    is_poisoned: bool,
    /// std's auto traits.
    _as_std: PhantomData<sync::OnceState>,
}

impl OnceState {
    fn new(is_poisoned: bool) -> OnceState {
        OnceState { is_poisoned, _as_std: PhantomData }
    }

    /// Whether an earlier one panicked.
    pub fn is_poisoned(&self) -> bool {
        self.is_poisoned
    }
}

impl std::fmt::Debug for OnceState {
    fn fmt(&self, to: &mut std::fmt::Formatter<'_>) -> std::fmt::Result {
        to.debug_struct("OnceState").field("poisoned", &self.is_poisoned).finish()
    }
}

/// Poisons where what is to be done panics.
struct Poisons<'a>(&'a sync::Mutex<bool>);

impl Drop for Poisons<'_> {
    fn drop(&mut self) {
        *self.0.lock().unwrap_or_else(|poisoned| poisoned.into_inner()) = std::thread::panicking();
    }
}

impl Once {
    /// Not done. No step.
    #[allow(clippy::new_without_default)] // std's has none
    pub const fn new() -> Once {
        Once { gate: Gate::new(), is_poisoned: sync::Mutex::new(false), inner: sync::Once::new() }
    }

    /// Does it, where it isn't done yet, and waits where another thread does it.
    #[track_caller]
    pub fn call_once<F: FnOnce()>(&self, act: F) {
        if seat::current(|_, _| ()).is_none() {
            return self.inner.call_once(act);
        }
        self.call(|state| {
            assert!(!state.is_poisoned(), "Once instance has previously been poisoned");
            act();
        });
    }

    /// As `call_once`, also where an earlier one panicked.
    #[track_caller]
    pub fn call_once_force<F: FnOnce(&OnceState)>(&self, act: F) {
        if seat::current(|_, _| ()).is_none() {
            return self.inner.call_once_force(|state| act(&OnceState::new(state.is_poisoned())));
        }
        self.call(act);
    }

    #[track_caller]
    fn call(&self, act: impl FnOnce(&OnceState)) {
        let Some(doing) = self.gate.enter() else { return };
        let state = OnceState::new(self.has_poison());
        let poisons = Poisons(&self.is_poisoned);
        act(&state);
        drop(poisons);
        doing.finish();
    }

    fn has_poison(&self) -> bool {
        *self.is_poisoned.lock().unwrap_or_else(|poisoned| poisoned.into_inner())
    }

    /// Whether it is done: one step.
    #[track_caller]
    pub fn is_completed(&self) -> bool {
        match seat::current(|_, _| ()) {
            None => self.inner.is_completed(),
            Some(()) => self.gate.is_done(),
        }
    }

    /// Waits until it is done.
    #[track_caller]
    pub fn wait(&self) {
        if seat::current(|_, _| ()).is_none() {
            return self.inner.wait();
        }
        assert!(!self.has_poison(), "Once instance has previously been poisoned");
        self.gate.wait();
    }

    /// As `wait`, also where an earlier one panicked.
    #[track_caller]
    pub fn wait_force(&self) {
        match seat::current(|_, _| ()) {
            None => self.inner.wait_force(),
            Some(()) => self.gate.wait(),
        }
    }
}

impl std::fmt::Debug for Once {
    fn fmt(&self, to: &mut std::fmt::Formatter<'_>) -> std::fmt::Result {
        to.debug_struct("Once").finish_non_exhaustive()
    }
}
