//! A value that is set once, as `std::sync::OnceLock` has it.

use super::once::Gate;
use crate::seat;
use std::sync;

/// A cell that is written once, with the steps of `Once`.
pub struct OnceLock<T> {
    gate: Gate,
    inner: sync::OnceLock<T>,
}

impl<T> OnceLock<T> {
    /// An empty cell. No step.
    pub const fn new() -> OnceLock<T> {
        OnceLock { gate: Gate::new(), inner: sync::OnceLock::new() }
    }

    /// The value, where it is set: one step.
    #[track_caller]
    pub fn get(&self) -> Option<&T> {
        seat::current(|_, _| ()).map(|()| self.gate.is_done());
        self.inner.get()
    }

    /// The value. No step.
    pub fn get_mut(&mut self) -> Option<&mut T> {
        self.inner.get_mut()
    }

    /// Waits until the value is set.
    #[track_caller]
    pub fn wait(&self) -> &T {
        if seat::current(|_, _| ()).is_some() && !self.gate.is_done() && self.inner.get().is_none()
        {
            self.gate.wait();
        }
        self.inner.wait()
    }

    /// Sets the value, where there is none.
    #[track_caller]
    pub fn set(&self, value: T) -> Result<(), T> {
        if seat::current(|_, _| ()).is_none() {
            return self.inner.set(value);
        }
        let Some(doing) = self.gate.enter() else { return Err(value) };
        self.inner.set(value)?;
        doing.finish();
        Ok(())
    }

    /// The value, made where there is none.
    #[track_caller]
    pub fn get_or_init<F: FnOnce() -> T>(&self, make: F) -> &T {
        if seat::current(|_, _| ()).is_none() {
            return self.inner.get_or_init(make);
        }
        if let Some(doing) = self.gate.enter() {
            // Nobody else is here: whoever makes it holds the gate.
            self.inner.get_or_init(make);
            doing.finish();
        }
        self.inner.get().expect("it is set before the gate says so")
    }

    /// The value. No step.
    pub fn into_inner(self) -> Option<T> {
        self.inner.into_inner()
    }

    /// The value, and the cell is empty. No step.
    pub fn take(&mut self) -> Option<T> {
        std::mem::take(self).into_inner()
    }
}

impl<T> Default for OnceLock<T> {
    fn default() -> OnceLock<T> {
        OnceLock::new()
    }
}

impl<T: Clone> Clone for OnceLock<T> {
    fn clone(&self) -> OnceLock<T> {
        self.get().cloned().map_or_else(OnceLock::new, OnceLock::from)
    }
}

impl<T> From<T> for OnceLock<T> {
    fn from(value: T) -> OnceLock<T> {
        let mut gate = Gate::new();
        gate.set_done();
        OnceLock { gate, inner: sync::OnceLock::from(value) }
    }
}

impl<T: PartialEq> PartialEq for OnceLock<T> {
    fn eq(&self, other: &OnceLock<T>) -> bool {
        self.get() == other.get()
    }
}

impl<T: Eq> Eq for OnceLock<T> {}

impl<T: std::fmt::Debug> std::fmt::Debug for OnceLock<T> {
    fn fmt(&self, to: &mut std::fmt::Formatter<'_>) -> std::fmt::Result {
        self.inner.fmt(to)
    }
}
