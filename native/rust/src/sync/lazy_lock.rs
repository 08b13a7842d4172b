//! A value that is made at its first use, as `std::sync::LazyLock` has it.

use super::OnceLock;
use std::fmt;
use std::ops::{Deref, DerefMut};
use std::sync::Mutex;

/// A value that is made at its first use, with the steps of `OnceLock::get_or_init`.
pub struct LazyLock<T, F = fn() -> T> {
    cell: OnceLock<T>,
    make: Mutex<Option<F>>,
}

impl<T, F: FnOnce() -> T> LazyLock<T, F> {
    /// Not made yet. No step.
    pub const fn new(make: F) -> LazyLock<T, F> {
        LazyLock { cell: OnceLock::new(), make: Mutex::new(Some(make)) }
    }

    /// The value, made where it isn't yet.
    #[track_caller]
    pub fn force(this: &LazyLock<T, F>) -> &T {
        this.cell.get_or_init(|| this.made())
    }

    fn made(&self) -> T {
        let make = self.make.lock().unwrap_or_else(|poisoned| poisoned.into_inner()).take();
        make.expect("LazyLock instance has previously been poisoned")()
    }

    /// The value, made where it isn't yet. No step.
    pub fn force_mut(this: &mut LazyLock<T, F>) -> &mut T {
        if this.cell.get_mut().is_none() {
            this.cell = OnceLock::from(this.made());
        }
        this.cell.get_mut().expect("it is made above")
    }
}

impl<T, F> LazyLock<T, F> {
    /// The value, where it is made: one step.
    #[track_caller]
    pub fn get(this: &LazyLock<T, F>) -> Option<&T> {
        this.cell.get()
    }

    /// The value, where it is made. No step.
    pub fn get_mut(this: &mut LazyLock<T, F>) -> Option<&mut T> {
        this.cell.get_mut()
    }
}

impl<T, F: FnOnce() -> T> Deref for LazyLock<T, F> {
    type Target = T;

    #[track_caller]
    fn deref(&self) -> &T {
        LazyLock::force(self)
    }
}

impl<T, F: FnOnce() -> T> DerefMut for LazyLock<T, F> {
    fn deref_mut(&mut self) -> &mut T {
        LazyLock::force_mut(self)
    }
}

impl<T: Default> Default for LazyLock<T> {
    fn default() -> LazyLock<T> {
        LazyLock::new(T::default)
    }
}

impl<T: fmt::Debug, F> fmt::Debug for LazyLock<T, F> {
    fn fmt(&self, to: &mut fmt::Formatter<'_>) -> fmt::Result {
        self.cell.fmt(to)
    }
}
