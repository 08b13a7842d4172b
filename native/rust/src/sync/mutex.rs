//! Mutual exclusion, as `std::sync::Mutex` has it.

use super::{departs, step, LockResult, PoisonError, TryLockError, TryLockResult};
use crate::ask::kind;
use crate::objects::{Id, Kind};
use crate::place::Place;
use std::fmt;
use std::ops::{Deref, DerefMut};
use std::panic::Location;
use std::sync;

/// A mutex over a value. Poisoning is std's.
pub struct Mutex<T: ?Sized> {
    pub(crate) id: Id,
    inner: sync::Mutex<T>,
}

/// The mutex is let go when this is dropped: one step, in the line of the lock.
#[must_use = "if unused the Mutex will immediately unlock"]
pub struct MutexGuard<'a, T: ?Sized> {
    of: &'a Mutex<T>,
    place: Place,
    inner: Option<sync::MutexGuard<'a, T>>,
}

impl<T> Mutex<T> {
    /// A mutex that nobody holds. No step.
    pub const fn new(value: T) -> Mutex<T> {
        Mutex { id: Id::new(Kind::Mutex), inner: sync::Mutex::new(value) }
    }

    /// The value. No step.
    pub fn into_inner(self) -> LockResult<T> {
        self.inner.into_inner()
    }
}

impl<T: ?Sized> Mutex<T> {
    /// Waits until nobody holds it, and takes it: one step.
    #[track_caller]
    pub fn lock(&self) -> LockResult<MutexGuard<'_, T>> {
        let place = Place::of(Location::caller());
        match step(&self.id, 0, place, kind::LOCK) {
            None => guarded(self, place, self.inner.lock()),
            Some(_) => self.taken(place),
        }
    }

    /// The guard after the book's step.
    pub(crate) fn taken(&self, place: Place) -> LockResult<MutexGuard<'_, T>> {
        match self.inner.try_lock() {
            Ok(guard) => guarded(self, place, Ok(guard)),
            Err(TryLockError::Poisoned(poisoned)) => guarded(self, place, Err(poisoned)),
            Err(TryLockError::WouldBlock) => departs("a mutex"),
        }
    }

    /// Takes it where nobody holds it: one step.
    #[track_caller]
    pub fn try_lock(&self) -> TryLockResult<MutexGuard<'_, T>> {
        let place = Place::of(Location::caller());
        match step(&self.id, 0, place, kind::TRY_LOCK) {
            None => match self.inner.try_lock() {
                Ok(guard) => Ok(guard_of(self, place, guard)),
                Err(TryLockError::WouldBlock) => Err(TryLockError::WouldBlock),
                Err(TryLockError::Poisoned(poisoned)) => Err(TryLockError::Poisoned(
                    PoisonError::new(guard_of(self, place, poisoned.into_inner())),
                )),
            },
            Some(0) => Err(TryLockError::WouldBlock),
            Some(_) => self.taken(place).map_err(TryLockError::Poisoned),
        }
    }

    /// Whether it is poisoned. No step.
    pub fn is_poisoned(&self) -> bool {
        self.inner.is_poisoned()
    }

    /// It isn't poisoned any more. No step.
    pub fn clear_poison(&self) {
        self.inner.clear_poison();
    }

    /// The value. No step.
    pub fn get_mut(&mut self) -> LockResult<&mut T> {
        self.id.forget();
        self.inner.get_mut()
    }
}

fn guard_of<'a, T: ?Sized>(
    of: &'a Mutex<T>,
    place: Place,
    inner: sync::MutexGuard<'a, T>,
) -> MutexGuard<'a, T> {
    MutexGuard { of, place, inner: Some(inner) }
}

fn guarded<'a, T: ?Sized>(
    of: &'a Mutex<T>,
    place: Place,
    locked: LockResult<sync::MutexGuard<'a, T>>,
) -> LockResult<MutexGuard<'a, T>> {
    match locked {
        Ok(guard) => Ok(guard_of(of, place, guard)),
        Err(poisoned) => Err(PoisonError::new(guard_of(of, place, poisoned.into_inner()))),
    }
}

impl<'a, T: ?Sized> MutexGuard<'a, T> {
    /// The mutex with std's guard, for a wait, which lets it go by a step of its own.
    pub(crate) fn into_parts(mut self) -> (&'a Mutex<T>, Place, sync::MutexGuard<'a, T>) {
        let guard = self.inner.take().expect("a guard has std's guard until it is dropped");
        (self.of, self.place, guard)
    }

    pub(crate) fn of_std(
        of: &'a Mutex<T>,
        place: Place,
        inner: sync::MutexGuard<'a, T>,
    ) -> MutexGuard<'a, T> {
        guard_of(of, place, inner)
    }
}

impl<T: ?Sized> Drop for MutexGuard<'_, T> {
    /// std's guard goes after the step, and before this thread gives the baton away again.
    fn drop(&mut self) {
        if self.inner.is_some() {
            step(&self.of.id, 0, self.place, kind::UNLOCK);
        }
    }
}

impl<T: ?Sized> Deref for MutexGuard<'_, T> {
    type Target = T;

    fn deref(&self) -> &T {
        self.inner.as_ref().expect("a guard has std's guard until it is dropped")
    }
}

impl<T: ?Sized> DerefMut for MutexGuard<'_, T> {
    fn deref_mut(&mut self) -> &mut T {
        self.inner.as_mut().expect("a guard has std's guard until it is dropped")
    }
}

impl<T: ?Sized + fmt::Debug> fmt::Debug for MutexGuard<'_, T> {
    fn fmt(&self, to: &mut fmt::Formatter<'_>) -> fmt::Result {
        (**self).fmt(to)
    }
}

impl<T: ?Sized + fmt::Display> fmt::Display for MutexGuard<'_, T> {
    fn fmt(&self, to: &mut fmt::Formatter<'_>) -> fmt::Result {
        (**self).fmt(to)
    }
}

impl<T: ?Sized + fmt::Debug> fmt::Debug for Mutex<T> {
    fn fmt(&self, to: &mut fmt::Formatter<'_>) -> fmt::Result {
        self.inner.fmt(to)
    }
}

impl<T: Default> Default for Mutex<T> {
    fn default() -> Mutex<T> {
        Mutex::new(T::default())
    }
}

impl<T> From<T> for Mutex<T> {
    fn from(value: T) -> Mutex<T> {
        Mutex::new(value)
    }
}
