//! A read-write lock, as `std::sync::RwLock` has it. Readers are let in though a writer waits.

use super::{departs, step, LockResult, PoisonError, TryLockError, TryLockResult};
use crate::ask::kind;
use crate::objects::{Id, Kind};
use crate::place::Place;
use std::fmt;
use std::ops::{Deref, DerefMut};
use std::panic::Location;
use std::sync;

/// A read-write lock over a value. Poisoning is std's.
pub struct RwLock<T: ?Sized> {
    pub(crate) id: Id,
    inner: sync::RwLock<T>,
}

/// One step when this is dropped, in the line of `read`.
#[must_use = "if unused the RwLock will immediately unlock"]
pub struct RwLockReadGuard<'a, T: ?Sized> {
    id: &'a Id,
    place: Place,
    inner: sync::RwLockReadGuard<'a, T>,
}

/// One step when this is dropped, in the line of `write`.
#[must_use = "if unused the RwLock will immediately unlock"]
pub struct RwLockWriteGuard<'a, T: ?Sized> {
    id: &'a Id,
    place: Place,
    inner: sync::RwLockWriteGuard<'a, T>,
}

impl<T> RwLock<T> {
    /// A lock that nobody holds. No step.
    pub const fn new(value: T) -> RwLock<T> {
        RwLock { id: Id::new(Kind::RwLock), inner: sync::RwLock::new(value) }
    }

    /// The value. No step.
    pub fn into_inner(self) -> LockResult<T> {
        self.inner.into_inner()
    }
}

fn mapped<A, B>(locked: LockResult<A>, map: impl FnOnce(A) -> B) -> LockResult<B> {
    match locked {
        Ok(guard) => Ok(map(guard)),
        Err(poisoned) => Err(PoisonError::new(map(poisoned.into_inner()))),
    }
}

fn try_mapped<A, B>(locked: TryLockResult<A>, map: impl FnOnce(A) -> B) -> TryLockResult<B> {
    match locked {
        Err(TryLockError::WouldBlock) => Err(TryLockError::WouldBlock),
        Err(TryLockError::Poisoned(poisoned)) => {
            mapped(Err(poisoned), map).map_err(TryLockError::Poisoned)
        }
        Ok(guard) => Ok(map(guard)),
    }
}

/// What was taken after the book's step.
fn sure<A>(locked: TryLockResult<A>) -> LockResult<A> {
    match locked {
        Ok(guard) => Ok(guard),
        Err(TryLockError::Poisoned(poisoned)) => Err(poisoned),
        Err(TryLockError::WouldBlock) => departs("a read-write lock"),
    }
}

impl<T: ?Sized> RwLock<T> {
    fn reading<'a>(
        &'a self,
        place: Place,
    ) -> impl FnOnce(sync::RwLockReadGuard<'a, T>) -> RwLockReadGuard<'a, T> {
        move |inner| RwLockReadGuard { id: &self.id, place, inner }
    }

    fn writing<'a>(
        &'a self,
        place: Place,
    ) -> impl FnOnce(sync::RwLockWriteGuard<'a, T>) -> RwLockWriteGuard<'a, T> {
        move |inner| RwLockWriteGuard { id: &self.id, place, inner }
    }

    /// Waits until nobody writes: one step.
    #[track_caller]
    pub fn read(&self) -> LockResult<RwLockReadGuard<'_, T>> {
        let place = Place::of(Location::caller());
        let locked = match step(&self.id, 0, place, kind::RD_LOCK) {
            None => self.inner.read(),
            Some(_) => sure(self.inner.try_read()),
        };
        mapped(locked, self.reading(place))
    }

    /// Waits until nobody holds it: one step.
    #[track_caller]
    pub fn write(&self) -> LockResult<RwLockWriteGuard<'_, T>> {
        let place = Place::of(Location::caller());
        let locked = match step(&self.id, 0, place, kind::WR_LOCK) {
            None => self.inner.write(),
            Some(_) => sure(self.inner.try_write()),
        };
        mapped(locked, self.writing(place))
    }

    /// Takes it where nobody writes: one step.
    #[track_caller]
    pub fn try_read(&self) -> TryLockResult<RwLockReadGuard<'_, T>> {
        let place = Place::of(Location::caller());
        let locked = match step(&self.id, 0, place, kind::TRY_RD_LOCK) {
            Some(0) => Err(TryLockError::WouldBlock),
            Some(_) => sure(self.inner.try_read()).map_err(TryLockError::Poisoned),
            None => self.inner.try_read(),
        };
        try_mapped(locked, self.reading(place))
    }

    /// Takes it where nobody holds it: one step.
    #[track_caller]
    pub fn try_write(&self) -> TryLockResult<RwLockWriteGuard<'_, T>> {
        let place = Place::of(Location::caller());
        let locked = match step(&self.id, 0, place, kind::TRY_WR_LOCK) {
            Some(0) => Err(TryLockError::WouldBlock),
            Some(_) => sure(self.inner.try_write()).map_err(TryLockError::Poisoned),
            None => self.inner.try_write(),
        };
        try_mapped(locked, self.writing(place))
    }

    /// Whether it is poisoned. No step.
    pub fn is_poisoned(&self) -> bool {
        self.inner.is_poisoned()
    }

    /// It isn't poisoned any more. No step.
    pub fn clear_poison(&self) {
        self.inner.clear_poison();
    }

    /// The value. No step.
    pub fn get_mut(&mut self) -> LockResult<&mut T> {
        self.id.forget();
        self.inner.get_mut()
    }
}

impl<T: ?Sized> Drop for RwLockReadGuard<'_, T> {
    /// std's guard goes after the step, and before this thread gives the baton away again.
    fn drop(&mut self) {
        step(self.id, 0, self.place, kind::RW_UNLOCK);
    }
}

impl<T: ?Sized> Drop for RwLockWriteGuard<'_, T> {
    /// std's guard goes after the step, and before this thread gives the baton away again.
    fn drop(&mut self) {
        step(self.id, 0, self.place, kind::RW_UNLOCK);
    }
}

impl<T: ?Sized> Deref for RwLockReadGuard<'_, T> {
    type Target = T;

    fn deref(&self) -> &T {
        &self.inner
    }
}

impl<T: ?Sized> Deref for RwLockWriteGuard<'_, T> {
    type Target = T;

    fn deref(&self) -> &T {
        &self.inner
    }
}

impl<T: ?Sized> DerefMut for RwLockWriteGuard<'_, T> {
    fn deref_mut(&mut self) -> &mut T {
        &mut self.inner
    }
}

macro_rules! shown {
    ($($name:ident),*) => { $(
        impl<T: ?Sized + fmt::Debug> fmt::Debug for $name<'_, T> {
            fn fmt(&self, to: &mut fmt::Formatter<'_>) -> fmt::Result {
                (**self).fmt(to)
            }
        }

        impl<T: ?Sized + fmt::Display> fmt::Display for $name<'_, T> {
            fn fmt(&self, to: &mut fmt::Formatter<'_>) -> fmt::Result {
                (**self).fmt(to)
            }
        }
    )* };
}

shown!(RwLockReadGuard, RwLockWriteGuard);

impl<T: ?Sized + fmt::Debug> fmt::Debug for RwLock<T> {
    fn fmt(&self, to: &mut fmt::Formatter<'_>) -> fmt::Result {
        self.inner.fmt(to)
    }
}

impl<T: Default> Default for RwLock<T> {
    fn default() -> RwLock<T> {
        RwLock::new(T::default())
    }
}

impl<T> From<T> for RwLock<T> {
    fn from(value: T) -> RwLock<T> {
        RwLock::new(value)
    }
}
