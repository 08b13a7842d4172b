//! A cell whose accesses are told to `races`, or looked at in each run, as Loom has it.

use crate::place::Place;
use crate::seat;
use std::cell;
use std::panic::Location;
use std::sync::atomic::{AtomicU64, Ordering::Relaxed};

/// The number of a cell in a run: the run in the upper half, one more than the number in the lower.
pub(crate) struct CellId(AtomicU64);

impl CellId {
    /// The number in this run, which is the next one at the first use.
    pub fn number(&self, run: u32, cells: &mut u32) -> u32 {
        let word = self.0.load(Relaxed);
        if word >> 32 == u64::from(run) && word as u32 > 0 {
            return word as u32 - 1;
        }
        *cells += 1;
        self.0.store(u64::from(run) << 32 | u64::from(*cells), Relaxed);
        *cells - 1
    }
}

/// A cell for code that sees to its accesses itself. An access is no step. In the runs of
/// [`races`](crate::races) it is kept, and two accesses that nothing orders, at least one of them
/// by `with_mut`, are reported. With [`Config::races`](crate::Config::races) such a pair fails each
/// run, and so do two that overlap.
pub struct UnsafeCell<T: ?Sized> {
    id: CellId,
    inner: cell::UnsafeCell<T>,
}

impl<T> UnsafeCell<T> {
    /// A cell with a value.
    pub const fn new(value: T) -> UnsafeCell<T> {
        UnsafeCell { id: CellId(AtomicU64::new(0)), inner: cell::UnsafeCell::new(value) }
    }

    /// The value.
    pub fn into_inner(self) -> T {
        self.inner.into_inner()
    }
}

impl<T: ?Sized> UnsafeCell<T> {
    /// Reads the value by a pointer, which the closure must not keep.
    #[track_caller]
    pub fn with<R>(&self, read: impl FnOnce(*const T) -> R) -> R {
        let _access = self.access(false);
        read(self.inner.get())
    }

    /// Changes the value by a pointer, which the closure must not keep.
    #[track_caller]
    pub fn with_mut<R>(&self, write: impl FnOnce(*mut T) -> R) -> R {
        let _access = self.access(true);
        write(self.inner.get())
    }

    /// An access begins, and ends where this is dropped: for layers over this crate.
    #[doc(hidden)]
    #[track_caller]
    pub fn access(&self, is_write: bool) -> Access {
        let place = Place::of(Location::caller());
        let cell = seat::current(|live, me| {
            let cell = live.access(me, &self.id, place, is_write);
            live.begin_access(me, cell, place, is_write);
            cell
        });
        Access { cell, is_write }
    }

    /// Where the value is, which is no access: for layers over this crate.
    #[doc(hidden)]
    pub fn as_ptr(&self) -> *mut T {
        self.inner.get()
    }

    /// The value. It is no access.
    pub fn get_mut(&mut self) -> &mut T {
        self.inner.get_mut()
    }
}

/// An access of a cell that hasn't ended.
#[doc(hidden)]
#[derive(Debug)]
pub struct Access {
    cell: Option<u32>,
    is_write: bool,
}

impl Drop for Access {
    fn drop(&mut self) {
        if let Some(cell) = self.cell {
            seat::current(|live, me| live.end_access(me, cell, self.is_write));
        }
    }
}

impl<T: Default> Default for UnsafeCell<T> {
    fn default() -> UnsafeCell<T> {
        UnsafeCell::new(T::default())
    }
}

impl<T> From<T> for UnsafeCell<T> {
    fn from(value: T) -> UnsafeCell<T> {
        UnsafeCell::new(value)
    }
}

impl<T: ?Sized> std::fmt::Debug for UnsafeCell<T> {
    fn fmt(&self, to: &mut std::fmt::Formatter<'_>) -> std::fmt::Result {
        to.debug_struct("UnsafeCell").finish_non_exhaustive()
    }
}
