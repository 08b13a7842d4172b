//! The atomic pointer. The book has no variables for pointers, so each operation is a step that
//! touches nothing.

use super::{operate, plain, Cell, Operation};
use crate::clocks::Use;
use crate::objects::{Id, Kind};
use std::ptr;
use std::sync::atomic::Ordering::{self, Relaxed};

/// An atomic pointer. Each operation is one step, `yield`.
pub struct AtomicPtr<T> {
    id: Id,
    inner: std::sync::atomic::AtomicPtr<T>,
}

fn number<T>(pointer: *mut T) -> i64 {
    pointer.expose_provenance() as i64
}

fn pointer<T>(number: i64) -> *mut T {
    ptr::with_exposed_provenance_mut(number as usize)
}

impl<T> Cell for AtomicPtr<T> {
    const IS_NUMBERED: bool = false;

    fn id(&self) -> &Id {
        &self.id
    }

    fn get(&self) -> i64 {
        number(self.inner.load(Relaxed))
    }

    fn set(&self, value: i64) {
        self.inner.store(pointer(value), Relaxed);
    }
}

impl<T> AtomicPtr<T> {
    /// With a first value. No step.
    pub const fn new(value: *mut T) -> AtomicPtr<T> {
        AtomicPtr { id: Id::new(Kind::Variable), inner: std::sync::atomic::AtomicPtr::new(value) }
    }

    /// The value. No step.
    pub fn get_mut(&mut self) -> &mut *mut T {
        self.id.forget();
        self.inner.get_mut()
    }

    /// The value. No step.
    pub fn into_inner(self) -> *mut T {
        self.inner.load(Relaxed)
    }

    /// The value as that of plain memory: no step. For layers over this crate.
    #[doc(hidden)]
    #[track_caller]
    pub fn plain(&self) -> *mut T {
        pointer(plain(self, Use::PlainLoad))
    }

    /// The value is about to be changed as that of plain memory: no step. For layers over this
    /// crate.
    #[doc(hidden)]
    #[track_caller]
    pub fn plain_change(&self) {
        plain(self, Use::PlainChange);
    }

    /// The value.
    #[track_caller]
    pub fn load(&self, order: Ordering) -> *mut T {
        operate(self, Operation::Load, order).map_or_else(|| self.inner.load(order), pointer)
    }

    /// Sets the value.
    #[track_caller]
    pub fn store(&self, value: *mut T, order: Ordering) {
        if operate(self, Operation::Store(number(value)), order).is_none() {
            self.inner.store(value, order);
        }
    }

    /// Sets the value, and gives the old one.
    #[track_caller]
    pub fn swap(&self, value: *mut T, order: Ordering) -> *mut T {
        let swap = Operation::Change { change: |_, by| by, by: number(value), sum: None };
        operate(self, swap, order).map_or_else(|| self.inner.swap(value, order), pointer)
    }

    /// Sets the value where it is `current`, and gives the old one.
    #[deprecated(
        since = "0.1.0",
        note = "use compare_exchange or compare_exchange_weak instead, as in std"
    )]
    #[track_caller]
    pub fn compare_and_swap(&self, current: *mut T, new: *mut T, _order: Ordering) -> *mut T {
        self.compare_exchange(current, new, Ordering::SeqCst, Ordering::SeqCst)
            .unwrap_or_else(|found| found)
    }

    /// Sets the value where it is `current`.
    #[track_caller]
    pub fn compare_exchange(
        &self,
        current: *mut T,
        new: *mut T,
        success: Ordering,
        failure: Ordering,
    ) -> Result<*mut T, *mut T> {
        let exchange = Operation::Exchange { old: number(current), new: number(new) };
        match operate(self, exchange, (success, failure)) {
            Some(old) if old == number(current) => Ok(current),
            Some(old) => Err(pointer(old)),
            None => self.inner.compare_exchange(current, new, success, failure),
        }
    }

    /// As `compare_exchange`: in a run it fails only where the value is another one.
    #[track_caller]
    pub fn compare_exchange_weak(
        &self,
        current: *mut T,
        new: *mut T,
        success: Ordering,
        failure: Ordering,
    ) -> Result<*mut T, *mut T> {
        let exchange = Operation::Exchange { old: number(current), new: number(new) };
        match operate(self, exchange, (success, failure)) {
            Some(old) if old == number(current) => Ok(current),
            Some(old) => Err(pointer(old)),
            None => self.inner.compare_exchange_weak(current, new, success, failure),
        }
    }

    /// Loads, and exchanges until it succeeds or the function gives none: a step for each.
    #[track_caller]
    pub fn fetch_update<F>(
        &self,
        set: Ordering,
        fetch: Ordering,
        mut update: F,
    ) -> Result<*mut T, *mut T>
    where
        F: FnMut(*mut T) -> Option<*mut T>,
    {
        let mut old = self.load(fetch);
        while let Some(new) = update(old) {
            match self.compare_exchange_weak(old, new, set, fetch) {
                Ok(old) => return Ok(old),
                Err(found) => old = found,
            }
        }
        Err(old)
    }

    /// As `fetch_update`.
    #[track_caller]
    pub fn try_update(
        &self,
        set: Ordering,
        fetch: Ordering,
        update: impl FnMut(*mut T) -> Option<*mut T>,
    ) -> Result<*mut T, *mut T> {
        self.fetch_update(set, fetch, update)
    }

    /// As `fetch_update`, with a function that always gives a value.
    #[track_caller]
    pub fn update(
        &self,
        set: Ordering,
        fetch: Ordering,
        mut update: impl FnMut(*mut T) -> *mut T,
    ) -> *mut T {
        self.fetch_update(set, fetch, |old| Some(update(old))).unwrap_or_else(|old| old)
    }

    /// One step that changes the value by its address.
    #[track_caller]
    fn change(&self, change: fn(i64, i64) -> i64, by: usize, order: Ordering) -> *mut T {
        let by = by as i64;
        let apart = |old: *mut T| Some(old.map_addr(|address| change(address as i64, by) as usize));
        operate(self, Operation::Change { change, by, sum: None }, order).map_or_else(
            || {
                self.inner
                    .fetch_update(Ordering::SeqCst, Ordering::SeqCst, apart)
                    .unwrap_or_else(|old| old)
            },
            pointer,
        )
    }

    /// Moves the pointer on by this many values, and gives the old one.
    #[track_caller]
    pub fn fetch_ptr_add(&self, count: usize, order: Ordering) -> *mut T {
        self.change(i64::wrapping_add, count.wrapping_mul(size_of::<T>()), order)
    }

    /// Moves the pointer back by this many values, and gives the old one.
    #[track_caller]
    pub fn fetch_ptr_sub(&self, count: usize, order: Ordering) -> *mut T {
        self.change(i64::wrapping_sub, count.wrapping_mul(size_of::<T>()), order)
    }

    /// Moves the pointer on by this many bytes, and gives the old one.
    #[track_caller]
    pub fn fetch_byte_add(&self, count: usize, order: Ordering) -> *mut T {
        self.change(i64::wrapping_add, count, order)
    }

    /// Moves the pointer back by this many bytes, and gives the old one.
    #[track_caller]
    pub fn fetch_byte_sub(&self, count: usize, order: Ordering) -> *mut T {
        self.change(i64::wrapping_sub, count, order)
    }

    /// Sets the bits that the address or the operand has, and gives the old pointer.
    #[track_caller]
    pub fn fetch_or(&self, bits: usize, order: Ordering) -> *mut T {
        self.change(|old, by| old | by, bits, order)
    }

    /// Leaves the bits that both have, and gives the old pointer.
    #[track_caller]
    pub fn fetch_and(&self, bits: usize, order: Ordering) -> *mut T {
        self.change(|old, by| old & by, bits, order)
    }

    /// Sets the bits that just one has, and gives the old pointer.
    #[track_caller]
    pub fn fetch_xor(&self, bits: usize, order: Ordering) -> *mut T {
        self.change(|old, by| old ^ by, bits, order)
    }
}

impl<T> Default for AtomicPtr<T> {
    fn default() -> AtomicPtr<T> {
        AtomicPtr::new(ptr::null_mut())
    }
}

impl<T> From<*mut T> for AtomicPtr<T> {
    fn from(value: *mut T) -> AtomicPtr<T> {
        AtomicPtr::new(value)
    }
}

impl<T> std::fmt::Debug for AtomicPtr<T> {
    fn fmt(&self, to: &mut std::fmt::Formatter<'_>) -> std::fmt::Result {
        self.inner.fmt(to)
    }
}
