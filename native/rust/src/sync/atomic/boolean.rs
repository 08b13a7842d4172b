//! The atomic bool.

use super::{operate, operate_at, plain, Cell, Operation};
use crate::clocks::Use;
use crate::objects::{Id, Kind};
use crate::place::Place;
use std::panic::Location;
use std::sync::atomic::Ordering::{self, Relaxed};

/// An atomic bool: 1 where it is true, in reports.
pub struct AtomicBool {
    id: Id,
    inner: std::sync::atomic::AtomicBool,
}

impl Cell for AtomicBool {
    fn id(&self) -> &Id {
        &self.id
    }

    fn get(&self) -> i64 {
        i64::from(self.inner.load(Relaxed))
    }

    fn set(&self, value: i64) {
        self.inner.store(value != 0, Relaxed);
    }
}

macro_rules! changes {
    ($name:ident $text:literal ($change:expr)) => {
        #[doc = concat!("Sets ", $text, ", and gives the old value: one step, `cas`.")]
        #[track_caller]
        pub fn $name(&self, by: bool, order: Ordering) -> bool {
            let change = |old, by| i64::from(($change)(old != 0, by != 0));
            match operate(self, Operation::Change { change, by: i64::from(by), sum: None }, order) {
                Some(old) => old != 0,
                None => self.inner.$name(by, order),
            }
        }
    };
}

impl AtomicBool {
    /// With a first value. No step.
    pub const fn new(value: bool) -> AtomicBool {
        AtomicBool { id: Id::new(Kind::Variable), inner: std::sync::atomic::AtomicBool::new(value) }
    }

    /// The value. No step.
    pub fn get_mut(&mut self) -> &mut bool {
        self.id.forget();
        self.inner.get_mut()
    }

    /// The value. No step.
    pub fn into_inner(self) -> bool {
        self.inner.load(Relaxed)
    }

    /// The value as that of plain memory: no step. For layers over this crate.
    #[doc(hidden)]
    #[track_caller]
    pub fn plain(&self) -> bool {
        plain(self, Use::PlainLoad) != 0
    }

    /// The value is about to be changed as that of plain memory: no step. For layers over this
    /// crate.
    #[doc(hidden)]
    #[track_caller]
    pub fn plain_change(&self) {
        plain(self, Use::PlainChange);
    }

    /// The value: one step, `read`.
    #[track_caller]
    pub fn load(&self, order: Ordering) -> bool {
        match operate(self, Operation::Load, order) {
            Some(value) => value != 0,
            None => self.inner.load(order),
        }
    }

    /// Sets the value: one step, `write`.
    #[track_caller]
    pub fn store(&self, value: bool, order: Ordering) {
        self.store_at(value, order, Place::of(Location::caller()));
    }

    pub(crate) fn store_at(&self, value: bool, order: Ordering, place: Place) {
        if operate_at(self, Operation::Store(i64::from(value)), order.into(), place).is_none() {
            self.inner.store(value, order);
        }
    }

    /// Sets the value where it is `current`, and gives the old one: one step, `cas`.
    #[deprecated(
        since = "0.1.0",
        note = "use compare_exchange or compare_exchange_weak instead, as in std"
    )]
    #[track_caller]
    pub fn compare_and_swap(&self, current: bool, new: bool, _order: Ordering) -> bool {
        self.compare_exchange(current, new, Ordering::SeqCst, Ordering::SeqCst)
            .unwrap_or_else(|found| found)
    }

    /// Sets the value where it is `current`: one step, `cas`.
    #[track_caller]
    pub fn compare_exchange(
        &self,
        current: bool,
        new: bool,
        success: Ordering,
        failure: Ordering,
    ) -> Result<bool, bool> {
        let exchange = Operation::Exchange { old: i64::from(current), new: i64::from(new) };
        match operate(self, exchange, (success, failure)) {
            Some(old) if (old != 0) == current => Ok(current),
            Some(old) => Err(old != 0),
            None => self.inner.compare_exchange(current, new, success, failure),
        }
    }

    /// As `compare_exchange`: in a run it fails only where the value is another one.
    #[track_caller]
    pub fn compare_exchange_weak(
        &self,
        current: bool,
        new: bool,
        success: Ordering,
        failure: Ordering,
    ) -> Result<bool, bool> {
        let exchange = Operation::Exchange { old: i64::from(current), new: i64::from(new) };
        match operate(self, exchange, (success, failure)) {
            Some(old) if (old != 0) == current => Ok(current),
            Some(old) => Err(old != 0),
            None => self.inner.compare_exchange_weak(current, new, success, failure),
        }
    }

    /// Loads, and exchanges until it succeeds or the function gives none: a step for each.
    #[track_caller]
    pub fn fetch_update<F>(
        &self,
        set: Ordering,
        fetch: Ordering,
        mut update: F,
    ) -> Result<bool, bool>
    where
        F: FnMut(bool) -> Option<bool>,
    {
        let mut old = self.load(fetch);
        while let Some(new) = update(old) {
            match self.compare_exchange_weak(old, new, set, fetch) {
                Ok(old) => return Ok(old),
                Err(found) => old = found,
            }
        }
        Err(old)
    }

    /// As `fetch_update`.
    #[track_caller]
    pub fn try_update(
        &self,
        set: Ordering,
        fetch: Ordering,
        update: impl FnMut(bool) -> Option<bool>,
    ) -> Result<bool, bool> {
        self.fetch_update(set, fetch, update)
    }

    /// As `fetch_update`, with a function that always gives a value.
    #[track_caller]
    pub fn update(
        &self,
        set: Ordering,
        fetch: Ordering,
        mut update: impl FnMut(bool) -> bool,
    ) -> bool {
        self.fetch_update(set, fetch, |old| Some(update(old))).unwrap_or_else(|old| old)
    }

    /// Sets the other value, and gives the old one: one step, `cas`.
    #[track_caller]
    pub fn fetch_not(&self, order: Ordering) -> bool {
        self.fetch_xor(true, order)
    }

    changes!(swap "the value" (|_, by: bool| by));
    changes!(fetch_and "whether both are true" (|old: bool, by: bool| old & by));
    changes!(fetch_nand "whether not both are true" (|old: bool, by: bool| !(old & by)));
    changes!(fetch_or "whether one is true" (|old: bool, by: bool| old | by));
    changes!(fetch_xor "whether just one is true" (|old: bool, by: bool| old ^ by));
}

impl Default for AtomicBool {
    fn default() -> AtomicBool {
        AtomicBool::new(false)
    }
}

impl From<bool> for AtomicBool {
    fn from(value: bool) -> AtomicBool {
        AtomicBool::new(value)
    }
}

impl std::fmt::Debug for AtomicBool {
    fn fmt(&self, to: &mut std::fmt::Formatter<'_>) -> std::fmt::Result {
        self.inner.fmt(to)
    }
}
