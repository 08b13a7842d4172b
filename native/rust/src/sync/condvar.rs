//! Waiting for a condition, as `std::sync::Condvar` has it.

use super::{step, LockResult, MutexGuard, PoisonError};
use crate::ask::{kind, Late};
use crate::objects::{Id, Kind};
use crate::place::Place;
use crate::raw::Ask;
use crate::seat;
use std::panic::Location;
use std::sync;
use std::time::{Duration, Instant};

/// A condition variable. `notify_one` wakes who has waited longest, no wait ends by itself, and
/// none by time.
pub struct Condvar {
    pub(crate) id: Id,
    inner: sync::Condvar,
}

/// Whether a wait ended by time. In a run none does.
#[derive(Clone, Copy, Debug, PartialEq, Eq)]
pub struct WaitTimeoutResult(bool);

impl WaitTimeoutResult {
    /// Whether it did.
    pub fn timed_out(&self) -> bool {
        self.0
    }
}

impl Condvar {
    /// A condition for which nobody waits. No step.
    pub const fn new() -> Condvar {
        Condvar { id: Id::new(Kind::Condition), inner: sync::Condvar::new() }
    }

    /// Lets the mutex go, waits to be woken, and takes it again: two steps.
    #[track_caller]
    pub fn wait<'a, T>(&self, guard: MutexGuard<'a, T>) -> LockResult<MutexGuard<'a, T>> {
        self.wait_at(guard, Place::of(Location::caller()))
    }

    fn wait_at<'a, T>(
        &self,
        guard: MutexGuard<'a, T>,
        place: Place,
    ) -> LockResult<MutexGuard<'a, T>> {
        let (mutex, locked, guard) = guard.into_parts();
        let released = seat::current(|live, me| {
            let (condition, held) =
                (live.sure_number(&self.id, 0, place), live.sure_number(&mutex.id, 0, place));
            live.ask(me, place, Late::Ask(Ask::of_wait(kind::RELEASE, condition, held)));
            Ask::of_wait(kind::REGAIN, condition, held)
        });
        let Some(regain) = released else {
            let again = |guard| MutexGuard::of_std(mutex, locked, guard);
            return self
                .inner
                .wait(guard)
                .map(again)
                .map_err(|poisoned| PoisonError::new(again(poisoned.into_inner())));
        };
        drop(guard);
        seat::current(|live, me| live.ask(me, place, Late::Ask(regain)));
        mutex.taken(locked)
    }

    /// Waits while the condition holds.
    #[track_caller]
    pub fn wait_while<'a, T, F>(
        &self,
        mut guard: MutexGuard<'a, T>,
        mut holds: F,
    ) -> LockResult<MutexGuard<'a, T>>
    where
        F: FnMut(&mut T) -> bool,
    {
        let place = Place::of(Location::caller());
        while holds(&mut *guard) {
            guard = self.wait_at(guard, place)?;
        }
        Ok(guard)
    }

    /// As [`Condvar::wait`]: in a run no time passes, so it never times out.
    #[track_caller]
    pub fn wait_timeout<'a, T>(
        &self,
        guard: MutexGuard<'a, T>,
        time: Duration,
    ) -> LockResult<(MutexGuard<'a, T>, WaitTimeoutResult)> {
        let place = Place::of(Location::caller());
        if seat::current(|_, _| ()).is_some() {
            let never = |guard| (guard, WaitTimeoutResult(false));
            return self
                .wait_at(guard, place)
                .map(never)
                .map_err(|poisoned| PoisonError::new(never(poisoned.into_inner())));
        }
        let (mutex, locked, guard) = guard.into_parts();
        let again = |(guard, result): (sync::MutexGuard<'a, T>, sync::WaitTimeoutResult)| {
            (MutexGuard::of_std(mutex, locked, guard), WaitTimeoutResult(result.timed_out()))
        };
        let waited = self.inner.wait_timeout(guard, time);
        waited.map(again).map_err(|poisoned| PoisonError::new(again(poisoned.into_inner())))
    }

    /// As [`Condvar::wait_timeout`], with the time in milliseconds.
    #[deprecated(since = "0.1.0", note = "replaced by `wait_timeout`, as in std")]
    #[track_caller]
    pub fn wait_timeout_ms<'a, T>(
        &self,
        guard: MutexGuard<'a, T>,
        ms: u32,
    ) -> LockResult<(MutexGuard<'a, T>, bool)> {
        let plain =
            |(guard, result): (MutexGuard<'a, T>, WaitTimeoutResult)| (guard, !result.timed_out());
        let waited = self.wait_timeout(guard, Duration::from_millis(u64::from(ms)));
        waited.map(plain).map_err(|poisoned| PoisonError::new(plain(poisoned.into_inner())))
    }

    /// Waits while the condition holds: in a run no time passes, so it never times out.
    #[track_caller]
    pub fn wait_timeout_while<'a, T, F>(
        &self,
        mut guard: MutexGuard<'a, T>,
        time: Duration,
        mut holds: F,
    ) -> LockResult<(MutexGuard<'a, T>, WaitTimeoutResult)>
    where
        F: FnMut(&mut T) -> bool,
    {
        if seat::current(|_, _| ()).is_some() {
            let never = |guard| (guard, WaitTimeoutResult(false));
            return self
                .wait_while(guard, holds)
                .map(never)
                .map_err(|poisoned| PoisonError::new(never(poisoned.into_inner())));
        }
        let begun = Instant::now();
        loop {
            if !holds(&mut *guard) {
                return Ok((guard, WaitTimeoutResult(false)));
            }
            let Some(rest) = time.checked_sub(begun.elapsed()) else {
                return Ok((guard, WaitTimeoutResult(true)));
            };
            guard = self.wait_timeout(guard, rest)?.0;
        }
    }

    /// Wakes who has waited longest: one step.
    #[track_caller]
    pub fn notify_one(&self) {
        if step(&self.id, 0, Place::of(Location::caller()), kind::SIGNAL).is_none() {
            self.inner.notify_one();
        }
    }

    /// Wakes all who wait: one step.
    #[track_caller]
    pub fn notify_all(&self) {
        if step(&self.id, 0, Place::of(Location::caller()), kind::BROADCAST).is_none() {
            self.inner.notify_all();
        }
    }
}

impl Default for Condvar {
    fn default() -> Condvar {
        Condvar::new()
    }
}

impl std::fmt::Debug for Condvar {
    fn fmt(&self, to: &mut std::fmt::Formatter<'_>) -> std::fmt::Result {
        to.debug_struct("Condvar").finish_non_exhaustive()
    }
}
