//! Semaphores, which std doesn't have.

use super::step;
use crate::ask::kind;
use crate::objects::{Id, Kind};
use crate::place::Place;
use crate::seat;
use std::panic::Location;
use std::sync::{Condvar, Mutex, MutexGuard};

/// A count of what may be taken, as POSIX's semaphores have it.
#[derive(Debug)]
pub struct Semaphore {
    pub(crate) id: Id,
    first: u32,
    count: Mutex<u32>,
    raised: Condvar,
}

impl Semaphore {
    /// With a first count, at most 2147483647. No step.
    pub const fn new(count: u32) -> Semaphore {
        Semaphore {
            id: Id::new(Kind::Semaphore),
            first: count,
            count: Mutex::new(count),
            raised: Condvar::new(),
        }
    }

    pub(crate) fn first(&self) -> i64 {
        i64::from(self.first)
    }

    fn count(&self) -> MutexGuard<'_, u32> {
        self.count.lock().unwrap_or_else(|poisoned| poisoned.into_inner())
    }

    fn step(&self, ask: u32, place: Place) -> Option<i64> {
        if self.first > i32::MAX as u32 {
            seat::current(|live, _| {
                live.stop(format!("{place}: in a run a semaphore begins with at most {}", i32::MAX))
            });
        }
        step(&self.id, self.first(), place, ask)
    }

    /// Waits until the count is above 0, and lowers it: one step.
    #[track_caller]
    pub fn down(&self) {
        self.down_at(Place::of(Location::caller()));
    }

    pub(crate) fn down_at(&self, place: Place) {
        if self.step(kind::DOWN, place).is_none() {
            let mut count = self.count();
            while *count == 0 {
                count = self.raised.wait(count).unwrap_or_else(|poisoned| poisoned.into_inner());
            }
            *count -= 1;
        }
    }

    /// Lowers the count where it is above 0, and gives whether it was: one step.
    #[track_caller]
    pub fn try_down(&self) -> bool {
        let apart = || {
            let mut count = self.count();
            let is_there = *count > 0;
            *count -= u32::from(is_there);
            is_there
        };
        self.step(kind::TRY_DOWN, Place::of(Location::caller()))
            .map_or_else(apart, |answer| answer == 1)
    }

    /// Raises the count: one step.
    #[track_caller]
    pub fn up(&self) {
        if self.step(kind::UP, Place::of(Location::caller())).is_none() {
            *self.count() += 1;
            self.raised.notify_one();
        }
    }
}
