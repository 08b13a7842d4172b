//! A barrier, as `std::sync::Barrier` has it.

use super::step;
use crate::ask::{kind, Late};
use crate::objects::{Id, Kind};
use crate::place::Place;
use crate::raw::Ask;
use crate::seat;
use std::panic::Location;
use std::sync;

/// Where this many threads meet; in a run at most 1000.
pub struct Barrier {
    pub(crate) id: Id,
    many: usize,
    inner: sync::Barrier,
}

/// What a wait at a barrier gives.
pub struct BarrierWaitResult(bool);

impl BarrierWaitResult {
    /// Whether the thread is the leader: in a run the one that arrived last.
    pub fn is_leader(&self) -> bool {
        self.0
    }
}

impl Barrier {
    /// For this many threads. No step.
    pub const fn new(many: usize) -> Barrier {
        Barrier { id: Id::new(Kind::Barrier), many, inner: sync::Barrier::new(many) }
    }

    pub(crate) fn first(&self) -> i64 {
        self.many.max(1) as i64
    }

    /// Arrives, and waits until all have: two steps.
    #[track_caller]
    pub fn wait(&self) -> BarrierWaitResult {
        let place = Place::of(Location::caller());
        seat::current(|live, _| {
            if self.many > 1000 {
                live.stop(format!("{place}: in a run at most 1000 threads meet at a barrier"));
            }
        });
        match step(&self.id, self.first(), place, kind::ARRIVE) {
            None => BarrierWaitResult(self.inner.wait().is_leader()),
            Some(_) => BarrierWaitResult(self.leave(place)),
        }
    }

    fn leave(&self, place: Place) -> bool {
        let answer = seat::current(|live, me| {
            let barrier = live.sure_number(&self.id, self.first(), place);
            live.ask(me, place, Late::Ask(Ask::of(kind::LEAVE, barrier))).value
        });
        answer == Some(1)
    }
}

impl std::fmt::Debug for Barrier {
    fn fmt(&self, to: &mut std::fmt::Formatter<'_>) -> std::fmt::Result {
        to.debug_struct("Barrier").finish_non_exhaustive()
    }
}

impl std::fmt::Debug for BarrierWaitResult {
    fn fmt(&self, to: &mut std::fmt::Formatter<'_>) -> std::fmt::Result {
        to.debug_struct("BarrierWaitResult").field("is_leader", &self.0).finish()
    }
}
