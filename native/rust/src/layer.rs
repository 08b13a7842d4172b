//! What layers over this crate need: the packages for Loom's and Shuttle's tests. It is no part of
//! what a test calls.

use crate::clocks::Tag;
use crate::place::Place;
use crate::seat;
use crate::state::Panicked;
use crate::sync::atomic::{AtomicBool, Ordering::SeqCst};
use crate::sync::Semaphore;
use std::panic::Location;

/// The number of the run that the calling thread is in.
pub fn run() -> Option<u32> {
    seat::current(|live, _| live.id)
}

/// The number of the calling thread in its run.
pub fn thread() -> Option<u32> {
    seat::current(|_, me| me)
}

/// How many steps the run has taken.
pub fn steps() -> Option<u32> {
    seat::current(|live, _| live.state().map_or(0, |state| state.steps))
}

/// The calling thread changed something that another one may look at, without a step.
pub fn changed() {
    seat::current(|live, me| {
        if !live.is_over() {
            live.changed(me);
        }
    });
}

/// Fails the run, with a place and a sentence, and doesn't come back in one.
pub fn fail(location: &'static Location<'static>, message: String) {
    let told = Panicked { place: Place::of(location), message, is_panic: false };
    seat::current(|live, me| live.fail_by(me, told));
}

/// Waits for the end of all other threads of the run.
pub fn join_all_at(location: &'static Location<'static>) {
    let place = Place::of(location);
    let next = |from: u32| {
        seat::current(|live, me| {
            let state = live.state().ok()?;
            state.threads.numbers().filter(|number| *number >= from && *number != me).min()
        })
        .flatten()
    };
    let mut from = 0;
    // A thread may spawn another one while this one waits for it.
    while let Some(number) = next(from).or_else(|| unended().and_then(|()| next(0))) {
        seat::current(|live, me| live.join(me, place, number));
        from = number + 1;
    }
}

/// Whether another thread hasn't ended.
fn unended() -> Option<()> {
    let others = seat::current(|live, me| {
        live.state().is_ok_and(|state| {
            state.threads.numbers().any(|number| number != me && !state.threads.has_ended(number))
        })
    });
    others.unwrap_or(false).then_some(())
}

/// What orders accesses of cells without a step: who takes knows what the others did before they
/// gave.
#[derive(Debug, Default)]
pub struct Point(Tag);

impl Point {
    /// At which nobody has given.
    pub const fn new() -> Point {
        Point(Tag::new())
    }

    /// Lets others know what this thread did.
    pub fn give(&self) {
        seat::current(|live, me| live.give(me, &self.0));
    }

    /// Comes to know what others gave.
    pub fn take(&self) {
        seat::current(|live, me| live.take(me, &self.0));
    }
}

/// What wakes one thread. A wake-up that comes before the wait isn't lost; two are one.
#[derive(Debug)]
pub struct Token {
    is_given: AtomicBool,
    given: Semaphore,
    order: Point,
}

impl Default for Token {
    fn default() -> Token {
        Token::new()
    }
}

impl Token {
    /// Which nobody has given.
    pub const fn new() -> Token {
        let is_given = AtomicBool::new(false);
        Token { is_given, given: Semaphore::new(0), order: Point::new() }
    }

    /// Gives it: one step, and a second one where it wasn't given before.
    #[track_caller]
    pub fn give(&self) {
        self.order.give();
        if self.is_given.compare_exchange(false, true, SeqCst, SeqCst).is_ok() {
            self.given.up();
        }
    }

    /// Waits until it is given, and takes it: two steps.
    #[track_caller]
    pub fn take(&self) {
        self.take_at(Place::of(Location::caller()));
    }

    pub(crate) fn take_at(&self, place: Place) {
        self.given.down_at(place);
        self.is_given.store_at(false, SeqCst, place);
        self.order.take();
    }
}

/// The calling thread polls a future: where it waits for a wake-up, the place of its last step is
/// told.
pub fn polled() {
    seat::current(|live, me| {
        let place = live.last_place(me);
        if let Ok(mut state) = live.state() {
            state.polled[me as usize] = Some(place);
        }
    });
}

/// The calling thread was woken.
pub fn woken() {
    seat::current(|live, me| {
        if let Ok(mut state) = live.state() {
            state.polled[me as usize] = None;
        }
    });
}
