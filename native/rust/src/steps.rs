//! Steps of one's own, names, and numbers that look random.

use crate::ask::{kind, Late};
use crate::names;
use crate::objects::Id;
use crate::place::Place;
use crate::raw::Ask;
use crate::seat;
use crate::sync::{atomic, Barrier, Condvar, Mutex, RwLock, Semaphore};
use std::panic::Location;

/// A step that touches nothing. Outside of a run it is nothing.
#[track_caller]
pub fn step() {
    let place = Place::of(Location::caller());
    seat::current(|live, me| live.ask(me, place, Late::Ask(Ask::yields())));
}

/// A step that fails the run where the condition doesn't hold. Outside of a run it is `assert!`.
///
/// # Panics
///
/// Outside of a run, where the condition doesn't hold.
#[track_caller]
pub fn holds(condition: bool) {
    let place = Place::of(Location::caller());
    let kind = if condition { kind::CHECK_HOLDS } else { kind::CHECK_FAILS };
    let asked = seat::current(|live, me| live.ask(me, place, Late::Ask(Ask::of(kind, 0))));
    assert!(asked.is_some() || condition, "pct::holds(false)");
}

/// Waits for the end of a thread by its name, as [`threads`](crate::threads) declares it: one step.
/// Outside of a run it is nothing.
///
/// # Panics
///
/// Where no thread has that name.
#[track_caller]
pub fn join(name: &str) {
    let place = Place::of(Location::caller());
    seat::current(|live, me| {
        let named = live.state().ok().and_then(|state| state.threads.named(name));
        let target = named.unwrap_or_else(|| panic!("no thread is called {name}"));
        live.ask(me, place, Late::Ask(Ask::of(kind::JOIN, target)));
    });
}

/// A number of the run's seed: the next one at each call of the run. In a replay it is the trace's,
/// in single runs without a seed that of 0, outside of a run too. It is no step.
pub fn random() -> u64 {
    seat::current(|live, _| match live.state() {
        Ok(mut state) => mixed(&mut state.random),
        Err(fault) => live.fail(fault),
    })
    .unwrap_or_else(|| mixed(&mut 0))
}

/// SplitMix64.
fn mixed(state: &mut u64) -> u64 {
    *state = state.wrapping_add(0x9e37_79b9_7f4a_7c15);
    let first = (*state ^ (*state >> 30)).wrapping_mul(0xbf58_476d_1ce4_e5b9);
    let second = (first ^ (first >> 27)).wrapping_mul(0x94d0_49bb_1331_11eb);
    second ^ (second >> 31)
}

/// Names an object for reports and traces: 1 to 32 letters, digits and `_`, a letter first, and no
/// word of traces. It is no step. Outside of a run it is nothing.
#[track_caller]
pub fn name(name: &str, object: &impl Named) {
    let place = Place::of(Location::caller());
    let Some(live) = seat::naming(std::sync::Arc::clone) else { return };
    let is_taken =
        live.state().is_ok_and(|state| state.names.iter().any(|(_, _, taken)| taken == name));
    assert!(
        names::is_name(name) && !is_taken,
        "pct: {place}: {name} can't be a name: 1 to 32 letters, digits and _, a letter first, \
         no word of traces, and each name once"
    );
    let (id, first) = object.identity();
    if let Some(number) = live.number(id, first, place) {
        if let Ok(mut state) = live.state() {
            state.names.push((id.kind, number, name.to_owned()));
        }
    }
}

/// What can be named.
pub trait Named {
    /// By what a run knows it, and its first value.
    #[doc(hidden)]
    fn identity(&self) -> (&Identity, Option<i64>);
}

/// By what a run knows an object.
#[doc(hidden)]
pub type Identity = Id;

macro_rules! named {
    ($($name:ty),*) => { $(
        impl Named for $name {
            fn identity(&self) -> (&Identity, Option<i64>) {
                atomic::identity(self)
            }
        }
    )* };
}

named!(
    atomic::AtomicBool,
    atomic::AtomicI8,
    atomic::AtomicI16,
    atomic::AtomicI32,
    atomic::AtomicI64,
    atomic::AtomicIsize
);
named!(
    atomic::AtomicU8,
    atomic::AtomicU16,
    atomic::AtomicU32,
    atomic::AtomicU64,
    atomic::AtomicUsize
);

impl<T: ?Sized> Named for Mutex<T> {
    fn identity(&self) -> (&Identity, Option<i64>) {
        (&self.id, Some(0))
    }
}

impl<T: ?Sized> Named for RwLock<T> {
    fn identity(&self) -> (&Identity, Option<i64>) {
        (&self.id, Some(0))
    }
}

impl Named for Condvar {
    fn identity(&self) -> (&Identity, Option<i64>) {
        (&self.id, Some(0))
    }
}

impl Named for Semaphore {
    fn identity(&self) -> (&Identity, Option<i64>) {
        (&self.id, Some(self.first()))
    }
}

impl Named for Barrier {
    fn identity(&self) -> (&Identity, Option<i64>) {
        (&self.id, Some(self.first()))
    }
}

impl<T: Named + ?Sized> Named for std::sync::Arc<T> {
    fn identity(&self) -> (&Identity, Option<i64>) {
        (**self).identity()
    }
}
