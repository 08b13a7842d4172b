//! What can be run as a test: a closure, or declared threads.

use crate::live::Live;
use crate::place::Place;
use crate::seat;
use std::cell::RefCell;
use std::panic::Location;
use std::sync::Arc;

/// What a thread does.
pub(crate) type Body = Box<dyn FnOnce() + Send>;

/// The threads that a run begins with.
#[doc(hidden)]
pub struct Bodies(pub(crate) Vec<(Option<String>, Body)>);

/// What can be run as a test: a closure, which is the main thread and may spawn others, or what
/// [`threads`] makes.
pub trait Test: Send + Sync + 'static {
    /// The threads that a run begins with, made for this run.
    #[doc(hidden)]
    fn bodies(self: Arc<Self>) -> Bodies;

    /// Where it was declared, whose file is the test's own.
    #[doc(hidden)]
    fn place(&self) -> Option<Place> {
        None
    }
}

impl<F: Fn() + Send + Sync + 'static> Test for F {
    fn bodies(self: Arc<Self>) -> Bodies {
        Bodies(vec![(Some("main".into()), Box::new(move || self()))])
    }
}

/// Where a test declares its threads.
pub struct Threads(RefCell<Vec<(Option<String>, Body)>>);

impl Threads {
    /// Declares a thread with a name: 1 to 32 letters, digits and `_`, a letter first. Threads are
    /// numbered in the order of their declaration, and none is started by a step.
    pub fn thread(&self, name: &str, body: impl FnOnce() + Send + 'static) {
        self.0.borrow_mut().push((Some(name.to_owned()), Box::new(body)));
    }
}

/// A test by declared threads, as [`threads`] makes it.
pub struct Declared<F>(F, Place);

/// A test without a main thread: the closure, which is called before each run, makes the objects
/// and declares the threads. What it does to objects takes no step. The file of this call is the
/// test's own, whose lines traces have.
#[track_caller]
pub fn threads<F: Fn(&Threads) + Send + Sync + 'static>(declare: F) -> Declared<F> {
    Declared(declare, Place::of(Location::caller()))
}

impl<F: Fn(&Threads) + Send + Sync + 'static> Test for Declared<F> {
    fn bodies(self: Arc<Self>) -> Bodies {
        let threads = Threads(RefCell::new(Vec::new()));
        (self.0)(&threads);
        Bodies(threads.0.into_inner())
    }

    fn place(&self) -> Option<Place> {
        Some(self.1)
    }
}

/// The threads of a run, with the objects that are named before it.
pub(crate) fn declared<T: Test>(test: &Arc<T>, live: &Arc<Live>) -> Bodies {
    seat::declare(live, || test.clone().bodies())
}
