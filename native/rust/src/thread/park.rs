//! Handles to threads, and parking.

use super::look;
use crate::layer::Token;
use crate::live::Live;
use crate::seat;
use std::cell::RefCell;
use std::sync::Arc;
use std::time::Duration;

/// A handle to a thread.
#[derive(Clone)]
pub struct Thread(Kind);

#[derive(Clone)]
enum Kind {
    Std(std::thread::Thread),
    Run(Arc<Inner>),
}

/// A thread of a run, with its one token.
struct Inner {
    run: u32,
    number: u32,
    name: Option<String>,
    token: Token,
}

/// Tells threads apart.
#[derive(Clone, Copy, Debug, PartialEq, Eq, Hash)]
pub struct ThreadId(Which);

#[derive(Clone, Copy, Debug, PartialEq, Eq, Hash)]
enum Which {
    Std(std::thread::ThreadId),
    Run(u32, u32),
}

thread_local! {
    static CURRENT: RefCell<Option<Thread>> = const { RefCell::new(None) };
}

impl Thread {
    pub(crate) fn of_std(thread: std::thread::Thread) -> Thread {
        Thread(Kind::Std(thread))
    }

    pub(crate) fn of_run(live: &Live, number: u32, name: Option<String>) -> Thread {
        let inner = Inner { run: live.id, number, name, token: Token::new() };
        Thread(Kind::Run(Arc::new(inner)))
    }

    /// The calling thread is this one.
    pub(crate) fn seat(self) {
        let _ = CURRENT.try_with(|current| current.replace(Some(self)));
    }

    fn is_of(&self, live: &Live, me: u32) -> bool {
        matches!(&self.0, Kind::Run(inner) if inner.run == live.id && inner.number == me)
    }

    /// Gives the thread its token, where it hasn't one: one step, and a second one where it wakes
    /// the thread.
    #[track_caller]
    pub fn unpark(&self) {
        match &self.0 {
            Kind::Std(thread) => thread.unpark(),
            Kind::Run(inner) => inner.token.give(),
        }
    }

    /// Its identifier.
    pub fn id(&self) -> ThreadId {
        match &self.0 {
            Kind::Std(thread) => ThreadId(Which::Std(thread.id())),
            Kind::Run(inner) => ThreadId(Which::Run(inner.run, inner.number)),
        }
    }

    /// Its name, where it has one.
    pub fn name(&self) -> Option<&str> {
        match &self.0 {
            Kind::Std(thread) => thread.name(),
            Kind::Run(inner) => inner.name.as_deref(),
        }
    }
}

impl std::fmt::Debug for Thread {
    fn fmt(&self, to: &mut std::fmt::Formatter<'_>) -> std::fmt::Result {
        to.debug_struct("Thread")
            .field("id", &self.id())
            .field("name", &self.name())
            .finish_non_exhaustive()
    }
}

/// A handle to the calling thread.
pub fn current() -> Thread {
    let found = seat::current(|live, me| {
        let kept = CURRENT
            .try_with(|current| current.borrow().clone().filter(|thread| thread.is_of(live, me)));
        kept.ok().flatten().ok_or_else(|| {
            let name = live
                .state()
                .ok()
                .and_then(|state| state.threads.get(me).and_then(|thread| thread.name.clone()));
            Thread::of_run(live, me, name)
        })
    });
    match found {
        None => Thread::of_std(std::thread::current()),
        Some(Ok(thread)) => thread,
        Some(Err(thread)) => {
            thread.clone().seat();
            thread
        }
    }
}

/// Waits for the thread's token and takes it: two steps.
#[track_caller]
pub fn park() {
    match current().0 {
        Kind::Std(_) => std::thread::park(),
        Kind::Run(inner) => inner.token.take(),
    }
}

/// As [`park`]: in a run no time passes, so it never times out.
#[track_caller]
pub fn park_timeout(time: Duration) {
    match current().0 {
        Kind::Std(_) => std::thread::park_timeout(time),
        Kind::Run(_) => park(),
    }
}

/// Waits for a change, as all that spins does.
#[track_caller]
pub(crate) fn spin() {
    if !look() {
        std::hint::spin_loop();
    }
}
