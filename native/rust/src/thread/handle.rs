//! What a spawned thread leaves behind, and the handle that waits for it.

use super::{Result, Thread};
use crate::ask::{kind, Late};
use crate::live::Live;
use crate::place::Place;
use crate::raw::Ask;
use crate::seat;
use crate::state::Panicked;
use std::panic::{self, AssertUnwindSafe, Location};
use std::sync::{Arc, Mutex};

/// What a thread of a run leaves behind. The baton keeps it from being met by two threads at once.
pub(crate) struct Packet<T>(Mutex<Left<T>>);

struct Left<T> {
    result: Option<Result<T>>,
    panicked: Option<Panicked>,
    /// Nobody will join the thread.
    is_detached: bool,
}

impl<T> Packet<T> {
    pub fn new() -> Packet<T> {
        Packet(Mutex::new(Left { result: None, panicked: None, is_detached: false }))
    }

    fn with<R>(&self, act: impl FnOnce(&mut Left<T>) -> R) -> R {
        // Between a poisoning panic and this there is none that a user's code could make: nothing
        // of theirs runs in `act`.
        act(&mut self.0.lock().unwrap_or_else(|poisoned| poisoned.into_inner()))
    }

    /// Runs what the thread is to do, and keeps what it leaves. Where panics are as std's, one that
    /// nobody may take any more fails the run.
    pub fn fill(&self, live: &Live, me: u32, act: impl FnOnce() -> T) {
        if !live.settings.panics_as_std() {
            let made = act();
            return self.with(|left| left.result = Some(Ok(made)));
        }
        let result = panic::catch_unwind(AssertUnwindSafe(act));
        let panicked = result.as_ref().err().and_then(|_| seat::panicked());
        let is_lost = self.with(|left| {
            left.result = Some(result);
            left.panicked = panicked.clone();
            left.is_detached && left.panicked.is_some()
        });
        if let Some(told) = panicked.filter(|_| is_lost) {
            live.fail_by(me, told);
        }
    }

    pub fn take(&self) -> Option<Result<T>> {
        self.with(|left| left.result.take())
    }

    /// Whether the thread ended by a panic which nobody has taken.
    pub fn has_panic(&self) -> bool {
        self.with(|left| matches!(left.result, Some(Err(_))))
    }

    /// Nobody will join it: a panic that it left fails the run.
    pub fn detach(&self) -> Option<Panicked> {
        self.with(|left| {
            left.is_detached = true;
            left.result.as_ref().and_then(|result| result.as_ref().err()).and(left.panicked.clone())
        })
    }
}

/// Waits for the end of a thread of a run.
pub(crate) fn join(live: &Live, me: u32, place: Place, target: u32) {
    live.ask(me, place, Late::Ask(Ask::of(kind::JOIN, target)));
}

/// Waits for the end of a thread, as std's does: the destructors of its thread-locals among it.
pub struct JoinHandle<T>(Option<Joined<T>>);

enum Joined<T> {
    Std(std::thread::JoinHandle<T>, Thread),
    Run(u32, Thread, Arc<Packet<T>>),
}

impl<T> JoinHandle<T> {
    pub(crate) fn of_std(handle: std::thread::JoinHandle<T>) -> JoinHandle<T> {
        let thread = Thread::of_std(handle.thread().clone());
        JoinHandle(Some(Joined::Std(handle, thread)))
    }

    pub(crate) fn of_run(number: u32, thread: Thread, packet: Arc<Packet<T>>) -> JoinHandle<T> {
        JoinHandle(Some(Joined::Run(number, thread, packet)))
    }

    /// The handle to the thread.
    pub fn thread(&self) -> &Thread {
        match &self.0 {
            Some(Joined::Std(_, thread) | Joined::Run(_, thread, _)) => thread,
            None => unreachable!("a handle is emptied by its join and its drop alone"),
        }
    }

    /// Waits for the thread's end, and gives what it made: one step.
    #[track_caller]
    pub fn join(mut self) -> Result<T> {
        let place = Place::of(Location::caller());
        match self.0.take() {
            Some(Joined::Std(handle, _)) => handle.join(),
            Some(Joined::Run(number, _, packet)) => {
                seat::current(|live, me| join(live, me, place, number));
                packet.take().unwrap_or_else(|| {
                    Err(Box::new("the thread is of a run that this thread isn't in"))
                })
            }
            None => unreachable!("a handle is joined once"),
        }
    }

    /// Whether the thread is about to end: one step, which touches nothing.
    #[track_caller]
    pub fn is_finished(&self) -> bool {
        let place = Place::of(Location::caller());
        match &self.0 {
            Some(Joined::Std(handle, _)) => handle.is_finished(),
            Some(Joined::Run(number, ..)) => seat::current(|live, me| {
                live.ask(me, place, Late::Ask(Ask::yields()));
                live.state().is_ok_and(|state| state.threads.is_finished(*number))
            })
            .unwrap_or(true),
            None => true,
        }
    }
}

impl<T> Drop for JoinHandle<T> {
    fn drop(&mut self) {
        let Some(Joined::Run(_, _, packet)) = &self.0 else { return };
        let Some(told) = packet.detach() else { return };
        seat::current(|live, me| live.fail_by(me, told));
    }
}

impl<T> std::fmt::Debug for JoinHandle<T> {
    fn fmt(&self, to: &mut std::fmt::Formatter<'_>) -> std::fmt::Result {
        to.debug_struct("JoinHandle").finish_non_exhaustive()
    }
}
