//! Threads that may borrow from who spawns them.

use super::handle::{join, Packet};
use super::{Builder, Result, Thread};
use crate::ask::{kind, Late};
use crate::live::Live;
use crate::place::Place;
use crate::raw::Ask;
use crate::seat;
use std::io;
use std::marker::PhantomData;
use std::panic::{self, AssertUnwindSafe, Location};
use std::sync::{Arc, Mutex};

/// Where threads are spawned that end before [`scope`] does. In a run their real threads are always
/// fresh ones.
pub struct Scope<'scope, 'env: 'scope> {
    std: &'scope std::thread::Scope<'scope, 'env>,
    spawned: Mutex<Vec<Spawned<'scope>>>,
    /// std's auto traits.
    _as_std: PhantomData<(&'scope mut &'scope (), &'env mut &'env ())>,
}

/// A thread of a scope that no handle has joined. It tells whether the thread left a panic.
struct Spawned<'scope> {
    number: u32,
    has_panicked: Box<dyn Fn() -> bool + Send + 'scope>,
}

/// The handle to a thread of a scope.
pub struct ScopedJoinHandle<'scope, T>(Joined<'scope, T>);

enum Joined<'scope, T> {
    Std(std::thread::ScopedJoinHandle<'scope, T>, Thread),
    Run(u32, Thread, Arc<Packet<T>>, &'scope Mutex<Vec<Spawned<'scope>>>),
}

/// Calls the closure, and waits for the end of all threads that it spawned in the scope: one step
/// for each that wasn't joined.
#[track_caller]
pub fn scope<'env, F, T>(act: F) -> T
where
    F: for<'scope> FnOnce(&'scope Scope<'scope, 'env>) -> T,
{
    let place = Place::of(Location::caller());
    std::thread::scope(|std| {
        // It has to live as long as std's scope, of which safe code has nothing but a reference:
        // some 50 bytes stay.
        let scope: &Scope<'_, 'env> =
            Box::leak(Box::new(Scope { std, spawned: Mutex::default(), _as_std: PhantomData }));
        let result = panic::catch_unwind(AssertUnwindSafe(|| act(scope)));
        let has_panicked = scope.join_all(place);
        match result {
            Err(payload) => panic::resume_unwind(payload),
            Ok(_) if has_panicked => panic!("a scoped thread panicked"),
            Ok(made) => made,
        }
    })
}

impl<'scope, 'env> Scope<'scope, 'env> {
    /// Spawns a thread: one step.
    #[track_caller]
    pub fn spawn<F, T>(&'scope self, act: F) -> ScopedJoinHandle<'scope, T>
    where
        F: FnOnce() -> T + Send + 'scope,
        T: Send + 'scope,
    {
        Builder::new().spawn_scoped(self, act).expect("failed to spawn thread")
    }

    pub(super) fn spawn_by<F, T>(
        &'scope self,
        builder: Builder,
        act: F,
        place: Place,
    ) -> io::Result<ScopedJoinHandle<'scope, T>>
    where
        F: FnOnce() -> T + Send + 'scope,
        T: Send + 'scope,
    {
        let Some((live, me)) = seat::current(|live, me| (live.clone(), me)) else {
            let handle = builder.std().spawn_scoped(self.std, act)?;
            let thread = Thread::of_std(handle.thread().clone());
            return Ok(ScopedJoinHandle(Joined::Std(handle, thread)));
        };
        let number = live.start(me, builder.told_name(), place);
        let packet = Arc::new(Packet::new());
        let thread = Thread::of_run(&live, number, builder.told_name());
        let told = packet.clone();
        let has_panicked: Box<dyn Fn() -> bool + Send> = Box::new(move || told.has_panic());
        with(&self.spawned, |spawned| spawned.push(Spawned { number, has_panicked }));
        self.launch(&live, builder, number, thread.clone(), packet.clone(), act);
        Ok(ScopedJoinHandle(Joined::Run(number, thread, packet, &self.spawned)))
    }

    fn launch<F, T>(
        &'scope self,
        live: &Arc<Live>,
        builder: Builder,
        me: u32,
        thread: Thread,
        packet: Arc<Packet<T>>,
        act: F,
    ) where
        F: FnOnce() -> T + Send + 'scope,
        T: Send + 'scope,
    {
        let own = live.clone();
        let body = move || {
            own.clone().body(me, None, move || {
                thread.seat();
                packet.fill(&own, me, act);
            });
        };
        let started = builder.std().spawn_scoped(self.std, body);
        let seated = match started {
            Ok(handle) => live.seat_thread(me, handle.thread().clone()),
            Err(error) => Err(format!("a real thread can't be started: {error}")),
        };
        if let Err(fault) = seated {
            live.fail(fault);
        }
    }

    /// Waits for those that no handle joined. Whether one of them panicked.
    fn join_all(&self, place: Place) -> bool {
        let rest = with(&self.spawned, std::mem::take);
        let joined = seat::current(|live, me| {
            for spawned in &rest {
                join(live, me, place, spawned.number);
            }
        });
        joined.is_some() && rest.iter().any(|spawned| (spawned.has_panicked)())
    }
}

fn with<T, R>(list: &Mutex<T>, act: impl FnOnce(&mut T) -> R) -> R {
    act(&mut list.lock().unwrap_or_else(|poisoned| poisoned.into_inner()))
}

impl<'scope, T> ScopedJoinHandle<'scope, T> {
    /// The handle to the thread.
    pub fn thread(&self) -> &Thread {
        match &self.0 {
            Joined::Std(_, thread) | Joined::Run(_, thread, ..) => thread,
        }
    }

    /// Waits for the thread's end, and gives what it made: one step.
    #[track_caller]
    pub fn join(self) -> Result<T> {
        let place = Place::of(Location::caller());
        match self.0 {
            Joined::Std(handle, _) => handle.join(),
            Joined::Run(number, _, packet, spawned) => {
                seat::current(|live, me| join(live, me, place, number));
                with(spawned, |spawned| spawned.retain(|other| other.number != number));
                packet.take().unwrap_or_else(|| {
                    Err(Box::new("the thread is of a run that this thread isn't in"))
                })
            }
        }
    }

    /// Whether the thread is about to end: one step, which touches nothing.
    #[track_caller]
    pub fn is_finished(&self) -> bool {
        let place = Place::of(Location::caller());
        match &self.0 {
            Joined::Std(handle, _) => handle.is_finished(),
            Joined::Run(number, ..) => seat::current(|live, me| {
                live.ask(me, place, Late::Ask(Ask::of(kind::YIELD, 0)));
                live.state().is_ok_and(|state| state.threads.is_finished(*number))
            })
            .unwrap_or(true),
        }
    }
}

impl<T> std::fmt::Debug for ScopedJoinHandle<'_, T> {
    fn fmt(&self, to: &mut std::fmt::Formatter<'_>) -> std::fmt::Result {
        to.debug_struct("ScopedJoinHandle").finish_non_exhaustive()
    }
}

impl std::fmt::Debug for Scope<'_, '_> {
    fn fmt(&self, to: &mut std::fmt::Formatter<'_>) -> std::fmt::Result {
        to.debug_struct("Scope").finish_non_exhaustive()
    }
}
