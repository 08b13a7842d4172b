//! The factory of threads.

use super::handle::Packet;
use super::{JoinHandle, Scope, ScopedJoinHandle, Thread};
use crate::live::Live;
use crate::place::Place;
use crate::pool;
use crate::seat;
use crate::test::Body;
use std::io;
use std::panic::Location;
use std::sync::Arc;

/// A thread's name and the size of its stack, before it is spawned.
#[derive(Debug, Default)]
pub struct Builder {
    name: Option<String>,
    stack: Option<usize>,
}

impl Builder {
    /// Without a name, and with a stack of std's size.
    pub fn new() -> Builder {
        Builder::default()
    }

    /// Names the thread. In reports it has this name where that is a letter followed by at most 31
    /// letters, digits and `_`.
    pub fn name(mut self, name: String) -> Builder {
        self.name = Some(name);
        self
    }

    /// The size of its stack in bytes.
    pub fn stack_size(mut self, size: usize) -> Builder {
        self.stack = Some(size);
        self
    }

    /// Spawns the thread: one step.
    #[track_caller]
    pub fn spawn<F, T>(self, act: F) -> io::Result<JoinHandle<T>>
    where
        F: FnOnce() -> T + Send + 'static,
        T: Send + 'static,
    {
        let place = Place::of(Location::caller());
        let Some((live, me)) = seat::current(|live, me| (live.clone(), me)) else {
            return self.std().spawn(act).map(JoinHandle::of_std);
        };
        let number = live.start(me, self.name.clone(), place);
        let packet = Arc::new(Packet::new());
        let thread = Thread::of_run(&live, number, self.name.clone());
        let body = body_of(live.clone(), number, thread.clone(), packet.clone(), act);
        if let Err(fault) = pool::launch(&live, number, self.name, self.stack, body) {
            live.fail(fault);
        }
        Ok(JoinHandle::of_run(number, thread, packet))
    }

    /// Spawns a thread of a scope: one step.
    #[track_caller]
    pub fn spawn_scoped<'scope, 'env, F, T>(
        self,
        scope: &'scope Scope<'scope, 'env>,
        act: F,
    ) -> io::Result<ScopedJoinHandle<'scope, T>>
    where
        F: FnOnce() -> T + Send + 'scope,
        T: Send + 'scope,
    {
        scope.spawn_by(self, act, Place::of(Location::caller()))
    }

    pub(super) fn std(self) -> std::thread::Builder {
        let mut builder = std::thread::Builder::new();
        if let Some(name) = self.name {
            builder = builder.name(name);
        }
        match self.stack {
            Some(size) => builder.stack_size(size),
            None => builder,
        }
    }

    pub(super) fn told_name(&self) -> Option<String> {
        self.name.clone()
    }
}

fn body_of<F, T>(live: Arc<Live>, me: u32, thread: Thread, packet: Arc<Packet<T>>, act: F) -> Body
where
    F: FnOnce() -> T + Send + 'static,
    T: Send + 'static,
{
    Box::new(move || {
        thread.seat();
        packet.fill(&live, me, act);
    })
}
