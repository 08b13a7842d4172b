//! Threads and what each has its own of.

use std::any::Any;
use std::cell::RefCell;
use std::marker::PhantomData;
use std::rc::Rc;

pub use pct::thread::{
    current, panicking, park, park_timeout, scope, sleep, yield_now, JoinHandle, Scope,
    ScopedJoinHandle, Thread, ThreadId,
};

/// What a thread has its own of was dropped.
#[derive(Clone, Copy, Debug, PartialEq, Eq)]
#[non_exhaustive]
pub struct AccessError;

impl std::fmt::Display for AccessError {
    fn fmt(&self, to: &mut std::fmt::Formatter<'_>) -> std::fmt::Result {
        to.write_str("already destroyed")
    }
}

impl std::error::Error for AccessError {}

/// Spawns a thread: one step.
#[track_caller]
pub fn spawn<F, T>(act: F) -> JoinHandle<T>
where
    F: FnOnce() -> T + Send + 'static,
    T: Send + 'static,
{
    pct::thread::spawn(with_locals(act))
}

/// Drops a thread's locals where its closure ends, by a panic too.
fn with_locals<T>(act: impl FnOnce() -> T) -> impl FnOnce() -> T {
    struct Ends;
    impl Drop for Ends {
        fn drop(&mut self) {
            drop_locals();
        }
    }
    move || {
        let _ends = Ends;
        act()
    }
}

/// A thread's name and the size of its stack, before it is spawned.
#[derive(Debug, Default)]
pub struct Builder(pct::thread::Builder);

impl Builder {
    /// Without a name, and with a stack of std's size.
    pub fn new() -> Builder {
        Builder::default()
    }

    /// Names the thread.
    pub fn name(self, name: String) -> Builder {
        Builder(self.0.name(name))
    }

    /// The size of its stack in bytes.
    pub fn stack_size(self, size: usize) -> Builder {
        Builder(self.0.stack_size(size))
    }

    /// Spawns the thread: one step.
    ///
    /// # Errors
    ///
    /// As std's, outside of runs.
    #[track_caller]
    pub fn spawn<F, T>(self, act: F) -> std::io::Result<JoinHandle<T>>
    where
        F: FnOnce() -> T + Send + 'static,
        T: Send + 'static,
    {
        self.0.spawn(with_locals(act))
    }
}

/// By the address of its key, the value of a thread-local; none once it is dropped.
type Locals = Vec<(usize, Option<Rc<dyn Any>>)>;

thread_local! {
    static LOCALS: RefCell<Locals> = const { RefCell::new(Vec::new()) };
}

/// Drops what the thread has its own of, in the order in which it was made.
pub(crate) fn drop_locals() {
    loop {
        let next = LOCALS
            .try_with(|locals| locals.borrow_mut().iter_mut().find_map(|(_, value)| value.take()));
        match next {
            Ok(Some(value)) => drop(value),
            _ => return,
        }
    }
}

/// A static that each thread has its own of.
pub struct LocalKey<T: 'static> {
    init: fn() -> T,
    _value: PhantomData<fn() -> T>,
}

impl<T> std::fmt::Debug for LocalKey<T> {
    fn fmt(&self, to: &mut std::fmt::Formatter<'_>) -> std::fmt::Result {
        to.debug_struct("LocalKey").finish_non_exhaustive()
    }
}

impl<T: 'static> LocalKey<T> {
    #[doc(hidden)]
    pub const fn made_by(init: fn() -> T) -> LocalKey<T> {
        LocalKey { init, _value: PhantomData }
    }

    /// Acts on the thread's value, which is made at its first use.
    ///
    /// # Panics
    ///
    /// Where it was dropped.
    pub fn with<R>(&'static self, act: impl FnOnce(&T) -> R) -> R {
        self.try_with(act).expect("a thread-local is used after it was dropped")
    }

    /// Acts on the thread's value, where it wasn't dropped.
    ///
    /// # Errors
    ///
    /// Where it was.
    pub fn try_with<R>(&'static self, act: impl FnOnce(&T) -> R) -> Result<R, AccessError> {
        let value = self.found().unwrap_or_else(|| {
            let made: Rc<dyn Any> = Rc::new((self.init)());
            self.keep(made)
        });
        let value = value?;
        Ok(act(value.downcast_ref().ok_or(AccessError)?))
    }

    fn key(&'static self) -> usize {
        std::ptr::from_ref(self) as usize
    }

    fn found(&'static self) -> Option<Result<Rc<dyn Any>, AccessError>> {
        let found = LOCALS.try_with(|locals| {
            let locals = locals.borrow();
            let (_, value) = locals.iter().find(|(key, _)| *key == self.key())?;
            Some(value.clone().ok_or(AccessError))
        });
        found.unwrap_or(Some(Err(AccessError)))
    }

    fn keep(&'static self, made: Rc<dyn Any>) -> Result<Rc<dyn Any>, AccessError> {
        LOCALS
            .try_with(|locals| locals.borrow_mut().push((self.key(), Some(made.clone()))))
            .map_err(|_| AccessError)?;
        Ok(made)
    }
}
