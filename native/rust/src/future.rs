//! Futures. Each task is a thread of the run which polls, and its waker is a token of its own: a
//! wake-up that is lost is a deadlock, which names the task and the place until which its future was
//! polled last. Each operation on an atomic or a lock within a poll is a step.

use crate::layer::{self, Token};
use crate::place::Place;
use crate::sync::atomic::{AtomicBool, Ordering::SeqCst};
use crate::sync::{Mutex, MutexGuard};
use crate::thread;
use std::any::Any;
use std::fmt;
use std::future::{poll_fn, Future};
use std::panic::{self, AssertUnwindSafe, Location};
use std::pin::{pin, Pin};
use std::sync::atomic::{AtomicBool as StdBool, Ordering::Relaxed};
use std::sync::Arc;
use std::task::{Context, Poll, Wake, Waker};

/// What wakes a task. Where its own thread does so while it polls, it only looks again.
struct Task {
    token: Token,
    thread: thread::ThreadId,
    is_woken_by_itself: StdBool,
}

impl Task {
    fn new() -> Arc<Task> {
        let thread = thread::current().id();
        Arc::new(Task { token: Token::new(), thread, is_woken_by_itself: StdBool::new(false) })
    }

    /// Waits for a wake-up. A task that woke itself lets others go, as `yield_now` does.
    fn wait(&self, place: Place) {
        if self.is_woken_by_itself.swap(false, Relaxed) {
            thread::look_at(place);
            return;
        }
        layer::polled();
        self.token.take_at(place);
        layer::woken();
    }
}

impl Wake for Task {
    #[track_caller]
    fn wake(self: Arc<Task>) {
        self.wake_by_ref();
    }

    #[track_caller]
    fn wake_by_ref(self: &Arc<Task>) {
        if thread::current().id() == self.thread {
            self.is_woken_by_itself.store(true, Relaxed);
        } else {
            self.token.give();
        }
    }
}

/// Polls a future in the calling thread until it is ready. A wait for a waker is two steps, in the
/// line of this call.
#[track_caller]
pub fn block_on<F: Future>(future: F) -> F::Output {
    let place = Place::of(Location::caller());
    let mut future = pin!(future);
    let task = Task::new();
    let waker = Waker::from(task.clone());
    loop {
        if let Poll::Ready(made) = future.as_mut().poll(&mut Context::from_waker(&waker)) {
            return made;
        }
        task.wait(place);
    }
}

/// What a task leaves, and who waits for it.
struct Left<T> {
    made: Option<Result<T, JoinError>>,
    waker: Option<Waker>,
}

struct Shared<T> {
    left: Mutex<Left<T>>,
    is_aborted: AtomicBool,
    /// Nobody has its handle.
    is_detached: StdBool,
    /// Wakes the task, once it polls.
    task: Mutex<Option<Waker>>,
}

impl<T> Shared<T> {
    #[track_caller]
    fn left(&self) -> MutexGuard<'_, Left<T>> {
        self.left.lock().unwrap_or_else(|poisoned| poisoned.into_inner())
    }

    #[track_caller]
    fn task(&self) -> MutexGuard<'_, Option<Waker>> {
        self.task.lock().unwrap_or_else(|poisoned| poisoned.into_inner())
    }
}

/// Why a task left nothing.
pub struct JoinError(Why);

enum Why {
    Aborted,
    Panicked(Box<dyn Any + Send + 'static>),
}

impl JoinError {
    /// Whether the task was aborted.
    pub fn is_cancelled(&self) -> bool {
        matches!(self.0, Why::Aborted)
    }

    /// Whether it panicked.
    pub fn is_panic(&self) -> bool {
        matches!(self.0, Why::Panicked(_))
    }

    /// What it panicked with.
    ///
    /// # Panics
    ///
    /// Where it was aborted.
    pub fn into_panic(self) -> Box<dyn Any + Send + 'static> {
        match self.0 {
            Why::Panicked(payload) => payload,
            Why::Aborted => panic!("the task was aborted and didn't panic"),
        }
    }
}

impl fmt::Debug for JoinError {
    fn fmt(&self, to: &mut fmt::Formatter<'_>) -> fmt::Result {
        to.write_str(if self.is_cancelled() { "JoinError::Aborted" } else { "JoinError::Panicked" })
    }
}

impl fmt::Display for JoinError {
    fn fmt(&self, to: &mut fmt::Formatter<'_>) -> fmt::Result {
        to.write_str(if self.is_cancelled() { "task was aborted" } else { "task panicked" })
    }
}

impl std::error::Error for JoinError {}

/// A task's name, before it is spawned.
#[derive(Debug, Default)]
pub struct Builder {
    name: Option<String>,
}

impl Builder {
    /// Without a name.
    pub fn new() -> Builder {
        Builder::default()
    }

    /// Names the task in reports, as a thread.
    pub fn name(mut self, name: &str) -> Builder {
        self.name = Some(name.to_owned());
        self
    }

    /// Spawns the task: a thread of the run, one step.
    ///
    /// # Panics
    ///
    /// Outside of runs, where std can't start a thread.
    #[track_caller]
    pub fn spawn<F>(self, future: F) -> JoinHandle<F::Output>
    where
        F: Future + Send + 'static,
        F::Output: Send + 'static,
    {
        let left = Left { made: None, waker: None };
        let shared = Arc::new(Shared {
            left: Mutex::new(left),
            is_aborted: AtomicBool::new(false),
            is_detached: StdBool::new(false),
            task: Mutex::new(None),
        });
        let (own, place) = (shared.clone(), Place::of(Location::caller()));
        let builder = match self.name {
            Some(name) => thread::Builder::new().name(name),
            None => thread::Builder::new(),
        };
        builder.spawn(move || own.run(future, place)).expect("failed to spawn thread");
        JoinHandle { shared }
    }
}

/// Spawns a task: a thread of the run, one step.
#[track_caller]
pub fn spawn<F>(future: F) -> JoinHandle<F::Output>
where
    F: Future + Send + 'static,
    F::Output: Send + 'static,
{
    Builder::new().spawn(future)
}

impl<T> Shared<T> {
    fn run<F: Future<Output = T>>(&self, future: F, place: Place) {
        let made = panic::catch_unwind(AssertUnwindSafe(|| self.polled(future, place)));
        let made = made.unwrap_or_else(|payload| {
            if self.is_detached.load(Relaxed) {
                panic::resume_unwind(payload);
            }
            Err(JoinError(Why::Panicked(payload)))
        });
        let mut left = self.left();
        left.made = Some(made);
        let waker = left.waker.take();
        drop(left);
        waker.into_iter().for_each(Waker::wake);
    }

    /// Polls the future until it is ready or aborted, and drops it.
    fn polled<F: Future<Output = T>>(&self, future: F, place: Place) -> Result<T, JoinError> {
        let task = Task::new();
        let waker = Waker::from(task.clone());
        *self.task() = Some(waker.clone());
        let mut future = pin!(future);
        loop {
            if self.is_aborted.load(SeqCst) {
                return Err(JoinError(Why::Aborted));
            }
            if let Poll::Ready(made) = future.as_mut().poll(&mut Context::from_waker(&waker)) {
                return Ok(made);
            }
            task.wait(place);
        }
    }
}

/// Waits for a task's end: a future. Where it is dropped the task goes on.
pub struct JoinHandle<T> {
    shared: Arc<Shared<T>>,
}

impl<T> JoinHandle<T> {
    /// The task is dropped before its next poll, and its handle gives an error.
    #[track_caller]
    pub fn abort(&self) {
        self.shared.is_aborted.store(true, SeqCst);
        let waker = self.shared.task().clone();
        waker.into_iter().for_each(Waker::wake);
    }

    /// Whether the task has ended: one step or two.
    #[track_caller]
    pub fn is_finished(&self) -> bool {
        self.shared.left().made.is_some()
    }
}

impl<T> Future for JoinHandle<T> {
    type Output = Result<T, JoinError>;

    #[track_caller]
    fn poll(self: Pin<&mut Self>, context: &mut Context<'_>) -> Poll<Self::Output> {
        let mut left = self.shared.left();
        match left.made.take() {
            Some(made) => Poll::Ready(made),
            None => {
                left.waker = Some(context.waker().clone());
                Poll::Pending
            }
        }
    }
}

impl<T> Drop for JoinHandle<T> {
    fn drop(&mut self) {
        self.shared.is_detached.store(true, Relaxed);
    }
}

impl<T> fmt::Debug for JoinHandle<T> {
    fn fmt(&self, to: &mut fmt::Formatter<'_>) -> fmt::Result {
        to.debug_struct("JoinHandle").finish_non_exhaustive()
    }
}

/// Lets other tasks go.
pub async fn yield_now() {
    let mut has_yielded = false;
    poll_fn(move |context| {
        if std::mem::replace(&mut has_yielded, true) {
            return Poll::Ready(());
        }
        context.waker().wake_by_ref();
        Poll::Pending
    })
    .await;
}

/// One of two.
#[derive(Clone, Copy, Debug, PartialEq, Eq)]
pub enum Either<A, B> {
    /// The first one.
    First(A),
    /// The second one.
    Second(B),
}

/// Waits for one of two futures, of which the first is polled first, and gives what it made with the
/// other one.
pub async fn select<A, B>(first: A, second: B) -> Either<(A::Output, B), (B::Output, A)>
where
    A: Future + Unpin,
    B: Future + Unpin,
{
    let (mut first, mut second) = (first, second);
    let made = poll_fn(|context| match Pin::new(&mut first).poll(context) {
        Poll::Ready(made) => Poll::Ready(Either::First(made)),
        Poll::Pending => Pin::new(&mut second).poll(context).map(Either::Second),
    });
    match made.await {
        Either::First(made) => Either::First((made, second)),
        Either::Second(made) => Either::Second((made, first)),
    }
}

/// Waits for two futures, each of which is polled until it is ready.
pub async fn join<A: Future, B: Future>(first: A, second: B) -> (A::Output, B::Output) {
    let (mut first, mut second) = (pin!(first), pin!(second));
    let (mut of_first, mut of_second) = (None, None);
    poll_fn(|context| {
        of_first = of_first.take().or_else(|| ready(first.as_mut().poll(context)));
        of_second = of_second.take().or_else(|| ready(second.as_mut().poll(context)));
        match (of_first.take(), of_second.take()) {
            (Some(first), Some(second)) => Poll::Ready((first, second)),
            (first, second) => {
                (of_first, of_second) = (first, second);
                Poll::Pending
            }
        }
    })
    .await
}

fn ready<T>(poll: Poll<T>) -> Option<T> {
    match poll {
        Poll::Ready(made) => Some(made),
        Poll::Pending => None,
    }
}
