//! Futures under test: what is right passes, and what is wrong is found and named.
#![allow(missing_docs)]

use pct::future::{block_on, join, select, spawn, yield_now, Builder, Either, JoinHandle};
use pct::sync::atomic::{AtomicBool, AtomicUsize, Ordering::SeqCst};
use pct::sync::{Arc, Mutex};
use pct::{check_with, Config, Panics};
use std::future::{pending, Future};
use std::panic::{catch_unwind, AssertUnwindSafe};
use std::pin::Pin;
use std::task::{Context, Poll, Waker};

/// What a check says of its failure; nothing where it passes.
fn said_with(config: Config, test: impl Fn() + Send + Sync + 'static) -> String {
    let config = Config { seeds: 300, name: Some("futures".into()), ..config };
    match catch_unwind(AssertUnwindSafe(|| check_with(config, test))) {
        Ok(()) => String::new(),
        Err(payload) => payload.downcast_ref::<String>().expect("a text").clone(),
    }
}

fn said(test: impl Fn() + Send + Sync + 'static) -> String {
    said_with(Config::default(), test)
}

struct Inner<T> {
    value: Mutex<Option<T>>,
    waker: Mutex<Option<Waker>>,
    is_closed: AtomicBool,
}

/// The sender of one value, which closes where it is dropped.
struct Sender<T>(Arc<Inner<T>>);

/// The receiver. Where it doesn't look again once its waker is registered it is wrong.
struct Receiver<T> {
    inner: Arc<Inner<T>>,
    looks_again: bool,
}

fn oneshot<T>(looks_again: bool) -> (Sender<T>, Receiver<T>) {
    let (value, waker) = (Mutex::new(None), Mutex::new(None));
    let inner = Arc::new(Inner { value, waker, is_closed: AtomicBool::new(false) });
    (Sender(inner.clone()), Receiver { inner, looks_again })
}

impl<T> Sender<T> {
    fn send(self, value: T) {
        *self.0.value.lock().unwrap() = Some(value);
    }
}

impl<T> Drop for Sender<T> {
    fn drop(&mut self) {
        self.0.is_closed.store(true, SeqCst);
        let waker = self.0.waker.lock().unwrap().take();
        waker.into_iter().for_each(Waker::wake);
    }
}

impl<T> Receiver<T> {
    fn look(&self) -> Poll<Option<T>> {
        let is_closed = self.inner.is_closed.load(SeqCst);
        match self.inner.value.lock().unwrap().take() {
            None if !is_closed => Poll::Pending,
            found => Poll::Ready(found),
        }
    }
}

impl<T> Future for Receiver<T> {
    type Output = Option<T>;

    fn poll(self: Pin<&mut Self>, context: &mut Context<'_>) -> Poll<Option<T>> {
        if let found @ Poll::Ready(_) = self.look() {
            return found;
        }
        *self.inner.waker.lock().unwrap() = Some(context.waker().clone());
        if self.looks_again {
            self.look()
        } else {
            Poll::Pending
        }
    }
}

#[test]
fn a_value_and_an_end_come() {
    let passes = said(|| {
        let (sender, receiver) = oneshot(true);
        let task = spawn(async move { sender.send(7) });
        assert_eq!(block_on(receiver), Some(7));
        block_on(task).unwrap();
        let (sender, receiver) = oneshot::<u8>(true);
        drop(spawn(async move { drop(sender) }));
        assert_eq!(block_on(receiver), None);
    });
    assert_eq!(passes, "");
}

#[test]
fn a_lost_wake_up_is_a_deadlock_that_names_the_task() {
    let said = said(|| {
        let (sender, receiver) = oneshot(false);
        let waits = Builder::new().name("Waits").spawn(receiver);
        sender.send(7);
        assert_eq!(block_on(waits).unwrap(), Some(7));
    });
    assert!(said.starts_with("a deadlock: "), "{said}");
    assert!(said.contains("Waits waits at tests/futures.rs:105 for a waker"), "{said}");
    assert!(said.contains("was polled last until tests/futures.rs:78"), "{said}");
}

#[test]
fn two_are_selected_and_joined() {
    let passes = said(|| {
        let ((first, of_first), (second, of_second)) = (oneshot(true), oneshot(true));
        let tasks = (
            spawn(async move { first.send(1) }),
            spawn(async move {
                yield_now().await;
                second.send(2);
            }),
        );
        let found = block_on(async move {
            match select(of_first, of_second).await {
                Either::First((found, rest)) => (found, rest.await),
                Either::Second((found, rest)) => (rest.await, found),
            }
        });
        assert_eq!(found, (Some(1), Some(2)));
        let (first, second) = block_on(join(tasks.0, tasks.1));
        assert!(first.is_ok() && second.is_ok());
    });
    assert_eq!(passes, "");
}

#[test]
fn a_select_that_loses_what_came_is_found() {
    let said = said(|| {
        let ((first, of_first), (second, of_second)) = (oneshot(true), oneshot(true));
        let tasks = (spawn(async move { first.send(1) }), spawn(async move { second.send(2) }));
        let found = block_on(async move {
            match select(of_first, of_second).await {
                Either::First((found, _)) | Either::Second((found, _)) => found,
            }
        });
        assert_eq!(found, Some(1));
        drop(tasks);
    });
    assert!(said.contains("left: Some(2)"), "{said}");
}

#[test]
fn an_aborted_task_is_dropped_and_gives_an_error() {
    let passes = said(|| {
        let (sender, receiver) = oneshot::<u8>(true);
        let task: JoinHandle<()> = spawn(async move {
            let _kept = sender;
            pending().await
        });
        task.abort();
        assert_eq!(block_on(receiver), None);
        let error = block_on(task).unwrap_err();
        assert!(error.is_cancelled() && !error.is_panic());
    });
    assert_eq!(passes, "");
}

#[test]
fn a_panic_of_a_task_is_its_handles_error() {
    let as_std = || Config { panics: Panics::AsStd, ..Config::default() };
    let passes = said_with(as_std(), || {
        let error = block_on(spawn(async { panic!("of a task") })).unwrap_err();
        assert!(error.is_panic());
        assert_eq!(error.into_panic().downcast_ref::<&str>(), Some(&"of a task"));
    });
    assert_eq!(passes, "");
    let lost = said_with(as_std(), || {
        let has_begun = Arc::new(AtomicUsize::new(0));
        let begins = has_begun.clone();
        drop(spawn(async move {
            while begins.load(SeqCst) == 0 {
                yield_now().await;
            }
            panic!("that nobody sees")
        }));
        has_begun.store(1, SeqCst);
    });
    assert!(lost.contains("that nobody sees"), "{lost}");
}

#[test]
fn a_task_that_yields_lets_the_others_go() {
    let passes = said(|| {
        let is_set = Arc::new(AtomicBool::new(false));
        let sets = is_set.clone();
        let task = spawn(async move { sets.store(true, SeqCst) });
        block_on(async {
            while !is_set.load(SeqCst) {
                yield_now().await;
            }
        });
        block_on(task).unwrap();
    });
    assert_eq!(passes, "");
}

#[test]
fn outside_of_runs_tasks_are_threads_of_std() {
    let (sender, receiver) = oneshot(true);
    let task = spawn(async move { sender.send(7) });
    assert_eq!(block_on(receiver), Some(7));
    block_on(task).unwrap();
}
