//! What `model` finds, and what it lets pass.
#![allow(missing_docs)]
#![allow(unsafe_code)]

use loom::cell::UnsafeCell;
use loom::future::{block_on, AtomicWaker};
use loom::model::Builder;
use loom::sync::atomic::{AtomicBool, AtomicUsize, Ordering::*};
use loom::sync::{Arc, Mutex, Notify};
use loom::thread;
use std::future::poll_fn;
use std::panic::{catch_unwind, AssertUnwindSafe};
use std::task::Poll;

/// What a model says of its failure; nothing where it passes.
fn said(test: impl Fn() + Send + Sync + 'static) -> String {
    let mut builder = Builder::new();
    builder.max_permutations = Some(300);
    match catch_unwind(AssertUnwindSafe(|| builder.check(test))) {
        Ok(()) => String::new(),
        Err(payload) => payload.downcast_ref::<String>().expect("a text").clone(),
    }
}

/// Two threads of which the first writes a cell and sets a flag, and the second reads where it is set.
fn published(set: std::sync::atomic::Ordering, get: std::sync::atomic::Ordering) -> String {
    said(move || {
        let shared = Arc::new((UnsafeCell::new(0), AtomicBool::new(false)));
        let other = shared.clone();
        let writer = thread::spawn(move || {
            other.0.with_mut(|value| unsafe { *value = 1 });
            other.1.store(true, set);
        });
        if shared.1.load(get) {
            assert_eq!(shared.0.with(|value| unsafe { *value }), 1);
        }
        writer.join().unwrap();
    })
}

#[test]
fn orderings_that_are_too_weak_are_races() {
    assert_eq!(published(Release, Acquire), "");
    assert_eq!(published(SeqCst, SeqCst), "");
    for (set, get) in [(Relaxed, Acquire), (Release, Relaxed)] {
        let said = published(set, get);
        assert!(said.contains("a data race: it reads the cell that t1 changed at"), "{said}");
        assert!(said.contains("tests/model.rs:31, and nothing orders the two"), "{said}");
    }
}

#[test]
fn accesses_that_overlap_are_races() {
    let said = said(|| {
        let cell = UnsafeCell::new(0);
        let read = cell.get();
        cell.with_mut(|_| ());
        drop(read);
    });
    assert!(said.contains("a data race: it changes the cell while"), "{said}");
}

#[test]
fn a_dropped_handle_comes_before_the_last_one() {
    let passes = said(|| {
        let shared = Arc::new(UnsafeCell::new(0));
        let other = shared.clone();
        let writer = thread::spawn(move || other.with_mut(|value| unsafe { *value = 1 }));
        if let Ok(cell) = Arc::try_unwrap(shared) {
            assert_eq!(cell.with(|value| unsafe { *value }), 1);
        }
        drop(writer);
    });
    assert_eq!(passes, "");
}

#[test]
fn leaks_fail_where_they_were_made() {
    let (line, arc) = (line!(), said(|| std::mem::forget(Arc::new(1))));
    assert!(
        arc.contains(&format!("tests/model.rs:{line}: a leak: an Arc that is made here is left")),
        "{arc}"
    );
    let track = said(|| std::mem::forget(loom::alloc::Track::new(1)));
    assert!(track.contains("a leak: a Track that is made here"), "{track}");
    let block = said(|| {
        let layout = loom::alloc::Layout::new::<u64>();
        let _left = unsafe { loom::alloc::alloc(layout) };
    });
    assert!(block.contains("a leak: a block of memory that is made here"), "{block}");
    let raw = said(|| {
        let raw = Arc::into_raw(Arc::new(1));
        unsafe { Arc::increment_strong_count(raw) };
        drop(unsafe { Arc::from_raw(raw) });
    });
    assert!(raw.contains("a leak: an Arc"), "{raw}");
}

#[test]
fn what_is_given_back_is_no_leak() {
    let passes = said(|| {
        let raw = Arc::into_raw(Arc::new(1));
        unsafe { Arc::increment_strong_count(raw) };
        drop(unsafe { Arc::from_raw(raw) });
        unsafe { Arc::decrement_strong_count(raw) };
        let layout = loom::alloc::Layout::new::<u64>();
        let block = unsafe { loom::alloc::alloc(layout) };
        unsafe { loom::alloc::dealloc(block, layout) };
        let of_trait: Arc<dyn std::fmt::Debug> = Arc::from_std(std::sync::Arc::new(7));
        assert_eq!(format!("{of_trait:?}"), "7");
        // What a thread that nobody joins has is dropped before the end, too.
        let kept = Arc::new(1);
        thread::spawn(move || drop(kept));
        assert_eq!(loom::alloc::Track::new(3).into_inner(), 3);
    });
    assert_eq!(passes, "");
}

#[test]
fn panics_are_as_stds() {
    let passes = said(|| {
        let caught = catch_unwind(|| panic!("caught"));
        assert!(caught.is_err());
        assert!(thread::spawn(|| panic!("joined")).join().is_err());
    });
    assert_eq!(passes, "");
    let fails = said(|| assert_eq!(1 + 1, 3, "sums"));
    assert!(fails.contains("panicked at") && fails.contains("sums"), "{fails}");
}

loom::lazy_static! {
    static ref COUNT: Mutex<Vec<usize>> = Mutex::new(Vec::new());
}

loom::thread_local! {
    static OWN: AtomicUsize = AtomicUsize::new(7);
}

#[test]
fn statics_are_made_anew_in_each_run() {
    let passes = said(|| {
        let other = thread::spawn(|| {
            COUNT.lock().unwrap().push(1);
            OWN.with(|own| own.fetch_add(1, SeqCst))
        });
        COUNT.lock().unwrap().push(2);
        assert_eq!(OWN.with(|own| own.fetch_add(1, SeqCst)), 7);
        assert_eq!(other.join().unwrap(), 7);
        assert_eq!(COUNT.lock().unwrap().len(), 2);
    });
    assert_eq!(passes, "");
}

#[test]
fn a_local_is_dropped_before_its_thread_has_ended() {
    struct Tells(Arc<AtomicUsize>);
    impl Drop for Tells {
        fn drop(&mut self) {
            self.0.fetch_add(1, SeqCst);
        }
    }
    loom::thread_local! {
        static KEPT: std::cell::RefCell<Option<Tells>> = std::cell::RefCell::new(None);
    }
    let passes = said(|| {
        let count = Arc::new(AtomicUsize::new(0));
        let told = count.clone();
        let keep = move || KEPT.with(|kept| *kept.borrow_mut() = Some(Tells(told)));
        thread::spawn(keep).join().unwrap();
        assert_eq!(count.load(SeqCst), 1);
    });
    assert_eq!(passes, "");
}

#[test]
fn a_notification_that_comes_first_isnt_lost() {
    let passes = said(|| {
        let notify = Arc::new(Notify::new());
        let other = notify.clone();
        let notifier = thread::spawn(move || other.notify());
        notify.wait();
        notifier.join().unwrap();
    });
    assert_eq!(passes, "");
}

/// Waits for a flag by a waker; where it doesn't look again once that is registered it is wrong.
fn awaited(looks_again: bool) -> String {
    said(move || {
        let shared = Arc::new((AtomicBool::new(false), AtomicWaker::new()));
        let other = shared.clone();
        let setter = thread::spawn(move || {
            other.0.store(true, SeqCst);
            other.1.wake();
        });
        block_on(poll_fn(|context| {
            if shared.0.load(SeqCst) {
                return Poll::Ready(());
            }
            shared.1.register_by_ref(context.waker());
            if looks_again && shared.0.load(SeqCst) {
                return Poll::Ready(());
            }
            Poll::Pending
        }));
        setter.join().unwrap();
    })
}

#[test]
fn a_lost_wake_up_names_where_the_task_was_polled_last() {
    assert_eq!(awaited(true), "");
    let said = awaited(false);
    assert!(said.contains("a deadlock: main waits at tests/model.rs:196 for a waker"), "{said}");
    assert!(said.contains("its future was polled last until tests/model.rs:200"), "{said}");
}

#[test]
fn plain_uses_of_atomics_are_looked_at() {
    let passes = said(|| {
        let mut value = AtomicUsize::new(1);
        value.with_mut(|value| *value += 1);
        assert_eq!(unsafe { value.unsync_load() }, 2);
        assert_eq!(value.load(Relaxed), 2);
    });
    assert_eq!(passes, "");
    let races = said(|| {
        let value = Arc::new(AtomicUsize::new(1));
        let other = value.clone();
        let adder = thread::spawn(move || other.store(2, Relaxed));
        let _read = unsafe { value.unsync_load() };
        adder.join().unwrap();
    });
    assert!(races.contains("a data race: it takes an atomic's value as that of plain memory, or another thread did"), "{races}");
}

#[test]
fn a_spin_for_another_thread_passes() {
    let passes = said(|| {
        let is_set = Arc::new(AtomicBool::new(false));
        let other = is_set.clone();
        let setter = thread::spawn(move || other.store(true, Release));
        while !is_set.load(Acquire) {
            loom::hint::spin_loop();
        }
        setter.join().unwrap();
    });
    assert_eq!(passes, "");
}

#[test]
fn max_permutations_is_the_number_of_runs() {
    static RUNS: std::sync::atomic::AtomicUsize = std::sync::atomic::AtomicUsize::new(0);
    let mut builder = Builder::new();
    builder.max_permutations = Some(1);
    builder.check(|| {
        RUNS.fetch_add(1, std::sync::atomic::Ordering::Relaxed);
    });
    assert_eq!(RUNS.load(std::sync::atomic::Ordering::Relaxed), 1);
}
