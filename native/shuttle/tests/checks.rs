//! What the checks find, and what they let pass.
#![allow(missing_docs)]

use shuttle::future::block_on;
use shuttle::rand::{thread_rng, Rng};
use shuttle::sync::atomic::{AtomicUsize, Ordering::SeqCst};
use shuttle::sync::{mpsc, Arc, Mutex};
use shuttle::{current, thread};
use std::panic::{catch_unwind, UnwindSafe};

fn said(check: impl FnOnce() + UnwindSafe) -> String {
    match catch_unwind(check) {
        Ok(()) => String::new(),
        Err(payload) => payload.downcast_ref::<String>().expect("a text").clone(),
    }
}

/// Two threads add one each, by a load and a store.
fn adds() {
    let n = Arc::new(AtomicUsize::new(0));
    let add = |n: &AtomicUsize| n.store(n.load(SeqCst) + 1, SeqCst);
    let other = n.clone();
    let adder = thread::spawn(move || add(&other));
    add(&n);
    adder.join().unwrap();
    assert_eq!(n.load(SeqCst), 2);
}

#[test]
fn each_check_finds_a_lost_update() {
    let all = [
        said(|| shuttle::check_random(adds, 1000)),
        said(|| shuttle::check_random_with_seed(adds, 7, 1000)),
        said(|| shuttle::check_pct(adds, 1000, 2)),
        said(|| shuttle::check_dfs(adds, Some(1000))),
    ];
    assert!(all.iter().all(|said| said.contains("left: 1\n right: 2")), "{all:?}");
}

#[test]
fn a_written_trace_fails_again() {
    let said_first = said(|| shuttle::check_pct(adds, 1000, 2));
    let written = said_first.lines().find_map(|line| line.strip_prefix("written: "));
    let trace = written.expect("a trace").split(", ").next().unwrap().to_owned();
    let again = said(move || shuttle::replay(adds, &trace));
    assert!(again.contains("left: 1\n right: 2"), "{again}");
}

#[test]
fn what_is_right_passes() {
    shuttle::check_random(
        || {
            let (tell, told) = mpsc::channel();
            let count = Arc::new(Mutex::new(0));
            let other = count.clone();
            let adder = thread::spawn(move || {
                *other.lock().unwrap() += 1;
                tell.send(thread_rng().gen_range(3..5)).unwrap();
            });
            assert!((3..5).contains(&told.recv().unwrap()));
            assert!(current::context_switches() > 0);
            adder.join().unwrap();
            assert_eq!(*count.lock().unwrap(), 1);
            assert_eq!(block_on(async { 7 }), 7);
            std::mem::forget(Arc::new(1));
        },
        300,
    );
}

#[test]
fn iterations_are_the_number_of_runs() {
    static RUNS: std::sync::atomic::AtomicUsize = std::sync::atomic::AtomicUsize::new(0);
    let count = || {
        RUNS.fetch_add(1, std::sync::atomic::Ordering::Relaxed);
    };
    shuttle::check_random(count, 10);
    shuttle::check_pct(count, 2000, 3);
    assert_eq!(RUNS.load(std::sync::atomic::Ordering::Relaxed), 2010);
}

#[test]
fn a_seed_draws_other_numbers() {
    static SEEN: std::sync::Mutex<Vec<u64>> = std::sync::Mutex::new(Vec::new());
    shuttle::check_pct(|| SEEN.lock().unwrap().push(thread_rng().gen()), 50, 1);
    let mut seen = SEEN.lock().unwrap().clone();
    seen.sort_unstable();
    seen.dedup();
    assert!(seen.len() > 40, "{} numbers", seen.len());
}
