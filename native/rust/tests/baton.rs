//! One thread at a time: whatever the threads of a run do between their asks, no two of them do it
//! at once, and a run is the same whenever it is made again, on one processor and on several,
//! beside load.
#![allow(missing_docs)]

use pct::sync::atomic::{AtomicU64, Ordering::SeqCst};
use pct::sync::{Arc, Condvar, Mutex, RwLock};
use pct::{thread, Config, Schedule};
use std::cell::RefCell;
use std::sync::atomic::AtomicBool;
use std::sync::Mutex as StdMutex;
use std::time::Duration;

/// What a run keeps: whether somebody is between two asks, and who was, in order. Both are std's.
#[derive(Default)]
struct Watch {
    is_busy: AtomicBool,
    log: StdMutex<Vec<u64>>,
}

impl Watch {
    /// Between an answer and the next ask: 0 to 50 microseconds.
    fn between(&self, number: u64) {
        assert!(!self.is_busy.swap(true, SeqCst), "two threads at once");
        self.log.lock().unwrap().push(number);
        std::thread::sleep(Duration::from_micros(number % 51));
        self.is_busy.store(false, SeqCst);
    }
}

/// Goes on in a thread-local's destructor, with a step and without.
struct AtEnd(std::sync::Arc<Watch>, Arc<AtomicU64>, u64);

impl Drop for AtEnd {
    fn drop(&mut self) {
        self.0.between(self.2);
        self.1.fetch_add(1, SeqCst);
        self.0.between(self.2 + 1);
    }
}

thread_local! {
    static AT_END: RefCell<Option<AtEnd>> = const { RefCell::new(None) };
}

/// The next number of a small generator.
fn drawn(state: &mut u64) -> u64 {
    *state = state.wrapping_mul(6364136223846793005).wrapping_add(1442695040888963407);
    *state >> 33
}

/// What the threads of a program share.
#[derive(Default)]
struct Shared {
    atomics: [AtomicU64; 2],
    mutex: Mutex<u64>,
    condition: Condvar,
    lock: RwLock<u64>,
}

impl Shared {
    /// One operation, which a number says.
    fn operate(&self, value: u64) {
        match value % 7 {
            0 => drop(self.atomics[0].fetch_add(value, SeqCst)),
            1 => self.atomics[1].store(value, SeqCst),
            2 => drop(self.atomics[1].swap(value, SeqCst)),
            3 => *self.mutex.lock().unwrap() += 1,
            4 => self.condition.notify_one(),
            5 => *self.lock.write().unwrap() += self.atomics[0].load(SeqCst) % 2,
            _ => drop(self.mutex.try_lock()),
        }
    }
}

/// A program by a number: two or three threads with two to five operations each.
fn program(number: u64, watch: &std::sync::Arc<Watch>) {
    let (shared, counter) = (Arc::new(Shared::default()), Arc::new(AtomicU64::new(0)));
    let mut draw = number;
    let threads: Vec<_> = (0..2 + drawn(&mut draw) % 2)
        .map(|_| {
            let mut draw = drawn(&mut draw);
            let (shared, counter, watch) = (shared.clone(), counter.clone(), watch.clone());
            thread::spawn(move || {
                AT_END.with(|at_end| {
                    *at_end.borrow_mut() = Some(AtEnd(watch.clone(), counter, draw))
                });
                for _ in 0..2 + drawn(&mut draw) % 4 {
                    let value = drawn(&mut draw);
                    watch.between(value);
                    shared.operate(value);
                }
            })
        })
        .collect();
    watch.between(number);
    for thread in threads {
        thread.join().unwrap();
        watch.between(1);
    }
    assert!(counter.load(SeqCst) >= 2);
}

/// The trace and the log of a program's run by a seed.
fn made(number: u64, pin: bool) -> (String, Vec<u64>) {
    let last: std::sync::Arc<StdMutex<Vec<u64>>> = std::sync::Arc::default();
    let keep = last.clone();
    let run =
        pct::run(Config { pin, ..Config::default() }, &Schedule::seed(number, 3), move || {
            let watch = std::sync::Arc::new(Watch::default());
            program(number, &watch);
            *keep.lock().unwrap() = watch.log.lock().unwrap().clone();
        });
    assert!(run.passed(), "{}", run.lanes());
    let log = last.lock().unwrap().clone();
    (run.trace(), log)
}

const PROGRAMS: u64 = 1000;

/// Pinned to one processor, and then on all of them beside threads that burn time.
#[test]
fn programs_are_the_same_whenever_they_are_run() {
    let first: Vec<_> = (1..=PROGRAMS).map(|number| made(number, true)).collect();
    static ENDS: AtomicBool = AtomicBool::new(false);
    let load: Vec<_> = (0..2)
        .map(|_| {
            std::thread::spawn(|| {
                while !ENDS.load(SeqCst) {
                    std::hint::spin_loop()
                }
            })
        })
        .collect();
    let again = (1..=PROGRAMS).map(|number| made(number, false)).collect::<Vec<_>>();
    ENDS.store(true, SeqCst);
    load.into_iter().for_each(|thread| thread.join().unwrap());
    for (number, (one, other)) in first.iter().zip(&again).enumerate() {
        assert!(one == other, "program {} differs:\n{}\n{}", number + 1, one.0, other.0);
    }
}

/// The atomics have different first values and are used first in an order that depends on the
/// schedule, so that each runner mends its deal on the way.
#[test]
fn many_runs_are_the_same_by_jobs_and_by_kept_threads() {
    let test = || {
        let (n, other) = (Arc::new(AtomicU64::new(0)), Arc::new(AtomicU64::new(5)));
        let m = Arc::new(Mutex::new(0));
        let early = other.clone();
        let first = thread::spawn(move || early.fetch_add(1, SeqCst));
        let adders: Vec<_> = (0..2)
            .map(|_| {
                let (n, m) = (n.clone(), m.clone());
                thread::spawn(move || {
                    n.fetch_add(1, SeqCst);
                    *m.lock().unwrap() += 1;
                })
            })
            .collect();
        adders.into_iter().for_each(|adder| adder.join().unwrap());
        assert_eq!(
            *m.lock().unwrap() + n.load(SeqCst) + first.join().unwrap() + other.load(SeqCst),
            15
        );
    };
    let by = |jobs, keep_threads| {
        let config = Config {
            seeds: 200,
            depth: Some(3),
            jobs,
            keep_threads,
            sum: true,
            ..Config::default()
        };
        let campaign = pct::campaign(config, test);
        (campaign.sum, campaign.text)
    };
    let first = by(1, false);
    assert!(first.0 != 0 && first.1.ends_with("groups 0\n"));
    assert_eq!(first, by(1, true));
    assert_eq!(first, by(3, false));
    assert_eq!(first, by(3, true));
}
