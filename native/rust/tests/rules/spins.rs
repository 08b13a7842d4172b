//! Threads that wait by looking again and again.

use super::{few, filled};
use pct::sync::atomic::{AtomicBool, AtomicPtr, AtomicU32, Ordering::SeqCst};
use pct::sync::{Arc, Mutex};
use pct::{hint, thread, Config, Schedule};
use std::time::Duration;

const SOURCE: &str = include_str!("spins.rs");

fn fails_with(test: impl pct::Test, texts: &[&str]) {
    super::fails_with(SOURCE, test, texts);
}

#[test]
fn a_spinning_thread_waits_for_a_change() {
    for wait in
        [hint::spin_loop as fn(), thread::yield_now, || thread::sleep(Duration::from_secs(3600))]
    {
        pct::check_with(few(), move || {
            let (flag, other) =
                (Arc::new(AtomicBool::new(false)), Arc::new(AtomicBool::new(false)));
            let (set, back) = (flag.clone(), other.clone());
            let thread = thread::spawn(move || {
                set.store(true, SeqCst);
                while !back.load(SeqCst) {
                    wait();
                }
            });
            while !flag.load(SeqCst) {
                wait();
            }
            other.store(true, SeqCst);
            thread.join().unwrap();
        });
    }
}

#[test]
fn a_change_that_the_book_does_not_know_wakes_too() {
    pct::check_with(few(), || {
        let pointer = Arc::new(AtomicPtr::new(std::ptr::null_mut::<u8>()));
        let set = pointer.clone();
        let thread = thread::spawn(move || set.store(std::ptr::dangling_mut(), SeqCst));
        while pointer.load(SeqCst).is_null() {
            hint::spin_loop();
        }
        while !thread.is_finished() {
            hint::spin_loop();
        }
        thread.join().unwrap();
    });
}

#[test]
fn where_all_wait_so_it_is_a_livelock() {
    fails_with(
        || {
            let flag = Arc::new(AtomicBool::new(false));
            let other = flag.clone();
            let _thread = thread::spawn(move || {
                while !other.load(SeqCst) {
                    hint::spin_loop(); //: spins
                }
            });
            while !flag.load(SeqCst) {
                thread::yield_now(); //: yields
            }
        },
        &[
            "a livelock: main waits at tests/rules/spins.rs:{yields} for a change that nobody \
                makes; t1 waits at tests/rules/spins.rs:{spins} for a \
             change that nobody makes",
            "down spin_main",
        ],
    );
}

#[test]
fn a_lone_sleep_passes() {
    let run = pct::run(Config::default(), &Schedule::declared(), || {
        thread::sleep(Duration::from_secs(3600));
        let mutex = Mutex::new(1);
        *mutex.lock().unwrap() += 1;
        thread::sleep(Duration::from_secs(3600));
    });
    let asks: Vec<String> = run.steps().into_iter().map(|step| step.ask).collect();
    assert_eq!(asks, ["yield", "lock m0", "unlock m0", "yield"]);
}

#[test]
fn a_loop_without_a_wait_is_cut_with_its_line() {
    let config = Config { limit: 100, ..few() };
    let told = super::text_of(|| {
        pct::check_with(config, || {
            let flag = AtomicU32::new(0);
            while flag.load(SeqCst) == 0 {} //: round
        });
    });
    assert!(
        told.starts_with(&filled(
            SOURCE,
            "cut after 100 steps, the last one by main at \
            tests/rules/spins.rs:{round}. A loop that waits for another thread has to say \
             so: std::hint::spin_loop, thread::yield_now or thread::sleep in it, taken from pct"
        )),
        "{told}"
    );
}

#[test]
fn steps_of_ones_own() {
    let run = pct::run(Config::default(), &Schedule::declared(), || {
        pct::step();
        pct::holds(true);
        pct::holds(false); //: fails
    });
    let asks: Vec<String> = run.steps().into_iter().map(|step| step.ask).collect();
    assert_eq!(
        (asks, run.verdict()),
        (
            vec!["yield".into(), "check 1".into(), "check 0".into()],
            filled(SOURCE, "failed main {fails}")
        )
    );
    let alone = || {
        pct::holds(false); //: alone
    };
    fails_with(alone, &["thread main at tests/rules/spins.rs:{alone}: pct::holds(false)"]);
}
