//! How runs end.

use super::{failure, few, filled, text_of};
use pct::sync::atomic::{AtomicU32, Ordering::SeqCst};
use pct::sync::{Arc, Condvar, Mutex, RwLock};
use pct::{thread, Config, Panics, Schedule};
use std::cell::RefCell;
use std::panic::{catch_unwind, AssertUnwindSafe};
use std::time::Duration;

const SOURCE: &str = include_str!("ends.rs");

fn fails_with(test: impl pct::Test, texts: &[&str]) {
    super::fails_with(SOURCE, test, texts);
}

#[test]
fn a_failure_is_told_with_its_place_count_lanes_files_and_line() {
    let told = failure(|| {
        let n = Arc::new(AtomicU32::new(0));
        let other = n.clone();
        let thread = thread::spawn(move || other.store(1, SeqCst)); //: spawned
        assert_eq!(n.load(SeqCst), 0, "the other one was first"); //: asserted
        thread.join().unwrap();
    });
    let lines: Vec<&str> = told.lines().collect();
    assert!(
        lines[0].starts_with(&filled(
            SOURCE,
            "thread main panicked at tests/rules/ends.rs:{asserted}: assertion `left == right` \
                failed"
        )),
        "{told}"
    );
    for text in [
        "failed in ",
        " seeds that were run\n",
        "the shortest: seed ",
        " at depth 1 (n 2, k ",
        "start t1 = 0 ends.rs:{spawned}",
        "check 0 = 0 ends.rs:{asserted}",
        "written: ",
        ".trace, ",
        ".json\n",
        "again: PCT_REPLAY=",
        " -- --exact ends::a_failure_is_told_with_its_place_count_lanes_files_and_line \
            --nocapture\n",
        " threads of failing runs stay parked",
    ] {
        let text = filled(SOURCE, text);
        assert!(told.contains(&text), "no {text:?} in:\n{told}");
    }
}

#[test]
fn a_check_goes_on_for_twenty_failing_runs() {
    fails_with(
        || assert!(pct::random() % 2 == 7),
        &[
            "failed in declared order, and in 20 of the 20 seeds that were run",
            "declared order (n 1), 1 steps",
        ],
    );
}

/// Each run sleeps for real, so that two seconds end the check before twenty failures do.
#[test]
fn a_check_goes_on_for_two_seconds() {
    let told = failure(|| {
        std::thread::sleep(Duration::from_millis(250));
        pct::holds(false);
    });
    let count = told
        .lines()
        .find_map(|line| line.strip_prefix("failed in declared order, and in "))
        .unwrap();
    let (failed, seeds) =
        count.strip_suffix(" seeds that were run").unwrap().split_once(" of the ").unwrap();
    assert!(failed == seeds && (1..=8).contains(&failed.parse::<u32>().unwrap()), "{told}");
}

#[test]
fn the_shortest_failing_run_is_told() {
    let told = failure(|| {
        (0..pct::random() % 4).for_each(|_| pct::step());
        pct::holds(false);
    });
    assert!(
        told.contains(
            "failed in declared order, and in 20 of the 20 seeds that were run\nthe \
        shortest: seed "
        ),
        "{told}"
    );
    assert!(told.contains(", 1 steps, order main\n"), "{told}");
}

/// Runs that are made at once are taken in the order of their seeds.
#[test]
fn a_check_by_jobs_tells_the_same() {
    let told = |jobs| {
        let config = Config { jobs, name: Some(format!("by {jobs} jobs")), ..Config::default() };
        let text = text_of(|| {
            pct::check_with(config, || {
                let n = Arc::new(AtomicU32::new(0));
                let other = n.clone();
                let thread = thread::spawn(move || other.store(other.load(SeqCst) + 1, SeqCst));
                n.store(n.load(SeqCst) + 1, SeqCst);
                thread.join().unwrap();
                assert_eq!(n.load(SeqCst), 2);
            })
        });
        text.split("written: ").next().unwrap().to_owned()
    };
    let one = told(1);
    assert!(one.contains("failed in 20 of the ") && one.contains("the shortest: seed "), "{one}");
    assert_eq!(one, told(3));
}

/// The run in declared order starts two threads, others a third one: from then on all orders have
/// three.
#[test]
fn a_check_begins_again_with_one_more_thread() {
    let told = failure(|| {
        let flag = Arc::new(AtomicU32::new(0));
        let other = flag.clone();
        let first = thread::spawn(move || other.store(1, SeqCst));
        if flag.load(SeqCst) == 1 {
            thread::spawn(|| ()).join().unwrap();
            pct::holds(false);
        }
        first.join().unwrap();
    });
    assert!(told.contains(" at depth 1 (n 3, k 5), "), "{told}");
}

#[test]
fn nothing_is_unwound() {
    struct Tells(std::sync::Arc<std::sync::atomic::AtomicU32>);
    impl Drop for Tells {
        fn drop(&mut self) {
            self.0.fetch_add(1, SeqCst);
        }
    }
    let drops = std::sync::Arc::new(std::sync::atomic::AtomicU32::new(0));
    let in_run = drops.clone();
    fails_with(
        move || {
            let (mutex, drops) = (Arc::new(Mutex::new(())), in_run.clone());
            let guard = mutex.lock().unwrap();
            let other = mutex.clone();
            let thread = thread::spawn(move || {
                let _tells = Tells(drops);
                drop(other.lock().unwrap()); //: blocked
            });
            thread.join().unwrap(); //: joining
            drop(guard);
        },
        &["a deadlock: main waits at tests/rules/ends.rs:{joining} for the end of t1; t1 waits at \
            tests/rules/ends.rs:{blocked} for the mutex m0",
            "No time passes in a run, so a timed wait doesn't end it",
            "44 threads of failing runs stay parked"],
    );
    assert_eq!(drops.load(SeqCst), 0);
}

#[test]
fn a_panic_fails_the_run_whoever_catches_it() {
    fails_with(
        || {
            let caught = || catch_unwind(|| panic!("nobody sees this")); //: nobody
            assert!(thread::spawn(caught).join().is_ok());
        },
        &["thread t1 panicked at tests/rules/ends.rs:{nobody}: nobody sees this"],
    );
    fails_with(
        || {
            let _ = catch_unwind(|| panic!("here neither")); //: neither
            pct::step();
        },
        &["thread main panicked at tests/rules/ends.rs:{neither}: here neither"],
    );
}

#[test]
fn a_guard_that_unwinds_makes_no_step() {
    fails_with(
        || {
            let mutex = Mutex::new(0);
            let _guard = mutex.lock().unwrap(); //: locked
            panic!("under the guard"); //: under
        },
        &[
            "thread main panicked at tests/rules/ends.rs:{under}: under the guard",
            "lock m0 = 0 ends.rs:{locked}",
            "check 0 = 0 ends.rs:{under}",
        ],
    );
}

#[test]
#[should_panic(expected = "what should_panic looks for")]
fn should_panic_sees_the_message() {
    pct::check_with(few(), || panic!("what should_panic looks for"));
}

#[test]
fn panics_as_std_poison_and_are_joined() {
    let config = Config { panics: Panics::AsStd, ..few() };
    pct::check_with(config.clone(), || {
        let mutex = Arc::new(Mutex::new(1));
        let other = mutex.clone();
        let thread = thread::spawn(move || {
            let _guard = other.lock().unwrap();
            panic!("poisons");
        });
        assert_eq!(thread.join().unwrap_err().downcast_ref::<&str>(), Some(&"poisons"));
        assert!(mutex.is_poisoned() && mutex.lock().is_err());
        let lock = Arc::new(RwLock::new(1));
        let (other, scoped) = (
            lock.clone(),
            catch_unwind(AssertUnwindSafe(|| {
                thread::scope(|scope| {
                    scope.spawn(|| panic!("in a scope"));
                })
            })),
        );
        assert_eq!(scoped.unwrap_err().downcast_ref::<&str>(), Some(&"a scoped thread panicked"));
        assert!(catch_unwind(AssertUnwindSafe(|| {
            let _guard = other.write().unwrap();
            panic!("caught")
        }))
        .is_err());
        assert!(lock.read().is_err());
    });
    let of = |test: fn()| text_of(|| pct::check_with(config.clone(), test));
    let leaves = of(|| {
        panic!("leaves main"); //: leaves
    });
    assert!(
        leaves.starts_with(&filled(
            SOURCE,
            "thread main panicked at tests/rules/ends.rs:{leaves}: leaves main"
        )),
        "{leaves}"
    );
    let lost = of(|| {
        let thread = thread::spawn(|| {
            panic!("nobody joins"); //: nobody_joins
        });
        drop(thread);
    });
    assert!(
        lost.contains(&filled(
            SOURCE,
            "panicked at tests/rules/ends.rs:{nobody_joins}: nobody joins"
        )),
        "{lost}"
    );
}

/// A guard's drop is a step while the panic unwinds, and the thread goes on behind who catches it.
#[test]
fn guards_unlock_by_steps_where_panics_are_as_std() {
    let config = Config { panics: Panics::AsStd, ..Config::default() };
    let run = pct::run(config, &Schedule::declared(), || {
        let (mutex, lock) = (Mutex::new(0), RwLock::new(0));
        let caught = catch_unwind(AssertUnwindSafe(|| {
            let _guards = (mutex.lock().unwrap(), lock.write().unwrap());
            panic!("under both");
        }));
        assert!(caught.is_err() && mutex.is_poisoned() && lock.is_poisoned());
        assert!(mutex.lock().is_err());
    });
    let asks: Vec<String> = run.steps().into_iter().map(|step| step.ask).collect();
    assert!(run.passed(), "{}", run.lanes());
    assert_eq!(asks, ["lock m0", "wrlock l0", "unlock m0", "rwunlock l0", "lock m0", "unlock m0"]);
}

#[test]
fn a_thread_has_ended_when_its_locals_are_gone() {
    struct Late(Arc<AtomicU32>);
    impl Drop for Late {
        fn drop(&mut self) {
            self.0.fetch_add(1, SeqCst);
        }
    }
    thread_local!(static LATE: RefCell<Option<Late>> = const { RefCell::new(None) });
    pct::check_with(few(), || {
        let n = Arc::new(AtomicU32::new(0));
        let (one, other) = (n.clone(), n.clone());
        thread::spawn(move || LATE.with(|late| *late.borrow_mut() = Some(Late(one))))
            .join()
            .unwrap();
        assert_eq!(n.load(SeqCst), 1);
        thread::scope(|scope| {
            scope.spawn(move || LATE.with(|late| *late.borrow_mut() = Some(Late(other))));
        });
        assert_eq!(n.load(SeqCst), 2);
    });
}

#[test]
fn a_thread_without_a_step_is_named() {
    let config = Config { patience: Duration::from_millis(300), ..few() };
    let told = text_of(|| {
        pct::check_with(config, || {
            let (_sender, receiver) = std::sync::mpsc::channel::<()>();
            pct::step(); //: stepped
            let _ = receiver.recv();
        });
    });
    assert_eq!(
        told,
        filled(
            SOURCE,
            "pct: thread main made no step for 300ms; its last one was at \
        tests/rules/ends.rs:{stepped}. It may block on something that pct \
         doesn't see, or go round without a step"
        )
    );
}

#[test]
fn a_campaign_stops_at_a_thousand_parked_threads() {
    let config = Config { seeds: 10_000, depth: Some(1), ..Config::default() };
    let told = text_of(|| drop(pct::campaign(config, || panic!("each time"))));
    assert!(
        told.starts_with(
            "pct: 1000 threads of failing runs stay parked, which a process may not \
            have in any number"
        ),
        "{told}"
    );
}

#[test]
fn what_is_not_deterministic_is_told() {
    static COUNT: std::sync::atomic::AtomicU32 = std::sync::atomic::AtomicU32::new(0);
    fails_with(
        || {
            let n = AtomicU32::new(0);
            n.store(COUNT.fetch_add(1, SeqCst), SeqCst); //: counted
            pct::holds(false);
        },
        &["made again it departs at step 1 at tests/rules/ends.rs:{counted}: what is tested isn't \
            deterministic"],
    );
}

/// Of one seed: the run in declared order passes, that of the seed fails, and made again it does
/// something else.
#[test]
fn a_failing_run_that_has_another_end_when_made_again_is_told() {
    let told = |other: fn()| {
        let runs = std::sync::Arc::new(std::sync::atomic::AtomicU32::new(0));
        let test = move || {
            let run = runs.fetch_add(1, SeqCst);
            if run == 2 {
                other();
            }
            pct::holds(run == 0);
        };
        text_of(|| pct::check_with(Config { seeds: 1, depth: Some(1), ..Config::default() }, test))
    };
    let more = told(|| thread::spawn(|| ()).join().unwrap());
    assert!(
        more.contains("made again it starts more threads: what is tested isn't deterministic\n"),
        "{more}"
    );
    let none = told(|| pct::sync::Semaphore::new(u32::MAX).up()); //: no_end
    let sentence =
        "made again it has no end: tests/rules/ends.rs:{no_end}: in a run a semaphore begins with \
            at most 2147483647\n";
    assert!(none.contains(&filled(SOURCE, sentence)), "{none}");
}

#[test]
fn a_timed_wait_never_times_out() {
    fails_with(
        || {
            let (pair, time) = ((Mutex::new(()), Condvar::new()), Duration::from_millis(1));
            let _ = pair.1.wait_timeout(pair.0.lock().unwrap(), time); //: timed
        },
        &["a deadlock: main waits at tests/rules/ends.rs:{timed} for the condition c0 and its \
            mutex m0. No time passes in a run, so a timed wait doesn't end it"],
    );
}

#[test]
fn one_more_thread_begins_the_seeds_again() {
    let config = Config { seeds: 40, depth: Some(2), ..Config::default() };
    let campaign = pct::campaign(config, || {
        let n = Arc::new(AtomicU32::new(0));
        let (one, other) = (n.clone(), n.clone());
        let first = thread::spawn(move || one.store(1, SeqCst));
        if other.load(SeqCst) == 1 {
            thread::spawn(|| ()).join().unwrap();
        }
        first.join().unwrap();
    });
    assert_eq!((campaign.threads, campaign.rows.len(), campaign.rows[0].seed), (3, 40, 1));
}
