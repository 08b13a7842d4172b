//! Numbers of objects.

use super::{fails_with, few, filled, text_of};
use pct::sync::atomic::{AtomicPtr, AtomicU32, AtomicU64, Ordering::SeqCst};
use pct::sync::{Arc, Barrier, Condvar, LazyLock, Mutex, Once, OnceLock, RwLock, Semaphore};
use pct::{thread, Config, Schedule};

const SOURCE: &str = include_str!("objects.rs");

#[test]
fn objects_are_numbered_at_first_use_and_the_run_goes_on() {
    // Two atomics of different first values, used first in an order that depends on the schedule.
    pct::check_with(few(), || {
        let (a, b) = (Arc::new(AtomicU32::new(5)), Arc::new(AtomicU32::new(7)));
        let (c, d) = (a.clone(), b.clone());
        let threads = [
            thread::spawn(move || c.fetch_add(1, SeqCst)),
            thread::spawn(move || d.fetch_add(1, SeqCst)),
        ];
        threads.into_iter().for_each(|thread| {
            thread.join().unwrap();
        });
        assert_eq!(a.load(SeqCst) + b.load(SeqCst), 14);
    });
}

#[test]
fn new_and_get_mut_take_no_step() {
    let run = pct::run(Config::default(), &Schedule::declared(), || {
        let mut n = AtomicU32::new(1);
        *n.get_mut() = 5;
        n.store(6, SeqCst);
        *n.get_mut() = 9;
        assert_eq!(n.load(SeqCst), 9);
        assert_eq!(n.into_inner(), 9);
        let mut m = Mutex::new(0);
        *m.lock().unwrap() = 1;
        *m.get_mut().unwrap() += 1;
        assert_eq!(*m.lock().unwrap(), 2);
    });
    let asks: Vec<String> = run.steps().into_iter().map(|step| step.ask).collect();
    assert_eq!(asks, ["write v0 6", "read v1", "lock m0", "unlock m0", "lock m1", "unlock m1"]);
}

#[test]
fn numbers_of_dropped_objects_are_used_again() {
    let test = || {
        for _ in 0..200 {
            let m = Mutex::new(0);
            *m.lock().unwrap() += 1;
            let n = AtomicU32::new(3);
            assert_eq!(n.load(SeqCst), 3);
        }
    };
    pct::check_with(few(), test);
    let (_, left_out) = pct::lock_order(Config::default(), &Schedule::declared(), test);
    assert!(
        left_out.contains(
            &"1 mutexes are left out: each number was that of two objects, one after the other"
                .to_owned()
        ),
        "{left_out:?}"
    );
}

#[test]
fn races_leave_out_what_has_no_number_of_its_own() {
    use pct::cell::UnsafeCell;
    let races = |test: fn()| pct::races(Config::default(), &Schedule::declared(), test);
    let reused = races(|| (0..65).for_each(|_| assert_eq!(AtomicU32::new(3).load(SeqCst), 3)));
    assert_eq!(
        reused.left_out,
        ["1 atomics are left out: each number was that of two objects, one after the other"]
    );
    let cells = races(|| (0..66).for_each(|_| UnsafeCell::new(0).with(|_| ())));
    assert_eq!(
        cells.left_out,
        ["2 cells are left out: the library knows 64 atomics and cells together"]
    );
}

#[test]
fn limits_are_sentences_with_the_line() {
    let of = |test: fn()| text_of(|| pct::check_with(few(), test));
    let mutexes = of(|| {
        let all: Vec<_> = (0..65).map(Mutex::new).collect();
        all.iter().for_each(|mutex| drop(mutex.lock())); //: mutexes
    });
    assert_eq!(
        mutexes,
        filled(
            SOURCE,
            "pct: tests/rules/objects.rs:{mutexes}: a run has at most 64 mutexes at a time"
        )
    );
    let conditions = of(|| {
        let all: Vec<_> = (0..65).map(|_| Condvar::new()).collect();
        all.iter().for_each(|condition| condition.notify_one()); //: conditions
    });
    let most = "pct: tests/rules/objects.rs:{conditions}: a run has at most 64 condition \
        variables at a time";
    assert_eq!(conditions, filled(SOURCE, most));
    let semaphores = of(|| {
        let all: Vec<_> = (0..65).map(|_| Semaphore::new(0)).collect();
        all.iter().for_each(|semaphore| semaphore.up()); //: semaphores
    });
    assert_eq!(
        semaphores,
        filled(
            SOURCE,
            "pct: tests/rules/objects.rs:{semaphores}: a run has at most 64 semaphores at a time"
        )
    );
    let barriers = of(|| {
        let all: Vec<_> = (0..65).map(|_| Barrier::new(1)).collect();
        for barrier in &all {
            barrier.wait(); //: barriers
        }
    });
    assert_eq!(
        barriers,
        filled(
            SOURCE,
            "pct: tests/rules/objects.rs:{barriers}: a run has at most 64 barriers at a time"
        )
    );
    let rwlocks = of(|| {
        let all: Vec<_> = (0..65).map(RwLock::new).collect();
        all.iter().for_each(|lock| drop(lock.read())); //: rwlocks
    });
    assert_eq!(
        rwlocks,
        filled(
            SOURCE,
            "pct: tests/rules/objects.rs:{rwlocks}: a run has at most \
        64 read-write locks at a time"
        )
    );
    let declared = text_of(|| {
        pct::check_with(
            few(),
            pct::threads(|t| (0..65).for_each(|number| t.thread(&format!("T{number}"), || ()))),
        );
    });
    assert_eq!(declared, "pct: a run has at most 64 threads");
    let threads = of(|| (0..64).map(|_| thread::spawn(|| ())).for_each(drop)); //: threads
    assert_eq!(
        threads,
        filled(SOURCE, "pct: tests/rules/objects.rs:{threads}: a run has at most 64 threads")
    );
    let barrier = of(|| {
        Barrier::new(1001).wait(); //: barrier
    });
    assert_eq!(
        barrier,
        filled(
            SOURCE,
            "pct: tests/rules/objects.rs:{barrier}: in a run at most \
        1000 threads meet at a barrier"
        )
    );
    let semaphore = of(|| Semaphore::new(u32::MAX).up()); //: semaphore
    assert_eq!(
        semaphore,
        filled(
            SOURCE,
            "pct: tests/rules/objects.rs:{semaphore}: in a run a semaphore begins with \
            at most 2147483647"
        )
    );
}

#[test]
fn atomics_past_64_yield_and_keep_their_values() {
    let run = pct::run(Config::default(), &Schedule::declared(), || {
        let all: Vec<_> = (0..70).map(AtomicU64::new).collect();
        all.iter().for_each(|n| assert_eq!(n.fetch_add(1, SeqCst) + 1, n.load(SeqCst)));
    });
    assert!(run.passed(), "{}", run.lanes());
    let steps = run.steps();
    assert_eq!((steps[126].ask.as_str(), steps[128].ask.as_str()), ("add v63 1", "yield"));
}

static COUNT: AtomicU32 = AtomicU32::new(40);
static POINTER: AtomicPtr<u8> = AtomicPtr::new(std::ptr::null_mut());
static MUTEX: Mutex<u32> = Mutex::new(0);

fn counts() {
    let adder = thread::spawn(|| COUNT.fetch_add(1, SeqCst));
    COUNT.fetch_add(1, SeqCst);
    adder.join().unwrap();
    assert_eq!(COUNT.load(SeqCst), 42);
    assert!(POINTER.load(SeqCst).is_null());
    POINTER.store(std::ptr::dangling_mut(), SeqCst);
    assert!(!POINTER.load(SeqCst).is_null());
}

#[test]
fn an_atomic_static_has_its_first_value_in_each_run() {
    pct::check_with(few(), counts);
    pct::check_with(Config { jobs: 3, ..few() }, counts);
    let both: Vec<_> =
        (0..2).map(|_| std::thread::spawn(|| pct::check_with(few(), counts))).collect();
    both.into_iter().for_each(|check| check.join().unwrap());
    assert_eq!(COUNT.load(SeqCst), 40);
}

/// `new` is const of each type, as std's.
#[test]
fn each_type_may_be_a_static() {
    static ALL: (Mutex<u8>, RwLock<u8>, Condvar, Barrier, Semaphore) =
        (Mutex::new(1), RwLock::new(1), Condvar::new(), Barrier::new(1), Semaphore::new(1));
    static ONCE: (Once, OnceLock<u8>, LazyLock<u8>) =
        (Once::new(), OnceLock::new(), LazyLock::new(|| 7));
    pct::run(Config::default(), &Schedule::declared(), || assert_eq!(COUNT.load(SeqCst), 40));
    assert_eq!(*ALL.0.lock().unwrap() + *ALL.1.read().unwrap(), 2);
    ALL.2.notify_one();
    assert!(ALL.3.wait().is_leader() && ALL.4.try_down());
    ONCE.0.call_once(|| ());
    assert_eq!(ONCE.1.get_or_init(|| 5) + *ONCE.2, 12);
}

#[test]
fn other_statics_and_captured_objects_end_the_check() {
    let told = text_of(|| pct::check_with(few(), || *MUTEX.lock().unwrap() += 1)); //: static
    let sentence = "one of the mutexes was used by another run: it is a static, or the test \
        captured it. Make it within the test";
    assert_eq!(told, filled(SOURCE, "pct: tests/rules/objects.rs:{static}: ") + sentence);
    let captured = Arc::new(AtomicU32::new(0));
    let told = text_of(|| {
        pct::check_with(few(), move || {
            captured.load(SeqCst);
        })
    });
    assert!(told.contains(&sentence.replace("mutexes", "atomics")), "{told}");
}

#[test]
fn a_mutex_may_borrow_and_move() {
    pct::check_with(few(), || {
        let text = String::from("borrowed");
        let mutex = Mutex::new(&text);
        assert_eq!(**mutex.lock().unwrap(), "borrowed");
        let moved = Box::new(mutex);
        assert_eq!(moved.lock().unwrap().len(), 8);
    });
}

#[test]
fn names_are_checked() {
    let of = |test: fn()| text_of(|| pct::check_with(few(), test));
    for (text, name) in [("no name", "no name"), ("read", "read"), ("r7", "r7")] {
        let told = match name {
            "read" => of(|| pct::name("read", &Mutex::new(0))),
            "r7" => of(|| pct::name("r7", &Mutex::new(0))),
            _ => of(|| pct::name("no name", &Mutex::new(0))),
        };
        assert!(
            told.contains(&format!(
                "{text} can't be a name: 1 to 32 letters, digits and _, a letter first"
            )),
            "{told}"
        );
    }
    fails_with(
        SOURCE,
        || {
            let n = AtomicU32::new(0);
            pct::name("hits", &n);
            n.store(1, SeqCst); //: hits
            pct::holds(false);
        },
        &["write hits 1 = 0 objects.rs:{hits}"],
    );
}
