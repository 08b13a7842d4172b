//! Sentences that no other test meets.

use super::{few, filled, text_of};
use pct::sync::{Arc, Mutex, RwLock, Semaphore};
use pct::{thread, Config, Schedule};
use std::fs;

const SOURCE: &str = include_str!("sentences.rs");

#[test]
fn a_fault_of_the_layer_ends_the_check() {
    let mutex = Arc::new(Mutex::new(()));
    let guard = mutex.lock().unwrap();
    let captured = mutex.clone();
    let told = text_of(|| pct::check_with(few(), move || drop(captured.lock())));
    assert_eq!(told, "pct: a fault of the layer itself: the book gave a mutex that is held");
    drop(guard);
}

#[test]
fn misuse_is_told() {
    let raised = super::failure(|| Semaphore::new(i32::MAX as u32).up()); //: raised
    assert!(raised.starts_with(&filled(
        SOURCE,
        "thread main at tests/rules/sentences.rs:{raised}: it raises a semaphore past 2147483647"
    )));
    let held = super::failure(|| {
        let lock = RwLock::new(());
        let guards: Vec<_> = (0..1001).map(|_| lock.read()).collect(); //: held
        drop(guards);
    });
    let wanted = "thread main at tests/rules/sentences.rs:{held}: it holds a read-write lock for \
        reading more than 1000 times";
    assert!(held.starts_with(&filled(SOURCE, wanted)), "{held}");
}

#[test]
fn a_test_without_threads_is_none() {
    let told = text_of(|| pct::check_with(few(), pct::threads(|_| ())));
    assert_eq!(told, "pct: the test declares no thread");
    let told = text_of(|| pct::check_with(few(), || pct::join("nobody")));
    assert!(told.contains("no thread is called nobody"), "{told}");
}

#[test]
fn files_that_cannot_be_read_are_told() {
    let config = Config { name: Some("unreadable".into()), ..few() };
    let test = || pct::holds(false);
    let told = text_of(|| pct::check_with(config, test));
    let trace =
        told.lines().find_map(|line| line.strip_prefix("written: ")?.split(", ").next()).unwrap();
    let (trace, sites) =
        (std::path::PathBuf::from(trace), std::path::Path::new(trace).with_extension("sites"));
    let (text, beside) = (fs::read_to_string(&trace).unwrap(), fs::read_to_string(&sites).unwrap());
    let of = || text_of(|| drop(pct::replay(Config::default(), &trace, test)));
    fs::write(&trace, text.replace("check 0", "check 7")).unwrap();
    assert_eq!(of(), "pct: line 5 of the trace has a fault of the kind 3");
    fs::write(&sites, beside.clone() + "nothing\n").unwrap();
    let line = beside.lines().count() + 1;
    assert_eq!(
        of(),
        format!("pct: {}: line {line} is neither a name nor a place", sites.display())
    );
    fs::write(&sites, beside.replace("file ", "files ")).unwrap();
    assert_eq!(of(), format!("pct: {}: line 3 has no file", sites.display()));
    fs::write(&sites, beside.replace("seed ", "seeds ")).unwrap();
    assert_eq!(of(), format!("pct: {}: line 2 has no seed", sites.display()));
    fs::write(&sites, beside.replace("sites 1", "sites 2")).unwrap();
    assert_eq!(of(), format!("pct: {}: it doesn't begin with `sites 1`", sites.display()));
}

#[test]
fn a_single_run_that_starts_more_threads_is_told() {
    let test = || {
        let flag = Arc::new(Mutex::new(false));
        let other = flag.clone();
        let first = thread::spawn(move || *other.lock().unwrap() = true);
        if *flag.lock().unwrap() {
            thread::spawn(|| ()).join().unwrap();
        }
        first.join().unwrap();
    };
    let schedule = Schedule::order(&["t1", "main"]);
    let told = text_of(|| drop(pct::run(Config::default(), &schedule, test)));
    assert_eq!(
        told,
        "pct: the run starts more threads than the 2 of the run in declared order: \
        set Config::threads"
    );
    let config = Config { threads: Some(3), ..Config::default() };
    assert!(pct::run(config, &schedule, test).passed());
}

#[test]
fn a_replay_that_passes_says_so() {
    let config = Config { name: Some("mended".into()), ..few() };
    let told = text_of(|| pct::check_with(config, || pct::holds(false)));
    let trace = told
        .lines()
        .find_map(|line| line.strip_prefix("written: ")?.split(", ").next())
        .unwrap()
        .to_owned();
    let replayed = pct::replay(Config::default(), trace.as_ref(), || pct::holds(true));
    assert!(replayed.run.passed() && replayed.run.sentence().is_empty());
    assert!(replayed.notes[0].contains("the trace has check 0 = 0"), "{:?}", replayed.notes);
}

#[test]
fn a_trace_that_cannot_be_written_is_told() {
    let config = Config { name: Some("long".repeat(100)), ..few() };
    let told = text_of(|| pct::check_with(config, || pct::holds(false)));
    assert!(told.contains("the trace couldn't be written\n"), "{told}");
}

#[test]
fn a_payload_that_is_no_text_is_told() {
    let told = super::failure(|| std::panic::panic_any(5));
    assert!(told.contains(": a panic without a text\n"), "{told}");
}

#[test]
fn a_replay_that_departs_says_so() {
    let config = Config { name: Some("departs".into()), ..few() };
    let told = text_of(|| pct::check_with(config, || pct::holds(false)));
    let trace = told
        .lines()
        .find_map(|line| line.strip_prefix("written: ")?.split(", ").next())
        .unwrap()
        .to_owned();
    let replayed = pct::replay(Config::default(), trace.as_ref(), || {
        pct::holds(true);
        pct::step();
    });
    assert_eq!(
        (replayed.departs, replayed.run.sentence()),
        (Some(2), "the run leaves the trace after 1 steps".into())
    );
}

/// A handle that leaves its run, of a thread that stays parked.
#[test]
fn a_join_outside_of_the_run_is_an_error() {
    let kept = std::sync::Arc::new(std::sync::Mutex::new(None));
    let out = kept.clone();
    super::failure(move || {
        let handle = thread::spawn(|| Semaphore::new(0).down());
        *out.lock().unwrap() = Some(handle);
        pct::holds(false);
    });
    let error = kept.lock().unwrap().take().unwrap().join().unwrap_err();
    assert_eq!(
        error.downcast_ref::<&str>(),
        Some(&"the thread is of a run that this thread isn't in")
    );
}

/// std's own sentences, where panics are as std's.
#[test]
fn what_is_poisoned_is_told_as_std_does() {
    use pct::sync::{LazyLock, Once};
    let message = |act: &dyn Fn()| {
        let payload = std::panic::catch_unwind(std::panic::AssertUnwindSafe(act)).unwrap_err();
        payload.downcast_ref::<&str>().map_or_else(
            || payload.downcast_ref::<String>().unwrap().clone(),
            |text| (*text).to_owned(),
        )
    };
    pct::check_with(Config { panics: pct::Panics::AsStd, ..few() }, move || {
        let (once, lazy) = (Once::new(), LazyLock::<u32>::new(|| panic!("first")));
        assert_eq!(message(&|| once.call_once(|| panic!("first"))), "first");
        assert_eq!(
            message(&|| once.call_once(|| ())),
            "Once instance has previously been poisoned"
        );
        assert_eq!(message(&|| once.wait()), "Once instance has previously been poisoned");
        once.call_once_force(|state| assert!(state.is_poisoned()));
        once.wait();
        assert_eq!(message(&|| assert_eq!(*lazy, 1)), "first");
        assert_eq!(
            message(&|| assert_eq!(*lazy, 1)),
            "LazyLock instance has previously been poisoned"
        );
    });
}

#[test]
fn what_a_declaring_closure_captured_ends_the_check() {
    let captured = Arc::new(Mutex::new(()));
    let told = text_of(|| {
        let test = pct::threads(move |t| {
            pct::name("captured", &captured); //: named
            t.thread("A", || ());
        });
        pct::check_with(few(), test);
    });
    let sentence =
        "pct: tests/rules/sentences.rs:{named}: one of the mutexes was used by another run: it is \
            a static, or the test \
                    captured it. Make it within the test";
    assert_eq!(told, filled(SOURCE, sentence));
}
