//! What a user sees: projects of their own, run by `cargo test`.
#![allow(missing_docs)]

use std::fs;
use std::path::{Path, PathBuf};
use std::process::Command;

/// A project in a folder of its own, with this crate and one test file.
fn project(name: &str, test: &str) -> PathBuf {
    let folder = Path::new(env!("CARGO_TARGET_TMPDIR")).join(name);
    let _ = fs::remove_dir_all(&folder);
    fs::create_dir_all(folder.join("src")).unwrap();
    fs::create_dir_all(folder.join("tests")).unwrap();
    let manifest = format!(
        "[package]\nname = \"{name}\"\nversion = \"0.1.0\"\nedition = \
            \"2021\"\n[dev-dependencies]\npct = {{ path = {:?} }}\n[workspace]\n",
        env!("CARGO_MANIFEST_DIR")
    );
    fs::write(folder.join("Cargo.toml"), manifest).unwrap();
    fs::write(folder.join("src/lib.rs"), "").unwrap();
    fs::write(folder.join("tests/it.rs"), test).unwrap();
    folder
}

/// What `cargo test` writes there, and whether it passed.
fn tested(folder: &Path, replay: Option<&str>, words: &[&str]) -> (String, bool) {
    let mut command = Command::new(env!("CARGO"));
    command
        .args(["test", "--offline", "--quiet", "--test", "it", "--"])
        .args(words)
        .current_dir(folder);
    command
        .env("CARGO_TARGET_DIR", Path::new(env!("CARGO_TARGET_TMPDIR")).join("ui"))
        .env("RUST_BACKTRACE", "0");
    for name in ["PCT_SEEDS", "PCT_DEPTH", "PCT_FROM", "PCT_REPLAY"] {
        command.env_remove(name);
    }
    if let Some(trace) = replay {
        command.env("PCT_REPLAY", trace);
    }
    let output = command.output().unwrap();
    let text = String::from_utf8_lossy(&output.stdout).into_owned()
        + &String::from_utf8_lossy(&output.stderr);
    (text, output.status.success())
}

const COUNTS: &str = "use pct::{sync::{atomic::{AtomicUsize, Ordering::SeqCst}, Arc}, thread};

#[test]
fn counts_both() {
    pct::check(|| {
        let n = Arc::new(AtomicUsize::new(0));
        let adders: Vec<_> = (0..2)
            .map(|_| { let n = n.clone(); thread::spawn(move || { let v = n.load(SeqCst); n.store(v + 1, SeqCst) }) })
            .collect();
        for adder in adders { adder.join().unwrap() }
        assert_eq!(n.load(SeqCst), 2);
    });
}

#[test]
fn another() {
    pct::check(|| ());
}
";

/// The lines of the page: from the failure to its replay, and the mended form.
#[test]
fn a_bug_is_found_replayed_and_mended() {
    let folder = project("found", COUNTS);
    let (text, passed) = tested(&folder, None, &[]);
    assert!(
        !passed
            && text.contains(
                "thread main panicked at tests/it.rs:11: assertion `left == right` failed"
            ),
        "{text}"
    );
    for wanted in [
        "failed in 20 of the ",
        "the shortest: seed ",
        "start t1 = 0 :8",
        "check 0 = 0 :11",
        "1 passed; 1 failed",
    ] {
        assert!(text.contains(wanted), "no {wanted:?} in:\n{text}");
    }
    let trace = &trace_of(&text);
    assert!(
        text.contains(&format!(
            "again: PCT_REPLAY={trace} cargo test -p found -- --exact counts_both --nocapture\n"
        )),
        "{text}"
    );
    let (text, passed) = tested(&folder, Some(trace), &["--nocapture", "--test-threads=2"]);
    assert!(!passed, "{text}");
    for wanted in [
        "     1  main  start t1 = 0 at tests/it.rs:8",
        "check 0 = 0 at tests/it.rs:11",
        "replayed: failed main 11, 12 steps",
    ] {
        assert!(text.contains(wanted), "no {wanted:?} in:\n{text}");
    }
    assert!(text.contains("another: not replayed, since the trace is another test's"), "{text}");
    let mended =
        COUNTS.replace("let v = n.load(SeqCst); n.store(v + 1, SeqCst)", "n.fetch_add(1, SeqCst);");
    fs::write(folder.join("tests/it.rs"), &mended).unwrap();
    let (text, passed) = tested(&folder, None, &[]);
    assert!(passed, "{text}");
    let (text, passed) = tested(&folder, Some(trace), &["--exact", "counts_both", "--nocapture"]);
    assert!(!passed && text.contains("pct: the replay departs at step "), "{text}");
}

const DBG: &str = "#[test]\nfn prints() {\n    pct::check(|| {\n        pct::step();\n        \
    pct::holds(false);\n    });\n}\n";

/// The trace of which a failing check tells, by its line `again:`.
fn trace_of(text: &str) -> String {
    let again = text.lines().find_map(|line| line.strip_prefix("again: PCT_REPLAY="));
    again
        .and_then(|again| again.split(' ').next())
        .unwrap_or_else(|| panic!("no trace in:\n{text}"))
        .to_owned()
}

/// A line more moves all others, and a replay notes it. Where nothing fails any more, that is told.
#[test]
fn a_replay_goes_on_over_other_lines() {
    let folder = project("moved", DBG);
    let trace = trace_of(&tested(&folder, None, &[]).0);
    fs::write(
        folder.join("tests/it.rs"),
        DBG.replace("        pct::step();", "        dbg!(7);\n        pct::step();"),
    )
    .unwrap();
    let (text, passed) = tested(&folder, Some(&trace), &["--nocapture"]);
    assert!(!passed && text.contains("step 1: the trace has yield = 0 at tests/it.rs:4"), "{text}");
    assert!(
        text.contains("replayed, where the trace has failed main 5: failed main 6, 2 steps"),
        "{text}"
    );
    fs::write(folder.join("tests/it.rs"), DBG.replace("false", "true")).unwrap();
    let (text, passed) = tested(&folder, Some(&trace), &["--nocapture"]);
    assert!(
        passed && text.contains("replayed: passed, and the trace ends with failed main 5"),
        "{text}"
    );
}

/// Places of other files, and lines that a trace can't have, are numbered from 4096 down, and the
/// file beside the trace says which.
#[test]
fn other_places_have_numbers_of_their_own() {
    let test = format!(
        "mod far;\n#[test]\nfn far_lines() {{\n    pct::check(|| {{\n        far::steps();{}",
        "\n".repeat(5000)
    ) + "        pct::holds(false);\n    });\n}\n";
    let folder = project("far", &test);
    fs::create_dir(folder.join("tests/far")).unwrap();
    fs::write(folder.join("tests/far/mod.rs"), "pub fn steps() {\n    pct::step();\n}\n").unwrap();
    let (text, _) = tested(&folder, None, &[]);
    for wanted in [
        "thread main at tests/it.rs:5005: pct::holds(false)",
        "yield = 0 mod.rs:2",
        "check 0 = 0 :5005",
    ] {
        assert!(text.contains(wanted), "no {wanted:?} in:\n{text}");
    }
    let trace = trace_of(&text);
    let steps = "1 main 4096 yield = 0\n2 main 4095 check 0 = 0\nverdict failed main 4095\n";
    assert!(fs::read_to_string(&trace).unwrap().ends_with(steps));
    let sites = fs::read_to_string(Path::new(&trace).with_extension("sites")).unwrap();
    assert!(
        sites.ends_with("thread main 0\n4096 tests/far/mod.rs 2\n4095 tests/it.rs 5005\n"),
        "{sites}"
    );
    let (text, passed) = tested(&folder, Some(&trace), &["--nocapture"]);
    assert!(!passed && text.contains("replayed: failed main 4095, 2 steps"), "{text}");
}

const TWICE: &str = "#[test]\nfn twice() {\n    pct::check(|| pct::holds(true));\n    \
    pct::check(|| pct::holds(false));\n}\n";

/// The second check of one test has files of its own, and a replay is of that one alone.
#[test]
fn two_checks_of_one_test_are_told_apart() {
    let folder = project("twice", TWICE);
    let (text, _) = tested(&folder, None, &[]);
    let trace = trace_of(&text);
    assert!(
        trace.ends_with("/twice-2.trace") && text.contains(" -- --exact twice --nocapture\n"),
        "{text}"
    );
    let (text, passed) = tested(&folder, Some(&trace), &["--nocapture"]);
    assert!(
        !passed && text.contains("twice: not replayed, since the trace is another test's\n"),
        "{text}"
    );
    assert!(text.contains("replayed: failed main 4, 1 steps"), "{text}");
}

const ABORTS: &str = "struct Second;
impl Drop for Second {
    fn drop(&mut self) { panic!(\"the second\") }
}
#[test]
fn aborts() {
    pct::check(|| {
        let _second = Second;
        pct::step();
        panic!(\"the first\");
    });
}
";

/// A second panic in a drop aborts the process, as std does. Both are told before, and the trace is
/// there, which makes it again.
#[test]
fn a_second_panic_aborts_after_the_trace() {
    let as_std = "check_with(pct::Config { panics: pct::Panics::AsStd, ..Default::default() }, ";
    for (name, test) in
        [("aborts", ABORTS.to_owned()), ("aborts_as_std", ABORTS.replace("check(", as_std))]
    {
        let folder = project(name, &test);
        let told = |replay: Option<&str>| {
            let (text, passed) = tested(&folder, replay, &["--nocapture"]);
            assert!(!passed, "{text}");
            let both = "pct: thread main panicked at tests/it.rs:10: the first\n\
                        pct: and again at tests/it.rs:3: the second. While the first panic \
                        unwinds, that aborts the process\n";
            assert!(
                text.contains(both) && text.matches("pct: and again at").count() == 1,
                "{text}"
            );
            text
        };
        let text = told(None);
        let trace = text
            .lines()
            .find_map(|line| line.strip_prefix("pct: the steps until then are in "))
            .unwrap();
        let steps = "1 main 9 yield = 0\n2 main 10 check 0 = 0\nverdict failed main 10\n";
        assert!(fs::read_to_string(trace).unwrap().ends_with(steps));
        let text = told(Some(trace));
        assert!(text.contains("     1  main  yield = 0 at tests/it.rs:9"), "{text}");
    }
}

const HOOKED: &str = "#[test]
#[should_panic(expected = \"thread main panicked at tests/it.rs:6: in the payload\")]
fn hooked() {
    pct::check(|| {
        std::panic::set_hook(Box::new(|_| ()));
        pct::step();
        panic!(\"in the payload\");
    });
}
";

const HOOKED_GUARD: &str = "use pct::sync::Mutex;
#[test]
#[should_panic(expected = \"tests/it.rs:7: a panic, whose message a hook of the test's own has\")]
fn hooked() {
    pct::check(|| {
        let mutex = Mutex::new(());
        let _guard = mutex.lock().unwrap();
        std::panic::set_hook(Box::new(|_| ()));
        panic!(\"under the guard\");
    });
}
";

/// The message is the payload's, and the line that of the last ask. Where a guard is dropped first,
/// nobody has the payload yet.
#[test]
fn a_test_may_have_a_hook_of_its_own() {
    for (name, test) in [("hooked", HOOKED), ("hooked_guard", HOOKED_GUARD)] {
        let (text, passed) = tested(&project(name, test), None, &[]);
        assert!(passed, "{text}");
    }
}

/// `PCT_SEEDS`, `PCT_DEPTH` and `PCT_FROM` go before the configuration.
#[test]
fn the_environment_says_how_many_seeds() {
    let folder = project(
        "seeds",
        "#[test]\nfn fails() {\n    pct::check(|| pct::holds(pct::random() == 0));\n}\n",
    );
    let mut command = Command::new(env!("CARGO"));
    command.args(["test", "--offline", "--quiet"]).current_dir(&folder).env("RUST_BACKTRACE", "0");
    command.env("CARGO_TARGET_DIR", Path::new(env!("CARGO_TARGET_TMPDIR")).join("ui"));
    command.env("PCT_SEEDS", "5").env("PCT_DEPTH", "2").env("PCT_FROM", "7");
    let output = command.output().unwrap();
    let text = String::from_utf8_lossy(&output.stdout).into_owned();
    assert!(
        text.contains("failed in declared order, and in 5 of the 5 seeds that were run"),
        "{text}"
    );
    command.env("PCT_SEEDS", "many");
    let text = String::from_utf8_lossy(&command.output().unwrap().stdout).into_owned();
    assert!(text.contains("pct: PCT_SEEDS is no number: many"), "{text}");
}
