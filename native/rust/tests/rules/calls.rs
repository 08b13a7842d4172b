//! The calls beside `check`.

use super::{few, filled, text_of};
use pct::sync::atomic::{AtomicU32, Ordering::SeqCst};
use pct::sync::{Arc, Mutex};
use pct::{thread, Certificate, Config, LockOrder, Schedule};
use std::path::PathBuf;

const SOURCE: &str = include_str!("calls.rs");

/// Two threads that count up by a read and a write.
fn lost_update() -> impl pct::Test {
    pct::threads(|t| {
        let counter = Arc::new(AtomicU32::new(0));
        pct::name("counter", &counter);
        for name in ["A", "B"] {
            let counter = counter.clone();
            t.thread(name, move || {
                let value = counter.load(SeqCst); //: reads
                counter.store(value + 1, SeqCst); //: writes
            });
        }
        t.thread("Check", move || {
            pct::join("A"); //: joins_a
            pct::join("B"); //: joins_b
            pct::holds(counter.load(SeqCst) == 2); //: holds
        });
    })
}

const TRACE: &str = "trace 1
order A B Check
points 1
limit 10000
1 A {reads} read counter = 0
2 B {reads} read counter = 0
3 B {writes} write counter 1 = 0
4 A {writes} write counter 1 = 0
5 Check {joins_a} join A = 0
6 Check {joins_b} join B = 0
7 Check {holds} read counter = 1
8 Check {holds} check 0 = 0
verdict failed Check {holds}
";

#[test]
fn run_by_an_order_and_points() {
    let run = pct::run(
        Config::default(),
        &Schedule::order(&["A", "B", "Check"]).points(&[1]),
        lost_update(),
    );
    assert_eq!(run.trace(), filled(SOURCE, TRACE));
    assert_eq!(
        pct::run(Config::default(), &Schedule::seed(13, 2), lost_update()).trace(),
        filled(SOURCE, TRACE)
    );
}

#[test]
fn campaign_has_rows_groups_and_reports() {
    let campaign =
        pct::campaign(Config { seeds: 13, depth: Some(2), ..Config::default() }, lost_update());
    assert_eq!(
        (campaign.threads, campaign.steps, campaign.depth, campaign.limit),
        (3, 8, 2, 10_000)
    );
    assert_eq!((campaign.rows.len(), campaign.groups.len()), (13, 1));
    assert!(
        campaign.text.ends_with(&filled(
            SOURCE,
            "13 8 failed Check {holds}\ngroups 1\n1 8 13 failed Check {holds}\n"
        )),
        "{}",
        campaign.text
    );
    assert!(
        campaign
            .json
            .starts_with("{\"depth\":2,\"groups\":[{\"count\":1,\"first\":13,\"steps\":8,"),
        "{}",
        campaign.json
    );
}

#[test]
fn find_and_certify() {
    let schedule = Schedule::order(&["A", "B", "Check"]).points(&[1, 5]);
    let directive = pct::find(Config::default(), &schedule, lost_update()).unwrap();
    assert_eq!(
        directive.text,
        filled(SOURCE, "directive 1\nlow Check\nafter A 1\nverdict failed Check {holds}\n")
    );
    let refuted = Certificate::Refuted {
        order: vec!["B".into(), "A".into(), "Check".into()],
        verdict: "passed".into(),
    };
    assert_eq!(pct::certify(Config::default(), &directive, lost_update()), refuted);
    let late_read = || {
        pct::threads(|t| {
            let n = Arc::new(AtomicU32::new(0));
            let other = n.clone();
            t.thread("A", move || n.store(1, SeqCst));
            t.thread("B", move || pct::holds(other.load(SeqCst) == 0));
        })
    };
    let directive =
        pct::find(Config::default(), &Schedule::order(&["A", "B"]), late_read()).unwrap();
    let orders = vec![(vec!["A".into(), "B".into()], vec![])];
    assert_eq!(
        pct::certify(Config::default(), &directive, late_read()),
        Certificate::Certified { orders, bound: 2 }
    );
    assert!(pct::find(Config::default(), &Schedule::declared(), lost_update()).is_none());
}

/// What `pct certify` prints of a run that is too long, and of the script of this test: of each
/// order the change points for its moment.
#[test]
fn certificates_have_the_change_points_of_each_order() {
    let schedule = Schedule::order(&["A", "B", "Check"]).points(&[1]);
    let test = || {
        pct::threads(|t| {
            let counter = Arc::new(AtomicU32::new(0));
            for name in ["A", "B"] {
                let counter = counter.clone();
                t.thread(name, move || {
                    let value = counter.load(SeqCst);
                    counter.store(value + 1, SeqCst);
                });
            }
            t.thread("Check", move || {
                pct::join("A");
                pct::join("B");
                pct::holds(counter.load(SeqCst) == 2);
            });
        })
    };
    let mut directive = pct::find(Config::default(), &schedule, test()).unwrap();
    let refuted = pct::certify(Config::default(), &directive, test()).to_string();
    assert_eq!(refuted, "refuted order B A Check verdict passed\n");
    directive = reread(&with_moment(&directive, "after B 1"), "both");
    let certified = pct::certify(Config::default(), &directive, test()).to_string();
    assert_eq!(
        certified,
        "order A B Check points 1 2\norder B A Check points 2 1\ncertified 1 in 192\n"
    );
    let config = Config { steps: Some(7), ..Config::default() };
    assert_eq!(
        pct::certify(config, &directive, test()).to_string(),
        "toolong order A B Check steps 8\n"
    );
}

fn folder() -> PathBuf {
    let folder = std::env::temp_dir().join(format!("pct-rules-{}", std::process::id()));
    std::fs::create_dir_all(&folder).unwrap();
    folder
}

/// The files of a directive with one more line `after`.
fn with_moment(directive: &pct::Directive, line: &str) -> String {
    directive.write(&folder().join("one.directive")).unwrap();
    directive.text.replace("verdict", &format!("{line}\nverdict"))
}

/// A directive out of its file.
fn reread(text: &str, name: &str) -> pct::Directive {
    let path = folder().join(name).with_extension("directive");
    std::fs::copy(folder().join("one.sites"), path.with_extension("sites")).unwrap();
    std::fs::write(&path, text).unwrap();
    pct::Directive::read(&path).unwrap()
}

#[test]
fn directives_are_files() {
    let schedule = Schedule::order(&["A", "B", "Check"]).points(&[1]);
    let directive = pct::find(Config::default(), &schedule, lost_update()).unwrap();
    let path = folder().join("written.directive");
    directive.write(&path).unwrap();
    let read = pct::Directive::read(&path).unwrap();
    assert_eq!(format!("{read:?}"), format!("{directive:?}"));
    assert_eq!(std::fs::read_to_string(&path).unwrap(), directive.text);
    std::fs::write(&path, directive.text.replace("low", "high")).unwrap();
    assert_eq!(
        pct::Directive::read(&path).unwrap_err(),
        format!("{}: line 2 of the directive has a fault of the kind 2", path.display())
    );
    std::fs::remove_file(&path).unwrap();
    let told = pct::Directive::read(&path).unwrap_err();
    assert!(told.starts_with(&format!("{}: ", path.display())), "{told}");
}

#[test]
fn schedules_that_are_none_are_told() {
    let of = |schedule: Schedule| {
        text_of(|| drop(pct::run(Config::default(), &schedule, lost_update())))
    };
    assert_eq!(of(Schedule::order(&["Z"])), "pct: no thread is called Z: A B Check");
    assert_eq!(of(Schedule::order(&["B", "A", "B"])), "pct: the order has B twice");
    let points = "pct: a schedule has at most 7 change points from 1 to 100000, and not ";
    assert_eq!(of(Schedule::declared().points(&[0])), format!("{points}[0]"));
    assert_eq!(
        of(Schedule::declared().points(&[1; 8])),
        format!("{points}[1, 1, 1, 1, 1, 1, 1, 1]")
    );
    assert_eq!(of(Schedule::seed(1, 9)), "pct: Config::depth is 1 to 8, and not 9");
    let of = |config: Config| text_of(|| pct::check_with(config, || ()));
    assert_eq!(of(Config { depth: Some(0), ..few() }), "pct: Config::depth is 1 to 8, and not 0");
    assert_eq!(
        of(Config { threads: Some(65), ..few() }),
        "pct: Config::threads is 1 to 64, and not 65"
    );
    assert_eq!(
        of(Config { steps: Some(100_001), ..few() }),
        "pct: Config::steps is 1 to 100000, and not 100001"
    );
    assert_eq!(of(Config { limit: 0, ..few() }), "pct: Config::limit is 1 to 100000, and not 0");
}

/// Without its moment the directive's run starts a thread that the run in declared order doesn't.
#[test]
fn find_tells_of_more_threads() {
    let test = || {
        let flag = Arc::new(AtomicU32::new(0));
        let other = flag.clone();
        let first = thread::spawn(move || other.store(1, SeqCst));
        if flag.load(SeqCst) == 1 {
            thread::spawn(|| ()).join().unwrap();
        } else {
            pct::holds(false);
        }
        first.join().unwrap();
    };
    let schedule = Schedule::order(&["t1", "main"]).points(&[2]);
    let told = text_of(|| drop(pct::find(Config::default(), &schedule, test)));
    assert_eq!(told, "pct: the run starts more threads than its order has: set Config::threads");
    let directive =
        pct::find(Config { threads: Some(3), ..Config::default() }, &schedule, test).unwrap();
    assert_eq!(directive.moments.len(), 1, "{}", directive.text);
}

/// The directive lowers a thread that is known by who spawned it, in whatever order they are
/// spawned.
#[test]
fn find_and_certify_know_threads_by_who_spawned_them() {
    let test = || {
        let n = Arc::new(AtomicU32::new(0));
        let spawners: Vec<_> = (0..2)
            .map(|_| {
                let n = n.clone();
                thread::spawn(move || {
                    let counts = thread::spawn(move || n.store(n.load(SeqCst) + 1, SeqCst));
                    counts.join().unwrap();
                })
            })
            .collect();
        spawners.into_iter().for_each(|spawner| spawner.join().unwrap());
        pct::holds(n.load(SeqCst) == 2);
    };
    let campaign = pct::campaign(Config { seeds: 100, depth: Some(2), ..Config::default() }, test);
    let schedule = Schedule::seed(campaign.groups[0].first, 2);
    let directive = pct::find(Config::default(), &schedule, test).unwrap();
    assert_eq!(directive.moments.len(), 1, "{}", directive.text);
    let certificate = pct::certify(Config::default(), &directive, test);
    assert!(!matches!(certificate, Certificate::TooLong { .. }), "{certificate:?}");
}

#[test]
fn certify_takes_at_most_six_threads() {
    let test = || {
        let all: Vec<_> = (0..6).map(|_| thread::spawn(|| ())).collect();
        all.into_iter().for_each(|thread| thread.join().unwrap());
        pct::holds(false);
    };
    let directive = pct::find(Config::default(), &Schedule::declared(), test).unwrap();
    let told = text_of(|| drop(pct::certify(Config::default(), &directive, test)));
    assert_eq!(told, "pct: a directive of 7 threads isn't certified: at most 6");
}

fn locks(second: bool) -> impl pct::Test {
    move || {
        let (a, b) = (Arc::new(Mutex::new(0)), Arc::new(Mutex::new(0)));
        pct::name("a", &a);
        pct::name("b", &b);
        let (c, d) = (a.clone(), b.clone());
        let thread = thread::spawn(move || drop((c.lock().unwrap(), d.lock().unwrap()))); //: nested
        thread.join().unwrap();
        let (first, then) = if second { (&b, &a) } else { (&a, &b) };
        drop((first.lock().unwrap(), then.lock().unwrap())); //: other_way
    }
}

#[test]
fn lock_order_is_an_order_or_a_cycle() {
    let (order, _) = pct::lock_order(Config::default(), &Schedule::declared(), locks(false));
    assert_eq!(order, LockOrder::Order(vec!["a".into(), "b".into()]));
    let (LockOrder::Cycle(cycle), _) =
        pct::lock_order(Config::default(), &Schedule::declared(), locks(true))
    else {
        panic!()
    };
    let told: Vec<_> = cycle
        .iter()
        .map(|nest| format!("{} {} {} {}", nest.thread, nest.place.line, nest.held, nest.taken))
        .collect();
    assert_eq!(told, [filled(SOURCE, "t1 {nested} a b"), filled(SOURCE, "main {other_way} b a")]);
}

fn written(name: &str, test: impl pct::Test) -> PathBuf {
    let config = Config { name: Some(name.into()), ..few() };
    let told = text_of(|| pct::check_with(config, test));
    let line = told.lines().find_map(|line| line.strip_prefix("written: ")).unwrap();
    PathBuf::from(line.split(", ").next().unwrap())
}

#[test]
fn replay_makes_the_run_again_and_notes_what_differs() {
    let counts = |first: u32, more: bool| {
        move || {
            let n = Arc::new(AtomicU32::new(first));
            let other = n.clone();
            let thread = thread::spawn(move || {
                other.fetch_add(1, SeqCst); //: adds
            });
            if more {
                n.load(SeqCst);
            }
            thread.join().unwrap();
            pct::holds(n.load(SeqCst) == 5);
        }
    };
    let trace = written("replayed", counts(0, false));
    let again = pct::replay(Config::default(), &trace, counts(0, false));
    assert_eq!((again.departs, again.notes.len(), again.run.verdict()), (None, 0, again.written));
    let other = pct::replay(Config::default(), &trace, counts(7, false));
    assert_eq!(other.departs, None);
    assert!(
        other.notes[0].contains(&filled(
            SOURCE,
            "the trace has add v0 1 = 0 at tests/rules/calls.rs:{adds}, and the run add v0 1 = 7"
        )),
        "{:?}",
        other.notes
    );
    let longer = pct::replay(Config::default(), &trace, counts(0, true));
    assert!(longer.departs.is_some(), "{longer:?}");
    let told = text_of(|| {
        drop(pct::replay(Config::default(), &trace.with_extension("none"), counts(0, false)))
    });
    assert!(told.starts_with("pct: ") && told.contains("replayed.none"), "{told}");
}

#[test]
fn random_is_of_the_seed_and_the_replay_takes_it_from_the_sites() {
    let numbers = std::sync::Arc::new(std::sync::Mutex::new(Vec::new()));
    let keep = numbers.clone();
    let test = move || {
        keep.lock().unwrap().push(pct::random());
        pct::holds(pct::random() % 2 == 0);
    };
    let trace = written("random", test.clone());
    pct::replay(Config::default(), &trace, test.clone());
    let failing = *numbers.lock().unwrap().last().unwrap();
    let sites = std::fs::read_to_string(trace.with_extension("sites")).unwrap();
    let seed: u64 = sites.lines().nth(1).unwrap().strip_prefix("seed ").unwrap().parse().unwrap();
    pct::run(Config::default(), &Schedule::seed(seed, 1), test.clone());
    assert_eq!(numbers.lock().unwrap().last(), Some(&failing));
    assert_eq!(pct::random(), pct::random());
}

/// `find` and `certify` have the numbers of the failing run, which those of no seed aren't.
#[test]
fn random_is_the_failing_runs_in_find_and_certify() {
    let number = std::sync::Arc::new(std::sync::Mutex::new(0));
    let keep = number.clone();
    let config = Config { seeds: 0, ..Config::default() };
    pct::run(config.clone(), &Schedule::seed(5, 1), move || *keep.lock().unwrap() = pct::random());
    let of_five = *number.lock().unwrap();
    let test = move || pct::holds(pct::random() != of_five);
    assert!(pct::find(config.clone(), &Schedule::declared(), test).is_none());
    let directive = pct::find(config.clone(), &Schedule::seed(5, 1), test).unwrap();
    let certificate = pct::certify(config, &directive, test).to_string();
    assert_eq!(certificate, "order main points\ncertified 1 in 1\n");
}

#[test]
fn the_document_has_the_run() {
    let trace = written("document", lost_update());
    let json = std::fs::read_to_string(trace.with_extension("json")).unwrap();
    for text in [
        "{\"document\":1,\"writer\":\"pct for Rust\",\"title\":\"document\",",
        "\"sources\":[{\"file\":\"tests/rules/calls.rs\",\"text\":\"//! The calls",
        "\"vars\":[{\"name\":\"counter\",\"value\":\"0\"}]",
        "\"threads\":[{\"name\":\"A\",",
        "\"held\":false",
        "{\"thread\":\"Check\",\"file\":\"tests/rules/calls.rs\",\"line\":{holds},\"ask\":\"check \
            0\",\"answer\":\"0\"}]",
        "\"ended\":[\"A\",\"B\"],\"verdict\":\"failed Check {holds}\"",
    ] {
        assert!(json.contains(&filled(SOURCE, text)), "no {text} in {json}");
    }
}
