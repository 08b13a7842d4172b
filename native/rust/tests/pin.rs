//! On Linux all threads of a run are on one processor, which their runner claims and gives back.
//! Alone in its program, since runners of other tests claim processors, too.
#![cfg(target_os = "linux")]
#![allow(missing_docs)]

use pct::{thread, Config};
use std::collections::BTreeSet;
use std::os::linux::net::SocketAddrExt;
use std::os::unix::net::{SocketAddr, UnixListener};
use std::sync::{Arc, Mutex};

/// The processors on which the calling thread may run.
fn allowed() -> Vec<usize> {
    let status = std::fs::read_to_string("/proc/thread-self/status").unwrap();
    let list = status.lines().find_map(|line| line.strip_prefix("Cpus_allowed_list:")).unwrap();
    let range = |part: &str| {
        let (first, last) = part.split_once('-').unwrap_or((part, part));
        first.parse::<usize>().unwrap()..=last.parse().unwrap()
    };
    list.trim().split(',').flat_map(range).collect()
}

/// What the threads of the runs of a check may run on.
fn seen(config: Config) -> BTreeSet<Vec<usize>> {
    let seen: Arc<Mutex<BTreeSet<_>>> = Arc::default();
    let keep = seen.clone();
    pct::check_with(config, move || {
        let (here, there) = (keep.clone(), keep.clone());
        here.lock().unwrap().insert(allowed());
        thread::spawn(move || there.lock().unwrap().insert(allowed())).join().unwrap();
    });
    let seen = seen.lock().unwrap().clone();
    seen
}

#[test]
fn threads_of_a_run_are_on_one_processor_and_jobs_on_several() {
    let before = allowed();
    for keep_threads in [false, true] {
        let config = Config { seeds: 20, keep_threads, ..Config::default() };
        let one = seen(config.clone());
        assert!(one.len() == 1 && one.first().unwrap().len() == 1, "{one:?}");
        let jobs = before.len().min(4);
        let many = seen(Config { jobs, seeds: 2000, depth: Some(1), ..config.clone() });
        assert!(
            many.iter().all(|processors| processors.len() == 1) && (many.len() > 1 || jobs == 1),
            "{many:?}"
        );
        assert_eq!(seen(Config { pin: false, ..config }), BTreeSet::from([before.clone()]));
        assert_eq!(allowed(), before);
    }
    others_are_left_alone(&before);
}

/// A processor that another process has marked is taken only where there is no other one. Tests
/// elsewhere mark some, too, so it is tried some times.
fn others_are_left_alone(processors: &[usize]) {
    let mark = |processor: &usize| {
        let address = SocketAddr::from_abstract_name(format!("pct processor {processor}")).unwrap();
        UnixListener::bind_addr(&address).ok()
    };
    let (last, rest) = processors.split_last().unwrap();
    let config = Config { seeds: 20, ..Config::default() };
    let is_last_taken = || {
        let _marks: Vec<_> = rest.iter().map(mark).collect();
        seen(config.clone()) == BTreeSet::from([vec![*last]])
    };
    assert!((0..20).any(|_| is_last_taken()));
    let _marks: Vec<_> = processors.iter().map(mark).collect();
    assert!(seen(config).iter().all(|processors| processors.len() == 1));
}
