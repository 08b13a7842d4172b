//! A pool of threads with a planted bug: it is closed without its mutex, and so perhaps between a
//! worker's look and its wait, which nobody ends then. `cargo run --example pool` finds it, and
//! leaves the trace and the document of the shortest failing run: `pct-hunt --page pool.json` makes
//! a page of it.

use pct::sync::atomic::{AtomicBool, AtomicU32, Ordering::SeqCst};
use pct::sync::{Arc, Condvar, Mutex};
use pct::{thread, Config};
use std::collections::VecDeque;

type Job = Box<dyn FnOnce() + Send>;

struct Shared {
    jobs: Mutex<VecDeque<Job>>,
    is_closed: AtomicBool,
    changed: Condvar,
}

fn work(shared: &Shared) {
    loop {
        let mut jobs = shared.jobs.lock().expect("no job panics");
        let job = loop {
            match jobs.pop_front() {
                Some(job) => break job,
                None if shared.is_closed.load(SeqCst) => return,
                None => jobs = shared.changed.wait(jobs).expect("no job panics"),
            }
        };
        drop(jobs);
        job();
    }
}

struct Pool {
    shared: Arc<Shared>,
    workers: Vec<thread::JoinHandle<()>>,
}

impl Pool {
    fn new(many: u32) -> Pool {
        let shared = Arc::new(Shared {
            jobs: Mutex::new(VecDeque::new()),
            is_closed: AtomicBool::new(false),
            changed: Condvar::new(),
        });
        pct::name("jobs", &shared.jobs);
        pct::name("is_closed", &shared.is_closed);
        pct::name("changed", &shared.changed);
        let worker = |number| {
            let shared = shared.clone();
            let builder = thread::Builder::new().name(format!("Worker{number}"));
            builder.spawn(move || work(&shared)).expect("a thread is started")
        };
        Pool { workers: (1..=many).map(worker).collect(), shared }
    }

    fn run(&self, job: impl FnOnce() + Send + 'static) {
        self.shared.jobs.lock().expect("no job panics").push_back(Box::new(job));
        self.shared.changed.notify_one();
    }
}

impl Drop for Pool {
    fn drop(&mut self) {
        self.shared.is_closed.store(true, SeqCst); // without the mutex
        self.shared.changed.notify_all();
        for worker in self.workers.drain(..) {
            worker.join().expect("no job panics");
        }
    }
}

fn main() {
    let config = Config { name: Some("pool".into()), ..Config::default() };
    pct::check_with(config, || {
        let done = Arc::new(AtomicU32::new(0));
        pct::name("done", &done);
        let pool = Pool::new(2);
        for _ in 0..2 {
            let done = done.clone();
            pool.run(move || {
                done.fetch_add(1, SeqCst);
            });
        }
        drop(pool);
        assert_eq!(done.load(SeqCst), 2);
    });
}
