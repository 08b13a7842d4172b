//! Real code: a bounded queue for many who put and many who take, after Dmitry Vyukov's *Bounded
//! MPMC queue* (1024cores.net), and a pool of threads that shuts down, after the last chapter of
//! *The Rust Programming Language* (Klabnik, Nichols). Each has mistakes that show under sequential
//! consistency; each is found, and the mended forms pass.
#![allow(missing_docs)]

use pct::sync::atomic::{AtomicU32, AtomicUsize, Ordering::SeqCst};
use pct::sync::{Arc, Condvar, Mutex};
use pct::{hint, thread, Config};
use std::collections::VecDeque;

/// What is wrong with a queue.
#[derive(Clone, Copy, PartialEq, Eq)]
enum QueueMistake {
    None,
    /// A cell is said to be full before its value is there.
    SaysFullTooEarly,
    /// A place is taken by a load and a store in place of an exchange.
    TakesWithoutExchange,
    /// An emptied cell is said to be ready for the round that is on, not for the next one.
    ForgetsTheRound,
}

/// A cell and the number of the position that may use it next: to put, where it is the position, to
/// take, where it is one more.
struct Cell {
    sequence: AtomicUsize,
    value: AtomicU32,
}

struct Queue {
    cells: Vec<Cell>,
    head: AtomicUsize,
    tail: AtomicUsize,
    mistake: QueueMistake,
}

impl Queue {
    fn new(size: usize, mistake: QueueMistake) -> Queue {
        let cell = |number| Cell { sequence: AtomicUsize::new(number), value: AtomicU32::new(0) };
        let cells = (0..size).map(cell).collect();
        Queue { cells, head: AtomicUsize::new(0), tail: AtomicUsize::new(0), mistake }
    }

    /// Claims a position of `end` whose cell is ready for it; none where it isn't.
    fn claimed(&self, end: &AtomicUsize, ready: usize) -> Option<usize> {
        let mut position = end.load(SeqCst);
        loop {
            let sequence = self.cells[position % self.cells.len()].sequence.load(SeqCst);
            if sequence < position + ready {
                return None;
            }
            if sequence > position + ready {
                position = end.load(SeqCst);
            } else if self.mistake == QueueMistake::TakesWithoutExchange {
                end.store(position + 1, SeqCst);
                return Some(position);
            } else {
                match end.compare_exchange_weak(position, position + 1, SeqCst, SeqCst) {
                    Ok(_) => return Some(position),
                    Err(found) => position = found,
                }
            }
        }
    }

    fn put(&self, value: u32) -> bool {
        let Some(position) = self.claimed(&self.tail, 0) else { return false };
        let cell = &self.cells[position % self.cells.len()];
        if self.mistake == QueueMistake::SaysFullTooEarly {
            cell.sequence.store(position + 1, SeqCst);
            cell.value.store(value, SeqCst);
        } else {
            cell.value.store(value, SeqCst);
            cell.sequence.store(position + 1, SeqCst);
        }
        true
    }

    fn take(&self) -> Option<u32> {
        let position = self.claimed(&self.head, 1)?;
        let cell = &self.cells[position % self.cells.len()];
        let value = cell.value.load(SeqCst);
        let round =
            if self.mistake == QueueMistake::ForgetsTheRound { 0 } else { self.cells.len() };
        cell.sequence.store(position + round, SeqCst);
        Some(value)
    }
}

/// Two who put two values each and two who take two each: the sum of what is taken is that of what
/// was put.
fn queue(mistake: QueueMistake) -> impl Fn() + Copy + Send + Sync + 'static {
    move || {
        let queue = Arc::new(Queue::new(2, mistake));
        let putters: Vec<_> = [[1, 2], [10, 20]]
            .into_iter()
            .map(|values| {
                let queue = queue.clone();
                thread::spawn(move || {
                    for value in values {
                        while !queue.put(value) {
                            hint::spin_loop();
                        }
                    }
                })
            })
            .collect();
        let mut sum = 0;
        for _ in 0..4 {
            sum += loop {
                match queue.take() {
                    Some(value) => break value,
                    None => hint::spin_loop(),
                }
            };
        }
        putters.into_iter().for_each(|putter| putter.join().unwrap());
        assert_eq!(sum, 33);
    }
}

/// What is wrong with a pool.
#[derive(Clone, Copy, PartialEq, Eq)]
enum PoolMistake {
    None,
    /// It waits for its workers before it tells them.
    JoinsFirst,
    /// It wakes one of its workers.
    WakesOne,
    /// It says so without the mutex.
    SaysWithoutMutex,
    /// A worker that is told goes home, though there is work.
    LeavesWork,
}

type Job = Box<dyn FnOnce() + Send>;

#[derive(Default)]
struct Shared {
    jobs: Mutex<VecDeque<Job>>,
    is_closed: AtomicU32,
    changed: Condvar,
}

struct Pool {
    shared: Arc<Shared>,
    workers: Vec<thread::JoinHandle<()>>,
    mistake: PoolMistake,
}

fn work(shared: &Shared, mistake: PoolMistake) {
    loop {
        let mut jobs = shared.jobs.lock().unwrap();
        let job = loop {
            let is_closed = shared.is_closed.load(SeqCst) == 1;
            if is_closed && mistake == PoolMistake::LeavesWork {
                return;
            }
            match jobs.pop_front() {
                Some(job) => break job,
                None if is_closed => return,
                None => jobs = shared.changed.wait(jobs).unwrap(),
            }
        };
        drop(jobs);
        job();
    }
}

impl Pool {
    fn new(many: usize, mistake: PoolMistake) -> Pool {
        let shared = Arc::new(Shared::default());
        let worker = |_| {
            let shared = shared.clone();
            thread::spawn(move || work(&shared, mistake))
        };
        Pool { workers: (0..many).map(worker).collect(), shared, mistake }
    }

    fn run(&self, job: impl FnOnce() + Send + 'static) {
        self.shared.jobs.lock().unwrap().push_back(Box::new(job));
        self.shared.changed.notify_one();
    }

    fn close(&self) {
        if self.mistake == PoolMistake::SaysWithoutMutex {
            self.shared.is_closed.store(1, SeqCst);
        } else {
            let _jobs = self.shared.jobs.lock().unwrap();
            self.shared.is_closed.store(1, SeqCst);
        }
        match self.mistake {
            PoolMistake::WakesOne => self.shared.changed.notify_one(),
            _ => self.shared.changed.notify_all(),
        }
    }

    fn join(&mut self) {
        self.workers.drain(..).for_each(|worker| worker.join().unwrap());
    }
}

impl Drop for Pool {
    fn drop(&mut self) {
        if self.mistake == PoolMistake::JoinsFirst {
            self.join();
        }
        self.close();
        self.join();
    }
}

fn pool(mistake: PoolMistake) -> impl Fn() + Copy + Send + Sync + 'static {
    move || {
        let done = Arc::new(AtomicU32::new(0));
        let pool = Pool::new(2, mistake);
        for number in 1..=2 {
            let done = done.clone();
            pool.run(move || {
                done.fetch_add(number, SeqCst);
            });
        }
        drop(pool);
        assert_eq!(done.load(SeqCst), 3);
    }
}

/// The verdicts of the first seeds by which a test fails, stopped early by a small number of seeds.
#[track_caller]
fn is_found(test: impl Fn() + Copy + Send + Sync + 'static, kind: &str) {
    let found = [(1, 50), (2, 200), (3, 400)].into_iter().find_map(|(depth, seeds)| {
        let campaign = pct::campaign(
            Config { depth: Some(depth), seeds, keep_threads: true, ..Config::default() },
            test,
        );
        campaign.groups.first().map(|group| group.verdict.clone())
    });
    assert!(found.as_ref().is_some_and(|verdict| verdict.starts_with(kind)), "{found:?}");
}

/// 100,000 seeds where `PCT_TEST_LONG` says so, twice with the same sum of all steps.
#[track_caller]
fn passes(test: impl Fn() + Copy + Send + Sync + 'static) {
    let (seeds, jobs) =
        if std::env::var_os("PCT_TEST_LONG").is_some() { (100_000, 2) } else { (200, 1) };
    let config =
        Config { depth: Some(3), seeds, jobs, sum: true, keep_threads: true, ..Config::default() };
    let first = pct::campaign(config.clone(), test);
    assert_eq!(first.groups, [], "{}", &first.text[first.text.find("groups").unwrap_or(0)..]);
    assert_eq!(first.sum, pct::campaign(config, test).sum);
}

#[test]
fn a_queue_that_says_full_too_early_is_found() {
    is_found(queue(QueueMistake::SaysFullTooEarly), "failed main");
}

#[test]
fn a_queue_that_takes_without_exchange_is_found() {
    is_found(queue(QueueMistake::TakesWithoutExchange), "");
}

#[test]
fn a_queue_that_forgets_the_round_is_found() {
    is_found(queue(QueueMistake::ForgetsTheRound), "");
}

#[test]
fn the_queue_passes() {
    passes(queue(QueueMistake::None));
}

#[test]
fn a_pool_that_joins_first_is_found() {
    is_found(pool(PoolMistake::JoinsFirst), "stuck");
}

#[test]
fn a_pool_that_wakes_one_is_found() {
    is_found(pool(PoolMistake::WakesOne), "stuck");
}

#[test]
fn a_pool_that_says_without_the_mutex_is_found() {
    is_found(pool(PoolMistake::SaysWithoutMutex), "stuck");
}

#[test]
fn a_pool_that_leaves_work_is_found() {
    is_found(pool(PoolMistake::LeavesWork), "failed main");
}

#[test]
fn the_pool_passes() {
    passes(pool(PoolMistake::None));
}
