//! Real threads: fresh ones, and those that a runner keeps from run to run.

use crate::live::Live;
use crate::state::Fault;
use crate::test::Body;
use std::sync::atomic::{AtomicBool, Ordering::Acquire, Ordering::Release};
use std::sync::{Arc, Mutex, OnceLock};
use std::thread::{self, Builder, Thread};

type Job = (Arc<Live>, u32, Body);

/// A kept thread. It serves the threads of one number.
struct Worker {
    job: Mutex<Option<Job>>,
    is_free: AtomicBool,
    is_closed: AtomicBool,
    thread: OnceLock<Thread>,
}

/// The kept threads of one runner, by the number of the thread that they serve.
#[derive(Default)]
pub(crate) struct Pool {
    workers: Mutex<Vec<Option<Arc<Worker>>>>,
}

impl Drop for Pool {
    fn drop(&mut self) {
        let Ok(workers) = self.workers.get_mut() else { return };
        for worker in workers.iter().flatten() {
            worker.is_closed.store(true, Release);
            if let Some(thread) = worker.thread.get() {
                thread.unpark();
            }
        }
    }
}

impl Pool {
    /// The thread that serves a number. One that stayed in a failing run is left there.
    fn serve(&self, live: &Arc<Live>, me: u32, body: Body) -> Result<Thread, Fault> {
        let mut workers = self.workers.lock().map_err(|_| "a pool is poisoned")?;
        if workers.len() <= me as usize {
            workers.resize_with(me as usize + 1, || None);
        }
        let place = &mut workers[me as usize];
        let worker = match place.take().filter(|worker| worker.is_free.load(Acquire)) {
            Some(worker) => worker,
            None => new_worker(live, me)?,
        };
        worker.is_free.store(false, Release);
        *worker.job.lock().map_err(|_| "a kept thread's job is poisoned")? =
            Some((live.clone(), me, body));
        let thread = worker.thread.get().ok_or("a kept thread wasn't started")?.clone();
        *place = Some(worker);
        Ok(thread)
    }
}

fn new_worker(live: &Arc<Live>, me: u32) -> Result<Arc<Worker>, Fault> {
    let worker = Arc::new(Worker {
        job: Mutex::new(None),
        is_free: AtomicBool::new(true),
        is_closed: AtomicBool::new(false),
        thread: OnceLock::new(),
    });
    let own = worker.clone();
    let spawned =
        builder(live, Some(format!("pct {me}"))).spawn(move || own.work()).map_err(not_started)?;
    worker.thread.get_or_init(|| spawned.thread().clone());
    Ok(worker)
}

impl Worker {
    fn work(&self) {
        while !self.is_closed.load(Acquire) {
            let job = self.job.lock().ok().and_then(|mut job| job.take());
            match job {
                // It is free before the run knows that the thread has ended, since the next run may
                // begin at once.
                Some((live, me, body)) => {
                    live.body(me, Some(&|| self.is_free.store(true, Release)), body)
                }
                None => thread::park(),
            }
        }
    }
}

fn builder(live: &Live, name: Option<String>) -> Builder {
    let builder = match live.settings.config.stack {
        Some(size) => Builder::new().stack_size(size),
        None => Builder::new(),
    };
    match name {
        Some(name) => builder.name(name),
        None => builder,
    }
}

fn not_started(error: std::io::Error) -> Fault {
    format!("a real thread can't be started: {error}")
}

/// Starts the real thread of a thread. It waits for the baton.
pub(crate) fn launch(
    live: &Arc<Live>,
    me: u32,
    name: Option<String>,
    stack: Option<usize>,
    body: Body,
) -> Result<(), Fault> {
    if let Some(pool) = &live.pool {
        let thread = pool.serve(live, me, body)?;
        live.seat_thread(me, thread.clone())?;
        thread.unpark();
        return Ok(());
    }
    let own = live.clone();
    let mut builder = builder(live, name);
    if let Some(size) = stack {
        builder = builder.stack_size(size);
    }
    let spawned = builder.spawn(move || own.body(me, None, body)).map_err(not_started)?;
    live.seat_thread(me, spawned.thread().clone())
}
