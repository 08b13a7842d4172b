//! How many runs and steps a second: `cargo run --release --example bench [RUNS]`. Three threads
//! and eight steps, and two threads that hand over at each change point of long runs. `bench.pct`
//! beside it is the same as a script, for `pct campaign`.

use pct::sync::atomic::{AtomicUsize, Ordering::SeqCst};
use pct::sync::Arc;
use pct::{thread, Config};
use std::time::Instant;

/// Two starts, two begins, two additions, two joins.
fn eight_steps() {
    let n = Arc::new(AtomicUsize::new(0));
    let adders: Vec<_> = (0..2)
        .map(|_| {
            let n = n.clone();
            thread::spawn(move || {
                n.fetch_add(1, SeqCst);
            })
        })
        .collect();
    adders.into_iter().for_each(|adder| adder.join().expect("it adds"));
}

/// 4,000 additions by each of two threads.
fn long() {
    let n = Arc::new(AtomicUsize::new(0));
    let other = n.clone();
    let adder = thread::spawn(move || {
        (0..4000).for_each(|_| {
            other.fetch_add(1, SeqCst);
        })
    });
    (0..4000).for_each(|_| {
        n.fetch_add(1, SeqCst);
    });
    adder.join().expect("it adds");
}

fn measure(what: &str, config: Config, test: fn(), is_in_steps: bool) {
    let begun = Instant::now();
    let campaign = pct::campaign(config, test);
    let seconds = begun.elapsed().as_secs_f64();
    let (many, unit) = match is_in_steps {
        true => (campaign.rows.iter().map(|row| u64::from(row.steps)).sum(), "steps"),
        false => (campaign.rows.len() as u64, "runs"),
    };
    println!("{what}: {:.0} {unit} a second", many as f64 / seconds);
}

fn main() {
    let runs = std::env::args().nth(1).and_then(|runs| runs.parse().ok()).unwrap_or(20_000);
    let of = |seeds, jobs, keep_threads| Config {
        seeds,
        jobs,
        keep_threads,
        depth: Some(3),
        ..Config::default()
    };
    measure("fresh threads", of(runs / 5, 1, false), eight_steps, false);
    measure("kept threads", of(runs, 1, true), eight_steps, false);
    measure("kept threads, four jobs", of(runs, 4, true), eight_steps, false);
    measure("fresh threads, four jobs", of(runs / 5, 4, false), eight_steps, false);
    measure("two threads at depth 3", of(runs / 100, 1, true), long, true);
}
