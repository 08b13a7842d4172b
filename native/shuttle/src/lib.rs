//! Shuttle's calls over pct: a crate's tests for Shuttle run as they are, by schedules that PCT draws.
//!
//! ```
//! use shuttle::sync::{Arc, Mutex};
//!
//! shuttle::check_random(|| {
//!     let count = Arc::new(Mutex::new(0));
//!     let other = count.clone();
//!     let adder = shuttle::thread::spawn(move || *other.lock().unwrap() += 1);
//!     *count.lock().unwrap() += 1;
//!     adder.join().unwrap();
//!     assert_eq!(*count.lock().unwrap(), 2);
//! }, 100);
//! ```

pub mod current;
pub mod rand;

pub use loom::{lazy_static, thread_local};

/// Hints.
pub mod hint {
    pub use pct::hint::*;
}

/// Futures, and tasks, each of which is a thread of the run.
pub mod future {
    pub use pct::future::{block_on, spawn, yield_now, JoinError, JoinHandle};
}

/// What threads share.
pub mod sync {
    pub use pct::sync::*;
}

/// Threads and what each has its own of.
pub mod thread {
    pub use loom::thread::*;
}

use pct::{Config, Panics};
use std::panic::Location;
use std::path::Path;

fn config(iterations: usize) -> Config {
    Config { runs: Some(iterations as u64), panics: Panics::AsStd, ..Config::default() }
}

#[track_caller]
fn check<F>(config: Config, test: F)
where
    F: Fn() + Send + Sync + 'static,
{
    let place = Location::caller();
    let seeds = config.runs.unwrap_or(config.seeds);
    pct::check_with(Config { seeds, ..config }, move || loom::model::of_run(&test, place, false));
}

/// Makes so many runs, that in declared order first. The others' schedules are PCT's here, too, of
/// the depths 1 to 3.
///
/// # Panics
///
/// Where a run fails.
#[track_caller]
pub fn check_random<F>(test: F, iterations: usize)
where
    F: Fn() + Send + Sync + 'static,
{
    check(config(iterations), test);
}

/// As [`check_random`], with the first seed.
///
/// # Panics
///
/// Where a run fails.
#[track_caller]
pub fn check_random_with_seed<F>(test: F, seed: u64, iterations: usize)
where
    F: Fn() + Send + Sync + 'static,
{
    check(Config { from: seed, ..config(iterations) }, test);
}

/// Makes so many runs at a depth, 1 to 8, that in declared order first.
///
/// # Panics
///
/// Where a run fails, or the depth is out of range.
#[track_caller]
pub fn check_pct<F>(test: F, iterations: usize, depth: usize)
where
    F: Fn() + Send + Sync + 'static,
{
    let depth = u32::try_from(depth).unwrap_or(u32::MAX);
    check(Config { depth: Some(depth), ..config(iterations) }, test);
}

/// Shuttle searches all schedules, up to so many. Here it is **no search**: so many are drawn, 3,000
/// without a number, and a line says so.
///
/// # Panics
///
/// Where a run fails.
#[track_caller]
pub fn check_dfs<F>(test: F, most: Option<usize>)
where
    F: Fn() + Send + Sync + 'static,
{
    let iterations = most.unwrap_or(3000);
    eprintln!("pct: check_dfs draws {iterations} schedules, and doesn't search all of them");
    check(config(iterations), test);
}

/// Makes the run of a trace file again, as a failing check wrote it. A schedule that Shuttle wrote
/// isn't read.
///
/// # Panics
///
/// Where the run fails again, or the file can't be read.
#[track_caller]
pub fn replay<F>(test: F, trace: &str)
where
    F: Fn() + Send + Sync + 'static,
{
    let place = Location::caller();
    let config = Config { panics: Panics::AsStd, ..Config::default() };
    let told = pct::replay(config, Path::new(trace), move || {
        loom::model::of_run(&test, place, false);
    });
    assert!(told.run.passed(), "{}", told.run.sentence());
}

/// As [`replay`].
///
/// # Panics
///
/// Where the run fails again, or the file can't be read.
#[track_caller]
pub fn replay_from_file<F>(test: F, trace: impl AsRef<Path>)
where
    F: Fn() + Send + Sync + 'static,
{
    replay(test, &trace.as_ref().to_string_lossy());
}
