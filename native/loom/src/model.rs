//! How a test is run.

use crate::{run, thread};
use pct::{Config, Panics};
use std::panic::Location;
use std::path::PathBuf;
use std::time::Duration;

/// How many runs are made of a test, and how.
#[derive(Clone, Debug)]
#[non_exhaustive]
pub struct Builder {
    /// Loom's most threads. Here it does nothing: there may be 64.
    pub max_threads: usize,
    /// After how many steps a run is cut, at most 100,000: 10,000, or `LOOM_MAX_BRANCHES`.
    pub max_branches: usize,
    /// How many runs are made, that in declared order first; without it 1,000 at each depth. By
    /// `LOOM_MAX_PERMUTATIONS` where that is set.
    pub max_permutations: Option<usize>,
    /// How long Loom goes on. Here it does nothing.
    pub max_duration: Option<Duration>,
    /// The depths are those up to one more than this, at most 8; without it up to 3. By
    /// `LOOM_MAX_PREEMPTIONS` where that is set.
    pub preemption_bound: Option<usize>,
    /// Where Loom keeps how far it is. Here it does nothing: a failing run's trace is always written.
    pub checkpoint_file: Option<PathBuf>,
    /// How often Loom keeps it. Here it does nothing.
    pub checkpoint_interval: usize,
    /// Whether Loom keeps where operations are. Here it does nothing: lines are always told.
    pub location: bool,
    /// Whether Loom writes a log. Here it does nothing.
    pub log: bool,
    /// Whether Loom tries other schedules from the start. Here it does nothing.
    pub expect_explicit_explore: bool,
}

/// A thread that spins without a hint rests after so many steps in a row.
const REST_AFTER: u32 = 200;

/// A number of the environment.
fn number(name: &str) -> Option<usize> {
    let text = std::env::var(name).ok()?;
    Some(text.parse().unwrap_or_else(|_| panic!("{name} is no number: {text}")))
}

impl Default for Builder {
    fn default() -> Builder {
        Builder::new()
    }
}

impl Builder {
    /// By the environment, where it says something.
    pub fn new() -> Builder {
        Builder {
            max_threads: 64,
            max_branches: number("LOOM_MAX_BRANCHES").unwrap_or(10_000),
            max_permutations: number("LOOM_MAX_PERMUTATIONS"),
            max_duration: None,
            preemption_bound: number("LOOM_MAX_PREEMPTIONS"),
            checkpoint_file: None,
            checkpoint_interval: 20_000,
            location: false,
            log: false,
            expect_explicit_explore: false,
        }
    }

    /// Names a file for Loom's checkpoints.
    pub fn checkpoint_file(&mut self, file: &str) -> &mut Builder {
        self.checkpoint_file = Some(file.into());
        self
    }

    /// Makes the runs.
    ///
    /// # Panics
    ///
    /// Where a run fails.
    #[track_caller]
    pub fn check<F>(&self, test: F)
    where
        F: Fn() + Sync + Send + 'static,
    {
        let place = Location::caller();
        pct::check_with(self.config(), move || of_run(&test, place, true));
    }

    fn config(&self) -> Config {
        Config {
            limit: self.max_branches.clamp(1, 100_000) as u32,
            deepest: self.preemption_bound.map_or(3, |bound| bound.min(7) as u32 + 1),
            runs: self.max_permutations.map(|runs| runs as u64),
            panics: Panics::AsStd,
            races: true,
            rest_after: Some(REST_AFTER),
            ..Config::default()
        }
    }
}

/// A run: the test, the ends of all threads, and what is left then, where leaks fail it.
#[doc(hidden)]
pub fn of_run(test: &impl Fn(), place: &'static Location<'static>, fails_by_leaks: bool) {
    let run = run::begin();
    test();
    thread::drop_locals();
    pct::layer::join_all_at(place);
    run.drop_statics();
    run.end(fails_by_leaks);
}

#[cfg(test)]
mod tests {
    use super::*;

    #[test]
    fn fields_mean_depths_runs_and_steps() {
        let mut builder = Builder::new();
        let of = |config: Config| (config.limit, config.deepest, config.runs);
        assert_eq!(of(builder.config()), (10_000, 3, None));
        builder.preemption_bound = Some(1);
        builder.max_permutations = Some(7);
        builder.max_branches = 1_000_000;
        assert_eq!(of(builder.config()), (100_000, 2, Some(7)));
        builder.preemption_bound = Some(100);
        assert_eq!(builder.config().deepest, 8);
    }
}
