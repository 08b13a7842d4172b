//! How a test is run.

use crate::place::Place;
use std::collections::HashMap;
use std::path::PathBuf;
use std::sync::Mutex;
use std::time::Duration;

/// What a panic means.
#[derive(Clone, Copy, Debug, Default, PartialEq, Eq)]
pub enum Panics {
    /// It fails the run, also where it is caught.
    #[default]
    Fail,
    /// It unwinds as std's do: guards unlock by steps and poison, a join gives `Err`,
    /// `catch_unwind` catches. The run fails where it leaves the main closure, or a thread that
    /// nobody joins.
    AsStd,
}

/// How many runs of a test are made, and how. `Config::default()` has what `check` takes.
#[derive(Clone, Debug)]
pub struct Config {
    /// How many seeds are run at each depth: 1000.
    pub seeds: u64,
    /// The first seed: 1.
    pub from: u64,
    /// The depth, one more than the number of change points, 1 to 8. Without one, `check` takes 1,
    /// 2 and 3, and a campaign 3.
    pub depth: Option<u32>,
    /// How many threads an order has, 1 to 64. Without it, as many as the run in declared order
    /// starts.
    pub threads: Option<u32>,
    /// From which steps change points are drawn, 1 to this number, at most 100,000. Without it, as
    /// many as the run in declared order takes.
    pub steps: Option<u32>,
    /// After how many steps a run is cut: 10,000, at most 100,000.
    pub limit: u32,
    /// What a panic means.
    pub panics: Panics,
    /// How many runs are made at once: 1.
    pub jobs: usize,
    /// Whether real threads are kept from run to run. It is faster, and std's thread-locals aren't
    /// made anew.
    pub keep_threads: bool,
    /// The name of the test, where it isn't that of the thread, as cargo's tests have it.
    pub name: Option<String>,
    /// How long a thread may go on without a step before the check fails by it: ten seconds.
    pub patience: Duration,
    /// The size of a fresh thread's stack in bytes, where it isn't std's.
    pub stack: Option<usize>,
    /// Whether a runner and the threads of its runs are on one processor, which it claims: true.
    /// With one thread at a time a second one only costs.
    pub pin: bool,
    /// Whether two accesses of a [`cell::UnsafeCell`](crate::cell::UnsafeCell) that overlap, or that
    /// nothing orders, fail the run: false. The orderings that atomics and fences are given count.
    pub races: bool,
    /// After how many steps in a row a thread rests while another one can go: it waits until another
    /// one has changed something, may have to wait, or has ended. So a loop passes that waits without
    /// saying so. Each time it takes half as many steps in a row as before, at least 16. Without it no
    /// thread rests.
    pub rest_after: Option<u32>,
    /// The greatest depth that `check` takes where it has no depth, 1 to 8: 3.
    pub deepest: u32,
    /// How many runs `check` makes at most, that in declared order among them.
    pub runs: Option<u64>,
    /// Whether a campaign makes a sum of all steps of all runs, by which two campaigns are
    /// compared.
    pub sum: bool,
}

impl Default for Config {
    fn default() -> Config {
        Config {
            seeds: 1000,
            from: 1,
            depth: None,
            threads: None,
            steps: None,
            limit: 10_000,
            panics: Panics::Fail,
            jobs: 1,
            keep_threads: false,
            name: None,
            patience: Duration::from_secs(10),
            stack: None,
            pin: true,
            races: false,
            rest_after: None,
            deepest: 3,
            runs: None,
            sum: false,
        }
    }
}

impl Config {
    /// The first number that is out of range, in a sentence.
    pub(crate) fn fault(&self) -> Option<String> {
        let depth = self.depth.map(|depth| ("depth", depth, 1..=8));
        let threads = self.threads.map(|threads| ("threads", threads, 1..=64));
        let steps = self.steps.map(|steps| ("steps", steps, 1..=100_000));
        let limit = Some(("limit", self.limit, 1..=100_000));
        let deepest = Some(("deepest", self.deepest, 1..=8));
        let numbers = [depth, threads, steps, limit, deepest];
        let wrong =
            numbers.into_iter().flatten().find(|(_, number, range)| !range.contains(number));
        wrong.map(|(name, number, range)| {
            format!("Config::{name} is {} to {}, and not {number}", range.start(), range.end())
        })
    }
}

/// At most so many threads stay parked before a search is stopped.
pub(crate) const MOST_PARKED: u64 = 1000;

/// What is the same for all runs of a check.
#[derive(Debug)]
pub(crate) struct Settings {
    /// Where the check was called.
    pub place: Place,
    /// The test's name, as `cargo test -- --exact` takes it, where it is known.
    pub name: String,
    pub is_named: bool,
    pub config: Config,
    folder: PathBuf,
}

impl Settings {
    pub fn new(config: Config, place: Place) -> Settings {
        let known =
            config.name.clone().or_else(|| std::thread::current().name().map(str::to_owned));
        let (name, is_named) = match known {
            Some(name) if name != "main" => (name, true),
            _ => (format!("{}_{}", place.file.replace(['/', '\\', '.'], "_"), place.line), false),
        };
        Settings { place, name, is_named, config, folder: folder() }
    }

    pub fn panics_as_std(&self) -> bool {
        self.config.panics == Panics::AsStd
    }

    /// The name of the test's files: the next check of one test has another one.
    pub fn file_name(&self) -> String {
        let plain = |letter: char| {
            if letter.is_alphanumeric() || "_-.".contains(letter) {
                letter
            } else {
                '.'
            }
        };
        self.name.replace("::", ".").chars().map(plain).collect()
    }

    /// Where a file of this check is written.
    pub fn trace_path(&self, ending: &str) -> Option<PathBuf> {
        std::fs::create_dir_all(&self.folder).ok()?;
        Some(self.folder.join(format!("{}.{ending}", self.file_name())))
    }

    /// The second check of one test has a name of its own.
    pub fn count_check(&mut self) {
        static CHECKS: Mutex<Option<HashMap<String, u32>>> = Mutex::new(None);
        let Ok(mut checks) = CHECKS.lock() else { return };
        let count = checks.get_or_insert_default().entry(self.name.clone()).or_insert(0);
        *count += 1;
        if *count > 1 {
            self.name = format!("{}-{count}", self.name);
        }
    }

    /// The name by which cargo knows the test.
    pub fn test_name(&self) -> &str {
        match self.name.rsplit_once('-') {
            Some((test, count)) if count.bytes().all(|digit| digit.is_ascii_digit()) => test,
            _ => &self.name,
        }
    }
}

/// `pct` in cargo's folder for what it builds, else in the temporary one.
fn folder() -> PathBuf {
    let program = std::env::current_exe().ok();
    let built = program.as_deref().and_then(|program| {
        let deps = program
            .ancestors()
            .find(|folder| folder.ends_with("deps") || folder.ends_with("examples"))?;
        Some(deps.parent()?.parent()?.join("pct"))
    });
    built.unwrap_or_else(|| std::env::temp_dir().join("pct"))
}

/// The example of a package that this program is.
pub(crate) fn example() -> Option<String> {
    let program = std::env::current_exe().ok()?;
    let is_example = program.parent()?.ends_with("examples");
    program.file_stem().filter(|_| is_example).map(|name| name.to_string_lossy().into_owned())
}
