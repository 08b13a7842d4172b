//! Single runs: under an order and change points, or by a seed.

use crate::campaign::Search;
use crate::check::single;
use crate::config::{Config, Settings};
use crate::names::Names;
use crate::raw::Plan;
use crate::runner::{NoRun, Order};
use crate::told::{Drawn, Run};
use crate::{Place, Test};
use std::panic::Location;
use std::sync::Arc;

/// How a single run is made.
#[derive(Clone, Debug, Default, PartialEq, Eq)]
pub struct Schedule {
    seed: Option<(u64, u32)>,
    order: Vec<String>,
    points: Vec<u32>,
}

impl Schedule {
    /// In declared order, without change points.
    pub fn declared() -> Schedule {
        Schedule::default()
    }

    /// By what a seed draws at a depth.
    pub fn seed(seed: u64, depth: u32) -> Schedule {
        Schedule { seed: Some((seed, depth)), ..Schedule::default() }
    }

    /// By an order of the threads' names, the highest priority first. Threads that aren't named
    /// come behind, in declared order.
    pub fn order(names: &[&str]) -> Schedule {
        Schedule {
            order: names.iter().map(|name| (*name).to_owned()).collect(),
            ..Schedule::default()
        }
    }

    /// With these change points, at most 7: right after each of these steps its thread is lowered
    /// below all that never were.
    pub fn points(mut self, points: &[u32]) -> Schedule {
        self.points = points.to_vec();
        self
    }

    fn made<T: Test>(&self, search: &Search<T>) -> Result<(Order, Option<Drawn>), String> {
        if let Some((seed, depth)) = self.seed {
            let config = Config { depth: Some(depth), ..search.settings.config.clone() };
            if let Some(fault) = config.fault() {
                return Err(fault);
            }
            let mut order = search.order(seed, depth).map_err(sentence)?;
            order.keeps_steps = true;
            return Ok((order, Some(Drawn { seed, depth, steps: search.steps })));
        }
        if self.points.len() > 7 || self.points.iter().any(|point| !(1..=100_000).contains(point)) {
            return Err(format!(
                "a schedule has at most 7 change points from 1 to 100000, and not {:?}",
                self.points
            ));
        }
        let names =
            search.first.as_ref().map(|first| Names::of(first, search.threads)).unwrap_or_default();
        let plan = Plan::Points { order: self.numbers(&names)?, points: self.points.clone() };
        Ok((Order { plan, threads: search.threads, random: 0, keeps_steps: true }, None))
    }

    /// The numbers of the threads in the order of their priorities.
    fn numbers(&self, names: &Names) -> Result<Vec<u32>, String> {
        let mut order = Vec::new();
        for name in &self.order {
            let number = names.threads.iter().position(|known| known == name);
            let number = number
                .ok_or_else(|| format!("no thread is called {name}: {}", names.threads.join(" ")))?
                as u32;
            if order.contains(&number) {
                return Err(format!("the order has {name} twice"));
            }
            order.push(number);
        }
        let rest = (0..names.threads.len() as u32)
            .filter(|number| !order.contains(number))
            .collect::<Vec<_>>();
        Ok([order, rest].concat())
    }
}

pub(crate) fn sentence(no_run: NoRun) -> String {
    match no_run {
        NoRun::Sentence(sentence) => sentence,
        NoRun::MoreThreads => {
            "the run starts more threads than its order has: set Config::threads".into()
        }
    }
}

/// Begins a search for a call that makes single runs, and panics with its sentence.
pub(crate) fn searched<T: Test, R>(
    config: Config,
    test: T,
    place: Place,
    act: impl FnOnce(&mut Search<T>) -> Result<R, String>,
) -> R {
    let place = test.place().unwrap_or(place);
    let begun = Search::begin(Arc::new(test), Settings::new(config, place));
    begun
        .and_then(|mut search| act(&mut search))
        .unwrap_or_else(|sentence| panic!("pct: {sentence}"))
}

/// Makes one run. Its random numbers are those of the seed, or of 0.
///
/// # Panics
///
/// Where it can't be made, with a sentence.
#[track_caller]
pub fn run<T: Test>(config: Config, schedule: &Schedule, test: T) -> Run {
    let place = Place::of(Location::caller());
    searched(config, test, place, |search| run_in(search, schedule))
}

pub(crate) fn run_in<T: Test>(search: &mut Search<T>, schedule: &Schedule) -> Result<Run, String> {
    let (order, drawn) = schedule.made(search)?;
    single(search, order, drawn)
}
