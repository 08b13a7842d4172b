//! The check of a test: runs of many seeds, and what is said of a failure.

use crate::campaign::{Search, Stop};
use crate::config::Config;
use crate::config::Settings;
use crate::runner::{NoRun, Order, Ran, Runner};
use crate::single::sentence;
use crate::told::{Drawn, Run};
use crate::{files, report, Place, Test};
use std::ops::ControlFlow;
use std::panic::Location;
use std::sync::Arc;
use std::time::{Duration, Instant};

/// After the first failure so many more runs may fail, or so much time may pass.
const MOST_FAILING: u64 = 20;
const MOST_TIME: Duration = Duration::from_secs(2);

/// Makes the run in declared order and 1,000 runs each at the depths 1, 2 and 3, by the seeds from
/// 1, and panics where one fails: with what failed and where, the shortest failing run as lanes,
/// and the line that shows it again.
///
/// The environment's `PCT_SEEDS`, `PCT_DEPTH` and `PCT_FROM` set how many seeds, at which depth and
/// from which on; with `PCT_REPLAY` the run of that trace is made again instead.
///
/// # Panics
///
/// Where a run fails, or can't be made.
#[track_caller]
pub fn check<T: Test>(test: T) {
    check_at(Config::default(), test, Place::of(Location::caller()));
}

/// As [`check`], by a configuration.
///
/// # Panics
///
/// Where a run fails, or can't be made.
#[track_caller]
pub fn check_with<T: Test>(config: Config, test: T) {
    check_at(config, test, Place::of(Location::caller()));
}

#[track_caller]
fn check_at<T: Test>(config: Config, test: T, place: Place) {
    let place = test.place().unwrap_or(place);
    let config = by_environment(config);
    let mut settings = Settings::new(config, place);
    settings.count_check();
    if let Some(trace) = std::env::var_os("PCT_REPLAY") {
        return crate::replay::by_environment(settings, test, trace.as_ref());
    }
    match checked(settings, Arc::new(test)) {
        Ok(None) => (),
        Ok(Some(text)) => panic!("{text}"),
        Err(sentence) => panic!("pct: {sentence}"),
    }
}

/// What the environment says goes before the configuration.
fn by_environment(config: Config) -> Config {
    let number = |name: &str| {
        let text = std::env::var(name).ok()?;
        Some(text.parse::<u64>().unwrap_or_else(|_| panic!("pct: {name} is no number: {text}")))
    };
    let depth =
        number("PCT_DEPTH").map(|depth| depth.min(u64::from(u32::MAX)) as u32).or(config.depth);
    Config {
        seeds: number("PCT_SEEDS").unwrap_or(config.seeds),
        from: number("PCT_FROM").unwrap_or(config.from),
        depth,
        ..config
    }
}

/// The failures of a check so far.
pub(crate) struct Failures {
    pub count: u64,
    pub seeds: u64,
    pub in_declared_order: bool,
    shortest: Option<(Ran, Option<Drawn>)>,
    since: Option<Instant>,
}

impl Failures {
    fn new() -> Failures {
        Failures { count: 0, seeds: 0, in_declared_order: false, shortest: None, since: None }
    }

    fn take(&mut self, ran: Ran, drawn: Option<Drawn>) -> ControlFlow<()> {
        self.seeds += u64::from(drawn.is_some());
        if !ran.passed() {
            self.count += u64::from(drawn.is_some());
            self.in_declared_order |= drawn.is_none();
            self.since.get_or_insert_with(Instant::now);
            if self.shortest.as_ref().is_none_or(|(shortest, _)| ran.steps < shortest.steps) {
                self.shortest = Some((ran, drawn));
            }
        }
        let is_enough = self.count >= MOST_FAILING
            || self.since.is_some_and(|since| since.elapsed() >= MOST_TIME);
        if is_enough {
            ControlFlow::Break(())
        } else {
            ControlFlow::Continue(())
        }
    }
}

/// What is to be said of the shortest failing run, where there is one.
fn checked<T: Test>(settings: Settings, test: Arc<T>) -> Result<Option<String>, String> {
    let mut search = Search::begin(test, settings)?;
    let mut failures = Failures::new();
    let mut first = search.first.take();
    let declared =
        first.as_ref().map_or_else(|| Order::declared(search.threads), |first| first.order.clone());
    loop {
        if let Some(first) = first.take() {
            let _ = failures.take(first, None);
        }
        if has_run_all(&mut search, &mut failures)? {
            break;
        }
        // With one thread more every seed has another order: all of them are begun again.
        search.threads += 1;
        failures = Failures::new();
        first = Some(search.runner.run(declared.clone()).map_err(sentence)?);
    }
    let Some((ran, drawn)) = failures.shortest.take() else { return Ok(None) };
    let again = confirm(&mut search, &ran);
    let parked = search.parked;
    let run = search.told(ran, drawn);
    let written = files::write(&run);
    Ok(Some(report::failure(&run, &failures, parked, again.as_deref(), &written)))
}

/// The seeds of each depth, until the failures are enough. Not where a run starts more threads than
/// an order has.
fn has_run_all<T: Test>(search: &mut Search<T>, failures: &mut Failures) -> Result<bool, String> {
    for (depth, seeds) in shares(&search.settings.config) {
        let (mut is_enough, steps) = (false, search.steps);
        let searched = search.seeds(depth, seeds, &mut |seed, ran| {
            let flow = failures.take(ran, Some(Drawn { seed, depth, steps }));
            is_enough = flow.is_break();
            flow
        });
        match searched {
            Err(Stop::Sentence(sentence)) => return Err(sentence),
            Err(Stop::MoreThreads) => return Ok(false),
            Ok(()) if is_enough => return Ok(true),
            Ok(()) => (),
        }
    }
    Ok(true)
}

/// The depths, each with the number of its seeds.
fn shares(config: &Config) -> Vec<(u32, u64)> {
    let depths = config.depth.map_or(1..=config.deepest, |depth| depth..=depth);
    let many = depths.clone().count() as u64;
    let share = |index: u64| match config.runs {
        None => config.seeds,
        Some(runs) => (runs.saturating_sub(1) + many - 1 - index) / many,
    };
    depths.zip((0..many).map(|index| share(index).min(config.seeds))).collect()
}

/// Makes a failing run again, on fresh threads, and tells where it departs: the code isn't
/// deterministic then.
fn confirm<T: Test>(search: &mut Search<T>, ran: &Ran) -> Option<String> {
    let mut runner = Runner::new(search.test.clone(), search.settings.clone()).with_fresh_threads();
    let again = match runner.run(ran.order.clone()) {
        Ok(again) => again,
        Err(NoRun::MoreThreads) => {
            return Some(
                "made again it starts more threads: what is tested isn't deterministic".into(),
            )
        }
        Err(NoRun::Sentence(sentence)) => {
            return Some(format!("made again it has no end: {sentence}"))
        }
    };
    search.parked += u64::from(again.parked);
    let differs = ran
        .events
        .iter()
        .zip(&again.events)
        .position(|(one, other)| !is_same(ran, one, &again, other));
    let shorter = ran.events.len().min(again.events.len());
    let step = differs.or_else(|| {
        let is_same =
            ran.events.len() == again.events.len() && ran.outcome.kind == again.outcome.kind;
        (!is_same).then_some(shorter)
    });
    step.map(|step| {
        let at = |event: &crate::raw::Event| format!(" at {}", ran.place(event.line));
        let place = ran.events.get(step).map_or(String::new(), at);
        format!(
            "made again it departs at step {}{place}: what is tested isn't deterministic (hash \
             seeds, time, a static, a real thread)",
            step + 1
        )
    })
}

fn is_same(ran: &Ran, one: &crate::raw::Event, again: &Ran, other: &crate::raw::Event) -> bool {
    one.thread == other.thread
        && one.ask == other.ask
        && one.answer == other.answer
        && ran.place(one.line) == again.place(other.line)
}

/// The run by an order, for calls that make a single one.
pub(crate) fn single<T: Test>(
    search: &mut Search<T>,
    order: Order,
    drawn: Option<Drawn>,
) -> Result<Run, String> {
    let ran = search.runner.run(order).map_err(|no_run| match no_run {
        NoRun::Sentence(sentence) => sentence,
        NoRun::MoreThreads => {
            format!(
                "the run starts more threads than the {} of the run in declared order: set \
                 Config::threads",
                search.threads
            )
        }
    })?;
    search.sites.absorb(&ran.places);
    Ok(search.told(ran, drawn))
}

#[cfg(test)]
mod tests {
    use super::*;

    #[test]
    fn runs_are_shared_by_the_depths() {
        let of = |runs, deepest| shares(&Config { runs, deepest, ..Config::default() });
        assert_eq!(of(None, 3), [(1, 1000), (2, 1000), (3, 1000)]);
        assert_eq!(of(Some(1), 2), [(1, 0), (2, 0)]);
        assert_eq!(of(Some(6), 3), [(1, 2), (2, 2), (3, 1)]);
        let alone = Config { runs: Some(9), depth: Some(2), ..Config::default() };
        assert_eq!(shares(&alone), [(2, 8)]);
    }
}
