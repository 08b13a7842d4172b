//! The runs of many seeds, merged in the order of the seeds.

use crate::config::{Config, Settings, MOST_PARKED};
use crate::ffi;
use crate::pin::Pin;
use crate::place::Sites;
use crate::raw::{Frame, Plan, RawGroup, RawRow};
use crate::runner::{NoRun, Order, Ran, Runner};
use crate::told::{translated, Drawn, Run};
use crate::{seat, Place, Test};
use std::collections::BTreeMap;
use std::ops::ControlFlow;
use std::panic::Location;
use std::sync::atomic::{AtomicBool, AtomicU64, Ordering::Relaxed};
use std::sync::{mpsc, Arc};

/// A test with what is known of it.
pub(crate) struct Search<T> {
    pub test: Arc<T>,
    pub settings: Arc<Settings>,
    pub runner: Runner<T>,
    pub threads: u32,
    pub steps: u32,
    pub sites: Sites,
    /// The run in declared order, until somebody takes it.
    pub first: Option<Ran>,
    pub parked: u64,
    pin: Option<Pin>,
}

/// Why a search came to no end.
pub(crate) enum Stop {
    Sentence(String),
    /// A run started more threads than there are in an order.
    MoreThreads,
}

impl From<NoRun> for Stop {
    fn from(no_run: NoRun) -> Stop {
        match no_run {
            NoRun::MoreThreads => Stop::MoreThreads,
            NoRun::Sentence(sentence) => Stop::Sentence(sentence),
        }
    }
}

/// What a run by a seed came to, in a job.
type Made = (u64, Result<Ran, NoRun>);

impl<T: Test> Search<T> {
    /// Without a run yet.
    pub fn new(test: Arc<T>, settings: Settings) -> Result<Search<T>, String> {
        if !ffi::is_of_this_version() {
            return Err("the library that was linked has another version than this crate".into());
        }
        if let Some(fault) = settings.config.fault() {
            return Err(fault);
        }
        seat::install_hook();
        let settings = Arc::new(settings);
        let pin = settings.config.pin.then(Pin::claim).flatten();
        let runner = Runner::new(test.clone(), settings.clone());
        let (threads, steps) =
            (settings.config.threads.unwrap_or(0), settings.config.steps.unwrap_or(1));
        Ok(Search {
            test,
            settings,
            runner,
            threads,
            steps,
            sites: Sites::default(),
            first: None,
            parked: 0,
            pin,
        })
    }

    /// With the run in declared order, with room for 64 threads: those that nobody starts change
    /// nothing. It gives the number of threads and of steps.
    pub fn begin(test: Arc<T>, settings: Settings) -> Result<Search<T>, String> {
        let mut search = Search::new(test, settings)?;
        let mut order = Order::declared(64);
        order.keeps_steps = true;
        let first = search.runner.run(order).map_err(|no_run| match no_run {
            NoRun::MoreThreads => "a run has at most 64 threads".to_owned(),
            NoRun::Sentence(sentence) => sentence,
        })?;
        search.threads = search.threads.max(first.needed);
        search.steps = search.settings.config.steps.unwrap_or(first.steps).max(1);
        search.sites.absorb(&first.places);
        search.parked = u64::from(first.parked);
        search.first = Some(first);
        Ok(search)
    }

    pub fn order(&self, seed: u64, depth: u32) -> Result<Order, NoRun> {
        let (order, points) = ffi::draw(seed, self.threads, self.steps, depth)
            .map_err(|refused| NoRun::Sentence(refused.to_string()))?;
        Ok(Order {
            plan: Plan::Points { order, points },
            threads: self.threads,
            random: seed,
            keeps_steps: self.settings.config.sum,
        })
    }

    /// Makes the runs of so many seeds, and calls `each` with them in the order of the seeds until it
    /// breaks.
    pub fn seeds(
        &mut self,
        depth: u32,
        many: u64,
        each: &mut dyn FnMut(u64, Ran) -> ControlFlow<()>,
    ) -> Result<(), Stop> {
        let config = &self.settings.config;
        let seeds = config.from..config.from.saturating_add(many);
        if config.jobs > 1 {
            return self.seeds_by_jobs(seeds, depth, each);
        }
        for seed in seeds {
            let order = self.order(seed, depth)?;
            let ran = self.runner.run(order)?;
            self.parked += u64::from(ran.parked);
            self.sites.absorb(&ran.places);
            if each(seed, ran).is_break() {
                break;
            }
        }
        Ok(())
    }

    fn seeds_by_jobs(
        &mut self,
        seeds: std::ops::Range<u64>,
        depth: u32,
        each: &mut dyn FnMut(u64, Ran) -> ControlFlow<()>,
    ) -> Result<(), Stop> {
        let (next, is_stopped) = (AtomicU64::new(seeds.start), AtomicBool::new(false));
        let (mut sites, mut parked) = (std::mem::take(&mut self.sites), self.parked);
        // Threads begin where their maker may run: the jobs choose among all processors again.
        let is_pinned = self.pin.take().is_some();
        let this = &*self;
        let merged = std::thread::scope(|scope| {
            let (tell, told) = mpsc::sync_channel::<Made>(256);
            for _ in 0..this.settings.config.jobs {
                let (tell, next, is_stopped, seeds) = (tell.clone(), &next, &is_stopped, &seeds);
                scope.spawn(move || this.job(seeds, next, is_stopped, depth, &tell));
            }
            drop(tell);
            let merged = merge(told, seeds.start, &mut |seed, ran: Ran| {
                parked += u64::from(ran.parked);
                sites.absorb(&ran.places);
                each(seed, ran)
            });
            is_stopped.store(true, Relaxed);
            merged
        });
        self.pin = is_pinned.then(Pin::claim).flatten();
        self.sites = sites;
        self.parked = parked;
        merged
    }

    fn job(
        &self,
        seeds: &std::ops::Range<u64>,
        next: &AtomicU64,
        is_stopped: &AtomicBool,
        depth: u32,
        tell: &mpsc::SyncSender<Made>,
    ) {
        let _pin = self.settings.config.pin.then(Pin::claim).flatten();
        let mut runner = Runner::new(self.test.clone(), self.settings.clone());
        while !is_stopped.load(Relaxed) {
            let seed = next.fetch_add(1, Relaxed);
            if seed >= seeds.end {
                return;
            }
            let made = self.order(seed, depth).and_then(|order| runner.run(order));
            let is_last = made.is_err();
            if tell.send((seed, made)).is_err() || is_last {
                return;
            }
        }
    }

    /// Whether too many threads stay parked.
    pub fn has_too_many_parked(&self) -> Option<String> {
        (self.parked >= MOST_PARKED).then(|| {
            format!(
                "{} threads of failing runs stay parked, which a process may not have in any \
                 number: take fewer seeds, or mend what \
                 fails first",
                self.parked
            )
        })
    }

    pub fn told(&self, ran: Ran, drawn: Option<Drawn>) -> Run {
        Run::new(ran, self.settings.clone(), self.sites.clone(), drawn, self.threads)
    }
}

/// Runs that come in any order, in that of their seeds.
fn merge(
    told: mpsc::Receiver<Made>,
    from: u64,
    each: &mut dyn FnMut(u64, Ran) -> ControlFlow<()>,
) -> Result<(), Stop> {
    let (mut early, mut next) = (BTreeMap::new(), from);
    for (seed, made) in told {
        early.insert(seed, made);
        while let Some(made) = early.remove(&next) {
            if each(next, made?).is_break() {
                return Ok(());
            }
            next += 1;
        }
    }
    Ok(())
}

/// The run of one seed of a campaign.
#[derive(Clone, Debug, PartialEq, Eq)]
pub struct Row {
    /// The seed.
    pub seed: u64,
    /// How many steps it took.
    pub steps: u32,
    /// Its verdict, as a trace has it.
    pub verdict: String,
}

/// Failures that have one verdict.
#[derive(Clone, Debug, PartialEq, Eq)]
pub struct Group {
    /// How many there are.
    pub count: u32,
    /// The steps of the shortest one.
    pub steps: u32,
    /// The seed of the first one.
    pub first: u64,
    /// Their verdict, as a trace has it.
    pub verdict: String,
}

/// The runs of many seeds, and their failures in groups.
#[derive(Clone, Debug, PartialEq, Eq)]
pub struct Campaign {
    /// How many threads an order has.
    pub threads: u32,
    /// From which steps change points were drawn.
    pub steps: u32,
    /// One more than the number of change points.
    pub depth: u32,
    /// After how many steps a run was cut.
    pub limit: u32,
    /// The runs, in the order of their seeds.
    pub rows: Vec<Row>,
    /// The failures by their verdicts, the most frequent first.
    pub groups: Vec<Group>,
    /// A sum of all steps, where `Config::sum` asks for it, else 0.
    pub sum: u64,
    /// The report, as `pct campaign` writes it.
    pub text: String,
    /// The report as JSON.
    pub json: String,
}

/// Makes the runs of many seeds at one depth, 3 where the configuration has none.
///
/// # Panics
///
/// Where a run can't be made, or too many threads stay parked after failing runs, with a sentence.
#[track_caller]
pub fn campaign<T: Test>(config: Config, test: T) -> Campaign {
    let place = test.place().unwrap_or(Place::of(Location::caller()));
    let depth = config.depth.unwrap_or(3);
    let settings = Settings::new(config, place);
    let searched =
        Search::begin(Arc::new(test), settings).and_then(|search| rows_of(search, depth));
    searched.unwrap_or_else(|sentence| panic!("pct: {sentence}"))
}

fn rows_of<T: Test>(mut search: Search<T>, depth: u32) -> Result<Campaign, String> {
    loop {
        let (mut rows, mut sum, mut parked, mut last) = (Vec::new(), 0, search.parked, None);
        let mut names = search
            .first
            .as_ref()
            .map(|first| crate::names::Names::of(first, search.threads))
            .unwrap_or_default();
        let mut sites = search.sites.clone();
        let many = search.settings.config.seeds;
        let searched = search.seeds(depth, many, &mut |seed, ran| {
            sites.absorb(&ran.places);
            sum = summed(sum, &ran);
            let verdict = translated(&ran.outcome, |line| sites.line(&ran.places, line));
            rows.push(RawRow { seed, steps: ran.steps, verdict });
            parked += u64::from(ran.parked);
            if !ran.passed() && last.is_none() {
                names = crate::names::Names::of(&ran, ran.order.threads);
                last = Some(seed);
            }
            if parked >= MOST_PARKED {
                ControlFlow::Break(())
            } else {
                ControlFlow::Continue(())
            }
        });
        match searched {
            Err(Stop::Sentence(sentence)) => return Err(sentence),
            Err(Stop::MoreThreads) => search.threads += 1,
            Ok(()) => {
                if let Some(sentence) = search.has_too_many_parked() {
                    return Err(sentence);
                }
                let frame = Frame {
                    threads: search.threads,
                    steps: search.steps,
                    depth,
                    limit: search.settings.config.limit,
                };
                return told(&names.text(), frame, &rows, sum)
                    .map_err(|refused| refused.to_string());
            }
        }
    }
}

fn told(
    names: &str,
    frame: Frame,
    rows: &[RawRow],
    sum: u64,
) -> Result<Campaign, crate::raw::Refused> {
    let row = |row: &RawRow| {
        Ok(Row {
            seed: row.seed,
            steps: row.steps,
            verdict: ffi::verdict_text(names, &row.verdict)?,
        })
    };
    let group = |group: &RawGroup| {
        let verdict = ffi::verdict_text(names, &group.verdict)?;
        Ok(Group { count: group.count, steps: group.steps, first: group.first, verdict })
    };
    Ok(Campaign {
        threads: frame.threads,
        steps: frame.steps,
        depth: frame.depth,
        limit: frame.limit,
        rows: rows.iter().map(row).collect::<Result<_, _>>()?,
        groups: ffi::groups(rows)?.iter().map(group).collect::<Result<_, _>>()?,
        sum,
        text: ffi::report_text(names, &frame, rows, false)?,
        json: ffi::report_text(names, &frame, rows, true)?,
    })
}

/// FNV-1a over all numbers of all steps and of the outcome.
fn summed(sum: u64, ran: &Ran) -> u64 {
    let mix = |sum: u64, number: u64| (sum ^ number).wrapping_mul(0x0100_0000_01b3);
    let start = if sum == 0 { 0xcbf2_9ce4_8422_2325 } else { sum };
    let steps = ran.events.iter().fold(start, |sum, event| {
        let ask = &event.ask;
        let words = [event.thread, event.line, ask.kind, ask.a, ask.b].map(u64::from);
        words
            .into_iter()
            .chain([ask.x, ask.y, event.answer].map(|value| value as u64))
            .fold(sum, mix)
    });
    [ran.outcome.kind, ran.outcome.thread, ran.outcome.line]
        .into_iter()
        .map(u64::from)
        .fold(steps, mix)
}
