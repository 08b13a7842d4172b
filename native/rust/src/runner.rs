//! One run after another: the runner makes a run's threads, gives the baton to the first, and waits
//! for the end.

use crate::ask::kind;
use crate::config::Settings;
use crate::live::Live;
use crate::objects::{Kind, Objects, MOST};
use crate::place::{Place, Places};
use crate::pool::{self, Pool};
use crate::raw::{Ask, Deal, Event, Outcome, Plan};
use crate::replay::Follow;
use crate::state::{Access, End, Fault, Panicked, State};
use crate::test::{self, Test};
use crate::threads::{Path, Thread};
use std::sync::Arc;
use std::time::{Duration, Instant};

/// Makes runs of a test, one at a time. The deal of a run is kept for the next one.
pub(crate) struct Runner<T> {
    test: Arc<T>,
    pub settings: Arc<Settings>,
    deal: Deal,
    paths: Vec<Path>,
    /// What looks at each step, in a replay.
    pub follow: Option<Follow>,
    pool: Option<Arc<Pool>>,
    /// How many threads stay parked after failing runs.
    pub parked: u64,
    pub rebuilt: u64,
}

/// What a run is made by.
#[derive(Clone, Debug)]
pub(crate) struct Order {
    pub plan: Plan,
    pub threads: u32,
    /// Where `random` begins.
    pub random: u64,
    /// Whether steps are wanted of a run that passes, too.
    pub keeps_steps: bool,
}

/// What became of a run.
pub(crate) struct Ran {
    pub order: Order,
    pub outcome: Outcome,
    pub steps: u32,
    pub events: Vec<Event>,
    pub threads: Vec<Thread>,
    pub needed: u32,
    pub deal: Deal,
    pub objects: Objects,
    pub names: Vec<(Kind, u32, String)>,
    pub spinning: Vec<(u32, u32)>,
    pub places: Places,
    /// What was posted and not taken, by thread, at the end of a run that fails.
    pub asking: Vec<(u32, u32, Ask)>,
    pub panicked: Option<Panicked>,
    /// Where a thread that polls and waits for a wake-up was last.
    pub polled: [Option<Place>; MOST],
    pub parked: u32,
    pub accesses: Vec<Access>,
    pub cells: u32,
    pub limit: u32,
}

/// Why there is no run.
#[derive(Debug)]
pub(crate) enum NoRun {
    /// It started more threads than its order has.
    MoreThreads,
    /// The check ends with this sentence.
    Sentence(String),
}

impl From<Fault> for NoRun {
    fn from(fault: Fault) -> NoRun {
        NoRun::Sentence(format!("a fault of the layer itself: {fault}"))
    }
}

impl<T: Test> Runner<T> {
    pub fn new(test: Arc<T>, settings: Arc<Settings>) -> Runner<T> {
        let pool = settings.config.keep_threads.then(Arc::default);
        Runner {
            test,
            settings,
            deal: Deal::default(),
            paths: Vec::new(),
            follow: None,
            pool,
            parked: 0,
            rebuilt: 0,
        }
    }

    /// Real threads are made anew from now on.
    pub fn with_fresh_threads(mut self) -> Runner<T> {
        self.pool = None;
        self
    }

    /// Threads have the numbers of these paths.
    pub fn keep_paths(&mut self, paths: impl Iterator<Item = Path>) {
        self.paths = paths.collect();
    }

    /// Makes a run.
    pub fn run(&mut self, order: Order) -> Result<Ran, NoRun> {
        self.deal.threads = order.threads;
        let limit = self.settings.config.limit;
        let places = Places::new(self.settings.place.file);
        let mut state = State::new(order.plan.clone(), self.deal.clone(), limit, places);
        state.keeps_steps = order.keeps_steps;
        state.spins.rest_after(self.settings.config.rest_after);
        state.checked = self.settings.config.races.then(Default::default);
        (state.seed, state.random) = (order.random, order.random);
        state.follow = self.follow.clone();
        state.threads.keep(&self.paths);
        let live = Arc::new(Live::new(state, self.settings.clone(), self.pool.clone()));
        self.begin(&live)?;
        self.await_end(&live)?;
        self.collect(&live, order, limit)
    }

    /// The threads that the run begins with, and the baton for the first of them.
    fn begin(&self, live: &Arc<Live>) -> Result<(), NoRun> {
        let bodies = test::declared(&self.test, live).0;
        let many = bodies.len() as u32;
        if many == 0 || many > live.state()?.deal.threads {
            return Err(if many == 0 {
                NoRun::Sentence("the test declares no thread".into())
            } else {
                NoRun::MoreThreads
            });
        }
        let mut state = live.state()?;
        for (name, _) in &bodies {
            state.threads.declare(name.clone(), self.settings.place);
        }
        let line = state.places.number(self.settings.place);
        state.open(many, line)?;
        state.declared = (many > 1).then_some((1, many));
        drop(state);
        for (thread, (name, body)) in bodies.into_iter().enumerate() {
            pool::launch(live, thread as u32, name, None, body)?;
        }
        live.hand(0, kind::BEGIN, 0)?;
        Ok(())
    }

    /// A thread that goes on without a step for too long is named.
    fn await_end(&self, live: &Live) -> Result<(), NoRun> {
        let patience = self.settings.config.patience;
        let mut last = (live.progress(), Instant::now());
        while !live.is_over() {
            std::thread::park_timeout(patience.min(Duration::from_millis(500)));
            let progress = live.progress();
            if progress != last.0 {
                last = (progress, Instant::now());
            } else if last.1.elapsed() >= patience && !live.is_over() {
                let sentence = self.silence(live, progress.1);
                // Should it ask once more, it stays in that ask.
                live.state()?.close(End::Sentence(sentence.clone()))?;
                return Err(NoRun::Sentence(sentence));
            }
        }
        live.take_fault().map_or(Ok(()), |fault| Err(fault.into()))
    }

    fn silence(&self, live: &Live, thread: u32) -> String {
        let name = live
            .state()
            .ok()
            .and_then(|state| state.threads.get(thread).and_then(|thread| thread.name.clone()));
        format!(
            "thread {} made no step for {:?}; its last one was at {}. It may block on something \
             that pct doesn't see, or go round \
             without a step",
            name.unwrap_or_else(|| thread.to_string()),
            self.settings.config.patience,
            live.last_place(thread)
        )
    }

    fn collect(&mut self, live: &Live, order: Order, limit: u32) -> Result<Ran, NoRun> {
        let mut state = live.state()?;
        self.deal = state.deal.clone();
        self.parked += u64::from(state.parked);
        self.rebuilt += u64::from(state.rebuilt);
        let outcome = match state.end.take() {
            Some(End::Outcome(outcome)) => *outcome,
            Some(End::MoreThreads) => return Err(NoRun::MoreThreads),
            Some(End::Sentence(sentence)) => return Err(NoRun::Sentence(sentence)),
            None => return Err(Fault::from("a run ended without an end").into()),
        };
        Ok(Ran {
            order,
            outcome,
            steps: state.steps,
            events: std::mem::take(&mut state.events),
            threads: state.threads.by_number(),
            needed: state.threads.needed(),
            deal: self.deal.clone(),
            objects: std::mem::replace(&mut state.objects, Objects::new()),
            names: std::mem::take(&mut state.names),
            spinning: state.spins.all().collect(),
            places: state.places.clone(),
            asking: state.asking(),
            panicked: state.panicked.take(),
            polled: state.polled,
            parked: state.parked,
            accesses: std::mem::take(&mut state.accesses),
            cells: state.cells,
            limit,
        })
    }
}

impl Order {
    /// The run in declared order, with room for `threads` threads, without change points.
    pub fn declared(threads: u32) -> Order {
        let plan = Plan::Points { order: (0..threads).collect(), points: Vec::new() };
        Order { plan, threads, random: 0, keeps_steps: false }
    }
}

impl Ran {
    pub fn passed(&self) -> bool {
        self.outcome.has_passed()
    }

    pub fn place(&self, line: u32) -> Place {
        self.places.place(line)
    }
}
