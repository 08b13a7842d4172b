//! A run that is over, in the words of traces.

use crate::config::Settings;
use crate::ffi;
use crate::files::Beside;
use crate::names::Names;
use crate::objects::Kind;
use crate::place::{Place, Sites, MOST_LINE};
use crate::raw::{Ask, Event, Outcome, Plan};
use crate::runner::Ran;
use std::sync::Arc;

/// What the order and the change points of a run were drawn from.
#[derive(Clone, Copy, Debug, PartialEq, Eq)]
pub struct Drawn {
    /// The seed.
    pub seed: u64,
    /// One more than the number of change points.
    pub depth: u32,
    /// The steps, from 1 to this number, from which the points were drawn.
    pub steps: u32,
}

/// A step of a run.
#[derive(Clone, Debug, PartialEq, Eq)]
pub struct Step {
    /// The thread's name.
    pub thread: String,
    /// Where it asked for the step.
    pub place: Place,
    /// What it asked, in the words of a trace.
    pub ask: String,
    /// The answer.
    pub answer: i64,
}

/// A run that is over.
pub struct Run {
    pub(crate) ran: Ran,
    pub(crate) settings: Arc<Settings>,
    pub(crate) names: Names,
    pub(crate) sites: Sites,
    pub(crate) drawn: Option<Drawn>,
    pub(crate) threads: u32,
    /// Steps and outcome with the lines that texts have.
    pub(crate) events: Vec<Event>,
    pub(crate) outcome: Outcome,
}

impl Run {
    /// `threads` is how many the check has: an order may have had room for more.
    pub(crate) fn new(
        ran: Ran,
        settings: Arc<Settings>,
        mut sites: Sites,
        drawn: Option<Drawn>,
        threads: u32,
    ) -> Run {
        let names = Names::of(&ran, threads);
        let line = |sites: &mut Sites, line| sites.line(&ran.places, line);
        let mut events = ran.events.clone();
        for event in &mut events {
            event.line = line(&mut sites, event.line);
        }
        let outcome = translated(&ran.outcome, |number| line(&mut sites, number));
        Run { ran, settings, names, sites, drawn, threads, events, outcome }
    }

    /// Whether it passed.
    pub fn passed(&self) -> bool {
        self.outcome.has_passed()
    }

    /// The verdict, as a trace has it: `passed`, `failed main 12`, `stuck ..`.
    pub fn verdict(&self) -> String {
        ffi::verdict_text(&self.names.text(), &self.outcome)
            .unwrap_or_else(|refused| refused.to_string())
    }

    /// The trace file of the run.
    pub fn trace(&self) -> String {
        let (order, points) = self.order_and_points();
        let version = 1 + u32::from(self.ran.objects.given(Kind::RwLock) > 0);
        let limit = self.ran.limit;
        ffi::trace_text(
            &self.names.text(),
            version,
            limit,
            &order,
            points,
            &self.events,
            &self.outcome,
        )
        .unwrap_or_else(|refused| format!("no trace: {refused}\n"))
    }

    /// How many steps it took.
    pub fn len(&self) -> usize {
        self.ran.steps as usize
    }

    /// Whether it took no step.
    pub fn is_empty(&self) -> bool {
        self.len() == 0
    }

    /// Its steps, in order.
    pub fn steps(&self) -> Vec<Step> {
        self.ran.events.iter().map(|event| self.step(event)).collect()
    }

    pub(crate) fn step(&self, event: &Event) -> Step {
        Step {
            thread: self.names.thread(event.thread).to_owned(),
            place: self.ran.place(event.line),
            ask: self.names.words(&event.ask),
            answer: event.answer,
        }
    }

    /// The seed that it was drawn from, where it was drawn.
    pub fn drawn(&self) -> Option<Drawn> {
        self.drawn
    }

    /// The names of the threads in the order of their priorities, the highest first.
    pub fn order(&self) -> Vec<String> {
        self.order_and_points()
            .0
            .iter()
            .map(|thread| self.names.thread(*thread).to_owned())
            .collect()
    }

    /// The steps after which a thread was lowered.
    pub fn points(&self) -> &[u32] {
        self.order_and_points().1
    }

    pub(crate) fn order_and_points(&self) -> (Vec<u32>, &[u32]) {
        let known =
            |order: &[u32]| order.iter().copied().filter(|thread| *thread < self.threads).collect();
        match &self.ran.order.plan {
            Plan::Points { order, points } => (known(order), points),
            Plan::Moments { order, .. } => (known(order), &[]),
            Plan::List(_) => ((0..self.threads).collect(), &[]),
        }
    }

    /// How many threads stay parked after it.
    pub fn parked(&self) -> usize {
        self.ran.parked as usize
    }

    /// The message of the panic by which it failed.
    pub fn message(&self) -> Option<&str> {
        self.ran.panicked.as_ref().map(|told| told.message.as_str())
    }

    /// Whether at the end each thread that hasn't ended waits for a change: a livelock.
    pub fn is_livelock(&self) -> bool {
        const STUCK: u32 = 3;
        let waits = |(thread, _, ask): &(u32, u32, Ask)| {
            ask.kind == crate::ask::kind::DOWN && self.ran.spinning.contains(&(ask.a, *thread))
        };
        self.outcome.kind == STUCK
            && !self.ran.asking.is_empty()
            && self.ran.asking.iter().all(waits)
    }

    /// The run as lanes: a column for each thread, a row for each step. `v` and a number behind a
    /// step is the change point that lowers its thread.
    pub fn lanes(&self) -> String {
        crate::report::lanes(self)
    }

    /// What went wrong, in a sentence; nothing where the run passed.
    pub fn sentence(&self) -> String {
        if self.passed() {
            String::new()
        } else {
            crate::report::sentence(self)
        }
    }

    /// What is said of the lines of the trace, of its seed and its names: the file beside it.
    pub fn sites(&self) -> String {
        Beside::of(self).text()
    }
}

/// An outcome with other lines.
pub(crate) fn translated(outcome: &Outcome, mut line: impl FnMut(u32) -> u32) -> Outcome {
    let mut other = *outcome;
    if other.line > 0 {
        other.line = line(other.line);
    }
    for (thread, number) in other.lines.iter_mut().enumerate() {
        if outcome.blocked >> thread & 1 == 1 {
            *number = line(*number);
        }
    }
    debug_assert!(other.line <= MOST_LINE);
    other
}

impl std::fmt::Debug for Run {
    fn fmt(&self, to: &mut std::fmt::Formatter<'_>) -> std::fmt::Result {
        to.debug_struct("Run")
            .field("verdict", &self.verdict())
            .field("steps", &self.len())
            .finish_non_exhaustive()
    }
}
