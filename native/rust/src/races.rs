//! What a run tells beside its verdict: data races of cells, and the order of its mutexes.

use crate::ask::kind;
use crate::config::Config;
use crate::ffi;
use crate::objects::{Kind, MOST};
use crate::raw::{Ask, Event};
use crate::runner::Ran;
use crate::single::{run_in, searched, Schedule};
use crate::told::Run;
use crate::{Place, Test};
use std::panic::Location;

/// An access of a cell.
#[derive(Clone, Debug, PartialEq, Eq)]
pub struct Access {
    /// The thread's name.
    pub thread: String,
    /// Where.
    pub place: Place,
    /// Whether it was by `with_mut`.
    pub is_write: bool,
}

/// Two accesses of a cell that nothing orders, at least one of them a write.
#[derive(Clone, Debug, PartialEq, Eq)]
pub struct Race {
    /// The one that came first in this run.
    pub first: Access,
    /// The other one.
    pub second: Access,
}

/// The data races of a run.
#[derive(Clone, Debug, PartialEq, Eq)]
pub struct Races {
    /// At most one of each cell.
    pub races: Vec<Race>,
    /// What was left out, in sentences.
    pub left_out: Vec<String>,
}

/// At this step a thread takes a mutex while it holds another one.
#[derive(Clone, Debug, PartialEq, Eq)]
pub struct Nesting {
    /// The thread's name.
    pub thread: String,
    /// Where it takes it.
    pub place: Place,
    /// The name of the mutex that it holds.
    pub held: String,
    /// The name of the mutex that it takes.
    pub taken: String,
}

/// Whether the mutexes of a run were always nested in one order.
#[derive(Clone, Debug, PartialEq, Eq)]
pub enum LockOrder {
    /// An order of their names.
    Order(Vec<String>),
    /// Nestings that go round: a deadlock that waits for its order of steps.
    Cycle(Vec<Nesting>),
}

/// Makes one run, and gives the data races of its cells by happens-before: what orders two accesses
/// is a mutex given back and then taken, a spawn, a join, a wake-up, and every operation on one
/// atomic.
///
/// # Panics
///
/// Where the run can't be made, with a sentence.
#[track_caller]
pub fn races<T: Test>(config: Config, schedule: &Schedule, test: T) -> Races {
    let place = Place::of(Location::caller());
    searched(config, test, place, |search| {
        let run = run_in(search, schedule)?;
        told(&run).map_err(|refused| refused.to_string())
    })
}

fn told(run: &Run) -> Result<Races, crate::raw::Refused> {
    let ran = &run.ran;
    let atomics = ran.objects.given(Kind::Variable) as usize;
    let cells = (ran.cells as usize).min(MOST - atomics);
    let mut left_out = left_out(ran);
    if cells < ran.cells as usize {
        left_out.push(format!(
            "{} cells are left out: the library knows 64 atomics and cells together",
            ran.cells as usize - cells
        ));
    }
    let (steps, accesses) = with_accesses(ran, atomics as u32, cells as u32);
    let mut deal = ran.deal.clone();
    deal.variables = vec![0; atomics + cells];
    let found = ffi::races(&deal, &steps)?;
    let access = |step: u32| {
        let event = &steps[step as usize - 1];
        let is_write = accesses[step as usize - 1].unwrap_or(false);
        Access {
            thread: run.names.thread(event.thread).to_owned(),
            place: ran.place(event.line),
            is_write,
        }
    };
    let races = found
        .iter()
        .map(|race| Race { first: access(race.first), second: access(race.second) })
        .collect();
    Ok(Races { races, left_out })
}

/// The steps, those of atomics as atomic ones, with the accesses of cells between them: of each,
/// whether it is a write.
fn with_accesses(ran: &Ran, atomics: u32, cells: u32) -> (Vec<Event>, Vec<Option<bool>>) {
    let (mut steps, mut kinds) = (Vec::new(), Vec::new());
    let mut accesses = ran.accesses.iter().filter(|access| access.cell < cells).peekable();
    for index in 0..=ran.events.len() {
        while let Some(access) = accesses.next_if(|access| access.after as usize <= index) {
            let ask = if access.is_write { kind::WRITE } else { kind::READ };
            let ask = Ask::of(ask, atomics + access.cell);
            steps.push(Event { thread: access.thread, line: access.line, ask, answer: 0 });
            kinds.push(Some(access.is_write));
        }
        if let Some(event) = ran.events.get(index) {
            steps.push(without_reuse(ran, event));
            kinds.push(None);
        }
    }
    (steps, kinds)
}

/// Of what kind the object of an ask is.
fn kind_of(ask: &Ask) -> Option<Kind> {
    match ask.kind {
        kind::READ..=kind::CAS => Some(Kind::Variable),
        kind::LOCK..=kind::UNLOCK => Some(Kind::Mutex),
        kind::RELEASE..=kind::BROADCAST => Some(Kind::Condition),
        kind::DOWN..=kind::UP => Some(Kind::Semaphore),
        kind::ARRIVE | kind::LEAVE => Some(Kind::Barrier),
        kind::RD_LOCK..=kind::RW_UNLOCK => Some(Kind::RwLock),
        _ => None,
    }
}

/// A step on a number that two objects had one after the other is left out.
fn without_reuse(ran: &Ran, event: &Event) -> Event {
    let ask = event.ask;
    let is_reused = kind_of(&ask).is_some_and(|kind| ran.objects.is_reused(kind, ask.a));
    let ask = match kind_of(&ask) {
        _ if is_reused => Ask::yields(),
        Some(Kind::Variable) => Ask::of(kind::ADD, ask.a),
        _ => ask,
    };
    Event { ask, ..*event }
}

fn left_out(ran: &Ran) -> Vec<String> {
    let reused = |kind: Kind| {
        (0..MOST as u32).filter(move |number| ran.objects.is_reused(kind, *number)).count()
    };
    let told = |kind: Kind| match reused(kind) {
        0 => None,
        count => Some(format!(
            "{count} {} are left out: each number was that of two objects, one after the other",
            kind.plural()
        )),
    };
    Kind::ALL.into_iter().filter_map(told).collect()
}

/// Makes one run, and gives an order in which it nested its mutexes, or nestings that go round.
///
/// # Panics
///
/// Where the run can't be made, with a sentence.
#[track_caller]
pub fn lock_order<T: Test>(
    config: Config,
    schedule: &Schedule,
    test: T,
) -> (LockOrder, Vec<String>) {
    let place = Place::of(Location::caller());
    searched(config, test, place, |search| {
        let run = run_in(search, schedule)?;
        let steps: Vec<Event> =
            run.ran.events.iter().map(|event| without_mutex_reuse(&run.ran, event)).collect();
        let order =
            ffi::lock_order(&run.ran.deal, &steps).map_err(|refused| refused.to_string())?;
        Ok((locks(&run, order), left_out(&run.ran)))
    })
}

fn without_mutex_reuse(ran: &Ran, event: &Event) -> Event {
    match without_reuse(ran, event).ask.kind {
        kind::YIELD => Event { ask: Ask::yields(), ..*event },
        _ => *event,
    }
}

fn locks(run: &Run, order: Result<Vec<u32>, Vec<crate::raw::RawNesting>>) -> LockOrder {
    let name = |mutex: u32| run.names.object(Kind::Mutex, mutex).to_owned();
    match order {
        Ok(order) => {
            let known =
                order.into_iter().filter(|mutex| *mutex < run.ran.objects.given(Kind::Mutex));
            LockOrder::Order(known.map(name).collect())
        }
        Err(nestings) => LockOrder::Cycle(
            nestings
                .iter()
                .map(|nesting| Nesting {
                    thread: run.names.thread(nesting.thread).to_owned(),
                    place: run.ran.place(run.ran.events[nesting.step as usize - 1].line),
                    held: name(nesting.held),
                    taken: name(nesting.taken),
                })
                .collect(),
        ),
    }
}
