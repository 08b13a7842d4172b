//! What makes a failure again under any order, and whether it does: `find` and `certify`.

use crate::campaign::Search;
use crate::config::Config;
use crate::ffi;
use crate::files::Beside;
use crate::place::{Place, Sites};
use crate::raw::{Moment, Outcome, Plan, RawDirective, Refused};
use crate::runner::{Order, Ran};
use crate::single::{run_in, searched, sentence, Schedule};
use crate::told::Run;
use crate::Test;
use std::fmt;
use std::fs;
use std::panic::Location;
use std::path::Path;

/// What makes a failure again: a thread of the lowest priority, and at which of their own steps
/// threads are lowered. Threads are known by who spawned them and as which.
#[derive(Clone, Debug)]
pub struct Directive {
    /// The thread of the lowest priority.
    pub low: String,
    /// Threads, each with the number of its own step after which it is lowered.
    pub moments: Vec<(String, u32)>,
    /// The verdict of the run.
    pub verdict: String,
    /// The directive file.
    pub text: String,
    raw: RawDirective,
    beside: Beside,
}

impl Directive {
    fn new(raw: RawDirective, beside: Beside) -> Result<Directive, Refused> {
        let (names, text) = (&beside.names, beside.names.text());
        let named = |moment: &Moment| (names.thread(moment.thread).to_owned(), moment.number);
        Ok(Directive {
            low: names.thread(raw.low).to_owned(),
            moments: raw.moments().iter().map(named).collect(),
            verdict: ffi::verdict_text(&text, &raw.verdict)?,
            text: ffi::directive_text(&text, &raw)?,
            raw,
            beside,
        })
    }

    /// Writes the directive file, and beside it one that ends in `.sites`, which says what its
    /// names and lines mean.
    ///
    /// # Errors
    ///
    /// Where a file can't be written.
    pub fn write(&self, path: &Path) -> std::io::Result<()> {
        fs::write(path.with_extension("sites"), self.beside.text())?;
        fs::write(path, &self.text)
    }

    /// Reads what [`Directive::write`] wrote.
    ///
    /// # Errors
    ///
    /// Where one of the two files can't be read or has a fault, with a sentence.
    pub fn read(path: &Path) -> Result<Directive, String> {
        let beside = Beside::read(&path.with_extension("sites"))?;
        let text =
            fs::read_to_string(path).map_err(|error| format!("{}: {error}", path.display()))?;
        let raw = ffi::read_directive(&beside.names.text(), &text)
            .map_err(|fault| format!("{}: {fault}", path.display()))?;
        Directive::new(raw, beside).map_err(|refused| refused.to_string())
    }

    fn ending(&self) -> Ending {
        let sites = Sites::with(self.beside.places.clone());
        Ending::of(&self.raw.verdict, |line| sites.place(self.beside.file, line))
    }
}

/// An outcome by places: numbers of lines are those of a check, and mean nothing beside those of
/// another one.
#[derive(PartialEq, Eq)]
struct Ending {
    kind: u32,
    reason: u32,
    thread: u32,
    place: Option<Place>,
    blocked: Vec<(usize, Place)>,
}

impl Ending {
    fn of(outcome: &Outcome, place: impl Fn(u32) -> Place) -> Ending {
        let Outcome { kind, reason, thread, line, blocked, lines } = *outcome;
        let is_blocked = |number: &usize| blocked >> number & 1 == 1;
        Ending {
            kind,
            reason,
            thread,
            place: (line > 0).then(|| place(line)),
            blocked: (0..lines.len())
                .filter(is_blocked)
                .map(|number| (number, place(lines[number])))
                .collect(),
        }
    }

    fn of_run(ran: &Ran) -> Ending {
        Ending::of(&ran.outcome, |line| ran.place(line))
    }
}

/// A directive that makes the failure of a run again, without the moments that it doesn't need;
/// none where the run passes. Threads are known by who spawned them and as which.
///
/// # Panics
///
/// Where a run can't be made, or too many threads stay parked after failing runs, with a sentence.
#[track_caller]
pub fn find<T: Test>(config: Config, schedule: &Schedule, test: T) -> Option<Directive> {
    let place = Place::of(Location::caller());
    searched(config, test, place, |search| {
        let failing = run_in(search, schedule)?;
        search.parked += u64::from(failing.ran.parked);
        if failing.passed() {
            Ok(None)
        } else {
            found(search, &failing).map(Some)
        }
    })
}

fn found<T: Test>(search: &mut Search<T>, failing: &Run) -> Result<Directive, String> {
    let (order, points) = failing.order_and_points();
    search.runner.keep_paths(failing.ran.threads.iter().map(|thread| thread.path.clone()));
    let told = |refused: Refused| refused.to_string();
    let mut moments = if points.is_empty() {
        Vec::new()
    } else {
        ffi::moments(&failing.ran.events, points).map_err(told)?
    };
    let (mut place, wanted) = (0, Ending::of_run(&failing.ran));
    while place < moments.len() {
        let mut fewer = moments.clone();
        fewer.remove(place);
        let ran = by_moments(search, &order, &fewer, failing.ran.order.random)?;
        if Ending::of_run(&ran) == wanted {
            moments = fewer;
            place = 0;
        } else {
            place += 1;
        }
    }
    let low = *order.last().ok_or("an order of no thread")?;
    Directive::new(RawDirective::new(low, &moments, &failing.outcome), Beside::of(failing))
        .map_err(told)
}

fn by_moments<T: Test>(
    search: &mut Search<T>,
    order: &[u32],
    moments: &[Moment],
    random: u64,
) -> Result<Ran, String> {
    let plan = Plan::Moments { order: order.to_vec(), moments: moments.to_vec() };
    let ran = search
        .runner
        .run(Order { plan, threads: order.len() as u32, random, keeps_steps: true })
        .map_err(sentence)?;
    search.parked += u64::from(ran.parked);
    match search.has_too_many_parked() {
        Some(sentence) => Err(sentence),
        None => Ok(ran),
    }
}

/// What became of the certificate of a directive. Its text is that of `pct certify`.
#[derive(Clone, Debug, PartialEq, Eq)]
pub enum Certificate {
    /// Under each order with its thread last the verdict comes.
    Certified {
        /// The orders, each with the change points that stand for the moments under it: after these
        /// steps threads are lowered.
        orders: Vec<(Vec<String>, Vec<u32>)>,
        /// In at least one of so many choices of an order and change points the verdict comes.
        bound: u128,
    },
    /// Under this order another verdict comes.
    Refuted {
        /// The threads' names, the highest priority first.
        order: Vec<String>,
        /// The verdict.
        verdict: String,
    },
    /// Under this order the run is longer than the steps from which points are drawn.
    TooLong {
        /// The threads' names, the highest priority first.
        order: Vec<String>,
        /// How many steps it has.
        steps: u32,
    },
}

impl fmt::Display for Certificate {
    fn fmt(&self, to: &mut fmt::Formatter<'_>) -> fmt::Result {
        match self {
            Certificate::Certified { orders, bound } => {
                for (order, points) in orders {
                    let points: String = points.iter().map(|point| format!(" {point}")).collect();
                    writeln!(to, "order {} points{points}", order.join(" "))?;
                }
                writeln!(to, "certified 1 in {bound}")
            }
            Certificate::Refuted { order, verdict } => {
                writeln!(to, "refuted order {} verdict {verdict}", order.join(" "))
            }
            Certificate::TooLong { order, steps } => {
                writeln!(to, "toolong order {} steps {steps}", order.join(" "))
            }
        }
    }
}

/// Whether a directive's verdict comes under every order that places its thread last, of at most
/// six threads.
///
/// # Panics
///
/// Where there are more threads, where a run can't be made, or too many threads stay parked after
/// failing runs, with a sentence.
#[track_caller]
pub fn certify<T: Test>(config: Config, directive: &Directive, test: T) -> Certificate {
    const MOST_THREADS: usize = 6;
    let place = Place::of(Location::caller());
    searched(config, test, place, |search| {
        let many = directive.beside.names.threads.len();
        if many > MOST_THREADS {
            return Err(format!(
                "a directive of {many} threads isn't certified: at most {MOST_THREADS}"
            ));
        }
        search.runner.keep_paths(directive.beside.paths.iter().cloned());
        certified(search, directive)
    })
}

fn certified<T: Test>(
    search: &mut Search<T>,
    directive: &Directive,
) -> Result<Certificate, String> {
    let told = |refused: Refused| refused.to_string();
    let (raw, wanted) = (&directive.raw, directive.ending());
    let threads = directive.beside.names.threads.len() as u32;
    let mut orders = Vec::new();
    for order in &ffi::orders_with_last(threads, raw.low).map_err(told)? {
        let ran = by_moments(search, order, raw.moments(), directive.beside.seed)?;
        let (steps, is_it) = (ran.steps, Ending::of_run(&ran) == wanted);
        let names =
            order.iter().map(|thread| directive.beside.names.thread(*thread).to_owned()).collect();
        if steps > search.steps {
            return Ok(Certificate::TooLong { order: names, steps });
        }
        if !is_it {
            let verdict = search.told(ran, None).verdict();
            return Ok(Certificate::Refuted { order: names, verdict });
        }
        let points = ffi::points(&ran.events, search.steps, raw.moments()).map_err(told)?;
        orders.push((names, points));
    }
    let bound = ffi::bound(threads, search.steps, raw.count).map_err(told)?;
    Ok(Certificate::Certified { orders, bound })
}

#[cfg(test)]
mod tests {
    use super::by_moments;
    use crate::campaign::Search;
    use crate::config::{Config, Settings};
    use crate::Place;
    use std::sync::Arc;

    /// Both `find` and `certify` make their runs by this call.
    #[test]
    fn runs_stop_at_a_thousand_parked_threads() {
        let settings = Settings::new(Config::default(), Place { file: file!(), line: line!() });
        let mut search =
            Search::begin(Arc::new(|| crate::holds(false)), settings).expect("it has a first run");
        search.parked = 998;
        assert!(by_moments(&mut search, &[0], &[], 0).is_ok());
        let told = by_moments(&mut search, &[0], &[], 0).err();
        assert!(
            told.is_some_and(|told| told.starts_with("1000 threads of failing runs stay parked"))
        );
    }
}
