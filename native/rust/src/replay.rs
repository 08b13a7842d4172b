//! A written trace is made again: the threads take turns as in its steps.

use crate::ask::kind;
use crate::campaign::Search;
use crate::config::{Config, Settings};
use crate::ffi::{self, ReadTrace};
use crate::files::Beside;
use crate::names::Names;
use crate::place::{Place, Sites};
use crate::raw::{Event, Plan};
use crate::runner::Order;
use crate::told::Run;
use crate::{report, Test};
use std::panic::Location;
use std::path::Path;
use std::sync::{Arc, Mutex};

/// What a trace is followed by, step by step.
#[derive(Clone)]
pub(crate) struct Follow {
    expected: Arc<Vec<Event>>,
    sites: Arc<Sites>,
    names: Arc<Names>,
    file: &'static str,
    prints: bool,
    notes: Arc<Mutex<Vec<String>>>,
}

impl Follow {
    /// A step is taken.
    pub fn took(&self, number: u32, place: Place, event: &Event) {
        let told = |place: Place, event: &Event| {
            format!("{} = {} at {place}", self.names.words(&event.ask), event.answer)
        };
        let found = told(place, event);
        if self.prints {
            println!("{number:>6}  {}  {found}", self.names.thread(event.thread));
        }
        let Some(expected) = self.expected.get(number as usize - 1) else { return };
        let written = told(self.sites.place(self.file, expected.line), expected);
        // Where a thread begins has the line of the call, which isn't the check's in a replay by
        // another one.
        if written != found && event.ask.kind != kind::BEGIN {
            let note = format!("step {number}: the trace has {written}");
            if self.prints {
                println!("        {note}");
            }
            if let Ok(mut notes) = self.notes.lock() {
                notes.push(format!("{note}, and the run {found}"));
            }
        }
    }
}

/// What a replay came to.
#[derive(Debug)]
pub struct Replayed {
    /// The run.
    pub run: Run,
    /// The trace's verdict.
    pub written: String,
    /// Steps at other places or with other values than the trace has, in sentences.
    pub notes: Vec<String>,
    /// The first step that the trace's thread couldn't take, or where the run would go on after the
    /// trace's end.
    pub departs: Option<usize>,
}

/// Makes the run of a trace file again. Its `.sites` file stands beside it.
///
/// # Panics
///
/// Where the files can't be read, or the run can't be made, with a sentence.
#[track_caller]
pub fn replay<T: Test>(config: Config, trace: &Path, test: T) -> Replayed {
    let place = test.place().unwrap_or(Place::of(Location::caller()));
    replayed(Settings::new(config, place), Arc::new(test), trace, false)
        .unwrap_or_else(|sentence| panic!("pct: {sentence}"))
}

/// The replay that `PCT_REPLAY` asks for: of this test alone, and each step is printed as it is
/// taken.
#[track_caller]
pub(crate) fn by_environment<T: Test>(settings: Settings, test: T, trace: &Path) {
    let name = settings.file_name();
    if trace.file_stem().is_none_or(|stem| stem.to_string_lossy() != name) {
        println!("{}: not replayed, since the trace is another test's", settings.name);
        return;
    }
    let replayed = replayed(settings, Arc::new(test), trace, true)
        .unwrap_or_else(|sentence| panic!("pct: {sentence}"));
    let found = replayed.run.verdict();
    if let Some(step) = replayed.departs {
        panic!(
            "pct: the replay departs at step {step}: the trace ends with {}, and the code has \
             changed since",
            replayed.written
        );
    }
    if replayed.run.passed() {
        println!("replayed: passed, and the trace ends with {}", replayed.written);
        return;
    }
    let agrees = if found == replayed.written {
        "replayed".to_owned()
    } else {
        format!("replayed, where the trace has {}", replayed.written)
    };
    panic!("{}\n{agrees}: {found}, {} steps", report::sentence(&replayed.run), replayed.run.len());
}

fn replayed<T: Test>(
    settings: Settings,
    test: Arc<T>,
    trace: &Path,
    prints: bool,
) -> Result<Replayed, String> {
    let beside = Beside::read(&trace.with_extension("sites"))?;
    let text =
        std::fs::read_to_string(trace).map_err(|error| format!("{}: {error}", trace.display()))?;
    let read = ffi::read_trace(&beside.names.text(), &text)?;
    let threads = beside.names.threads.len() as u32;
    let mut search = Search::new(test, settings)?;
    search.threads = threads;
    search.sites = Sites::with(beside.places);
    let follow = Follow {
        expected: Arc::new(read.steps.clone()),
        sites: Arc::new(search.sites.clone()),
        names: Arc::new(beside.names),
        file: beside.file,
        prints,
        notes: Arc::default(),
    };
    search.runner.follow = Some(follow.clone());
    let list = read.steps.iter().map(|step| step.thread).collect();
    let order = Order { plan: Plan::List(list), threads, random: beside.seed, keeps_steps: true };
    let run = crate::check::single(&mut search, order, None)?;
    let written = ffi::verdict_text(&follow.names.text(), &read.verdict)
        .map_err(|refused| refused.to_string())?;
    let notes = follow.notes.lock().map(|notes| notes.clone()).unwrap_or_default();
    Ok(Replayed { departs: departure(&run, &read), run, written, notes })
}

fn departure(run: &Run, read: &ReadTrace) -> Option<usize> {
    const DEPARTED: u32 = 7;
    let is_short = run.len() < read.steps.len();
    (run.ran.outcome.kind == DEPARTED || is_short).then_some(run.len() + 1)
}
