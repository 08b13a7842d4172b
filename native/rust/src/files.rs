//! The files of a failing run: NAME.trace, NAME.sites, NAME.json.

use crate::ask::kind;
use crate::config::Settings;
use crate::ffi;
use crate::json;
use crate::names::{Named, Names};
use crate::objects::Kind;
use crate::place::{Place, Sites};
use crate::raw::{Ask, Event, Outcome, Plan};
use crate::state::{Panicked, State};
use crate::threads;
use crate::told::Run;
use std::fs;
use std::path::{Path, PathBuf};

/// Where they were written; none where that wasn't possible.
#[derive(Debug, Default)]
pub(crate) struct Written {
    pub trace: Option<PathBuf>,
    pub json: Option<PathBuf>,
}

pub(crate) fn write(run: &Run) -> Written {
    let put = |ending: &str, text: String| {
        let path = run.settings.trace_path(ending)?;
        fs::write(&path, text).ok().map(|()| path)
    };
    let sites = put("sites", run.sites());
    Written {
        trace: put("trace", run.trace()).filter(|_| sites.is_some()),
        json: put("json", json::document(run)),
    }
}

/// What stands beside a trace or a directive: what its names and lines mean.
#[derive(Clone, Debug)]
pub(crate) struct Beside {
    pub seed: u64,
    /// The test's own file, whose lines are themselves.
    pub file: &'static str,
    pub names: Names,
    /// By number who spawned a thread and as which, of those that were started.
    pub paths: Vec<threads::Path>,
    /// Other places, from the greatest line downward.
    pub places: Vec<Place>,
}

impl Beside {
    pub fn of(run: &Run) -> Beside {
        Beside {
            seed: run.ran.order.random,
            file: run.settings.place.file,
            names: run.names.clone(),
            paths: run.ran.threads.iter().map(|thread| thread.path.clone()).collect(),
            places: run.sites.all().map(|(_, place)| place).collect(),
        }
    }

    pub fn text(&self) -> String {
        let mut text = format!("sites 1\nseed {}\nfile {}\n", self.seed, self.file);
        let threads = self.names.threads.len();
        for (number, line) in self.names.text().lines().enumerate() {
            let path = self.paths.get(number).filter(|_| number < threads);
            let numbers: Vec<String> = path.into_iter().flatten().map(u32::to_string).collect();
            text.push_str(format!("{line} {}", numbers.join(".")).trim_end());
            text.push('\n');
        }
        for (number, place) in Sites::with(self.places.clone()).all() {
            text.push_str(&format!("{number} {} {}\n", place.file, place.line));
        }
        text
    }

    pub fn read(path: &Path) -> Result<Beside, String> {
        let told = |fault: String| format!("{}: {fault}", path.display());
        let text = fs::read_to_string(path).map_err(|error| told(error.to_string()))?;
        let mut lines = text.lines().enumerate();
        if lines.next().is_none_or(|(_, line)| line != "sites 1") {
            return Err(told("it doesn't begin with `sites 1`".into()));
        }
        let seed = lines.next().and_then(|(_, line)| line.strip_prefix("seed ")?.parse().ok());
        let seed = seed.ok_or_else(|| told("line 2 has no seed".into()))?;
        let file = lines.next().and_then(|(_, line)| line.strip_prefix("file "));
        let file = kept(file.ok_or_else(|| told("line 3 has no file".into()))?);
        let mut beside =
            Beside { seed, file, names: Names::default(), paths: Vec::new(), places: Vec::new() };
        for (index, line) in lines {
            beside
                .take(line)
                .ok_or_else(|| told(format!("line {} is neither a name nor a place", index + 1)))?;
        }
        Ok(beside)
    }

    /// `thread NAME PATH`, `KIND NAME` or `NUMBER FILE LINE`.
    fn take(&mut self, line: &str) -> Option<()> {
        let (word, rest) = line.split_once(' ')?;
        if word.starts_with(|first: char| first.is_ascii_digit()) {
            let (file, line) = rest.rsplit_once(' ')?;
            self.places.push(Place { file: kept(file), line: line.parse().ok()? });
            return Some(());
        }
        let (name, path) = rest.split_once(' ').unwrap_or((rest, ""));
        if !path.is_empty() {
            self.paths
                .push(path.split('.').map(|number| number.parse().ok()).collect::<Option<_>>()?);
        }
        self.names.add(word, name)
    }
}

/// The name of a file, kept as long as the program goes.
fn kept(file: &str) -> &'static str {
    Box::leak(file.to_owned().into_boxed_str())
}

/// The trace of a run that a second panic ends with the process: its last step is the first panic.
/// Whether it was written.
pub(crate) fn write_unfinished(
    state: &mut State,
    settings: &Settings,
    me: u32,
    first: &Panicked,
    path: &Path,
) -> bool {
    let (Ok(mut events), Plan::Points { order, points }) = (state.unfinished(), state.plan.clone())
    else {
        return false;
    };
    let mut sites = Sites::default();
    let fails = Ask::of(kind::CHECK_FAILS, 0);
    events.push(Event {
        thread: me,
        line: state.places.number(first.place),
        ask: fails,
        answer: 0,
    });
    for event in &mut events {
        event.line = sites.line(&state.places, event.line);
    }
    let threads = state.threads.by_number();
    let spinning: Vec<_> = state.spins.all().collect();
    let named = Named {
        threads: &threads,
        objects: &state.objects,
        given: &state.names,
        spinning: &spinning,
    };
    let beside = Beside {
        seed: state.seed,
        file: settings.place.file,
        names: Names::made(&named, state.threads.needed()),
        paths: threads.iter().map(|thread| thread.path.clone()).collect(),
        places: sites.all().map(|(_, place)| place).collect(),
    };
    let line = events.last().map_or(1, |event| event.line);
    let verdict = Outcome { thread: me, line, ..Outcome::of(2) };
    let order: Vec<u32> =
        order.into_iter().filter(|thread| *thread < state.threads.needed()).collect();
    let version = 1 + u32::from(state.objects.given(Kind::RwLock) > 0);
    let text = ffi::trace_text(
        &beside.names.text(),
        version,
        settings.config.limit,
        &order,
        &points,
        &events,
        &verdict,
    );
    text.is_ok_and(|text| {
        fs::write(path.with_extension("sites"), beside.text())
            .and_then(|()| fs::write(path, text))
            .is_ok()
    })
}
