//! What is said of a failing run.

use crate::ask::kind;
use crate::check::Failures;
use crate::config;
use crate::files::Written;
use crate::objects::Kind;
use crate::raw::Ask;
use crate::told::Run;

const FAILED: u32 = 2;
const STUCK: u32 = 3;
const MISUSE: u32 = 4;
const CUT: u32 = 6;

/// What failed, and where.
pub(crate) fn sentence(run: &Run) -> String {
    let outcome = &run.ran.outcome;
    let (thread, place) = (run.names.thread(outcome.thread), run.ran.place(outcome.line));
    match outcome.kind {
        FAILED => match &run.ran.panicked {
            Some(told) if told.is_panic => {
                format!("thread {thread} panicked at {}: {}", told.place, told.message)
            }
            Some(told) => format!("thread {thread} at {}: {}", told.place, told.message),
            None => format!("thread {thread} at {place}: pct::holds(false)"),
        },
        STUCK if run.is_livelock() => format!("a livelock: {}", waits(run)),
        STUCK => format!(
            "a deadlock: {}. No time passes in a run, so a timed wait doesn't end it",
            waits(run)
        ),
        MISUSE => format!("thread {thread} at {place}: {}", misuse(outcome.reason)),
        CUT => cut(run),
        _ => format!("the run leaves the trace after {} steps", run.ran.steps),
    }
}

fn misuse(reason: u32) -> &'static str {
    match reason {
        1 => "it lets go what it doesn't hold",
        2 => "it raises a semaphore past 2147483647",
        3 => "it starts a thread that was started before",
        _ => "it holds a read-write lock for reading more than 1000 times",
    }
}

/// What each thread waits for that hasn't ended.
fn waits(run: &Run) -> String {
    let told = run.ran.asking.iter().map(|(thread, line, ask)| {
        let (name, place) = (run.names.thread(*thread), run.ran.place(*line));
        match run.ran.polled[*thread as usize] {
            Some(last) => format!(
                "{name} waits at {place} for a waker that nobody wakes: its future was polled last \
                 until {last}"
            ),
            None => format!("{name} waits at {place} for {}", awaited(run, *thread, ask)),
        }
    });
    told.collect::<Vec<_>>().join("; ")
}

fn awaited(run: &Run, thread: u32, ask: &Ask) -> String {
    let of = |what: &str, kind: Kind| format!("{what} {}", run.names.object(kind, ask.a));
    match ask.kind {
        kind::LOCK => of("the mutex", Kind::Mutex),
        kind::REGAIN => {
            format!(
                "{} and its mutex {}",
                of("the condition", Kind::Condition),
                run.names.object(Kind::Mutex, ask.b)
            )
        }
        kind::DOWN if run.ran.spinning.contains(&(ask.a, thread)) => {
            "a change that nobody makes".into()
        }
        kind::DOWN => of("the semaphore", Kind::Semaphore),
        kind::LEAVE => of("the others at the barrier", Kind::Barrier),
        kind::JOIN => format!("the end of {}", run.names.thread(ask.a)),
        kind::RD_LOCK | kind::WR_LOCK => of("the read-write lock", Kind::RwLock),
        _ => "its turn".into(),
    }
}

fn cut(run: &Run) -> String {
    let last = run.ran.events.last().map_or(String::new(), |event| {
        format!(
            ", the last one by {} at {}",
            run.names.thread(event.thread),
            run.ran.place(event.line)
        )
    });
    format!(
        "cut after {} steps{last}. A loop that waits for another thread has to say so: \
         std::hint::spin_loop, thread::yield_now or \
         thread::sleep in it, taken from pct",
        run.ran.steps
    )
}

/// The text with which a check panics.
pub(crate) fn failure(
    run: &Run,
    failures: &Failures,
    parked: u64,
    departs: Option<&str>,
    written: &Written,
) -> String {
    let mut text = format!("{}\n{}\n{}\n", sentence(run), counted(failures), origin(run));
    text.push_str(&lanes(run));
    if let Some(departs) = departs {
        text.push_str(&format!("{departs}\n"));
    }
    match (&written.trace, &written.json) {
        (Some(trace), json) => {
            text.push_str(&format!("written: {}", trace.display()));
            text.push_str(
                &json.as_ref().map_or(String::new(), |json| format!(", {}", json.display())),
            );
            text.push_str(&format!("\nagain: {}\n", again(run, &trace.display().to_string())));
        }
        (None, _) => text.push_str("the trace couldn't be written\n"),
    }
    text.push_str(&format!("{parked} threads of failing runs stay parked"));
    text
}

fn counted(failures: &Failures) -> String {
    let declared = if failures.in_declared_order { "failed in declared order, and " } else { "" };
    let failed = if failures.in_declared_order { "in" } else { "failed in" };
    format!("{declared}{failed} {} of the {} seeds that were run", failures.count, failures.seeds)
}

fn origin(run: &Run) -> String {
    let by = match run.drawn {
        Some(drawn) => format!(
            "seed {} at depth {} (n {}, k {})",
            drawn.seed, drawn.depth, run.threads, drawn.steps
        ),
        None => format!("declared order (n {})", run.threads),
    };
    let points = run.points().iter().map(u32::to_string).collect::<Vec<_>>().join(", ");
    let lowered = if points.is_empty() {
        String::new()
    } else {
        format!(", change points after the steps {points}")
    };
    format!("the shortest: {by}, {} steps, order {}{lowered}", run.len(), run.order().join(" "))
}

/// The line that shows the run again.
pub(crate) fn again(run: &Run, trace: &str) -> String {
    let package =
        std::env::var("CARGO_PKG_NAME").map_or(String::new(), |name| format!(" -p {name}"));
    if let Some(example) = config::example() {
        return format!("PCT_REPLAY={trace} cargo run{package} --example {example}");
    }
    let name = run.settings.test_name();
    let exact = if run.settings.is_named {
        format!(" --exact {name}")
    } else {
        " --test-threads=1".to_owned()
    };
    format!("PCT_REPLAY={trace} cargo test{package} --{exact} --nocapture")
}

/// A run as lanes: a column for each thread that takes a step or waits at the end, a row for each
/// step. `v` and a number behind a step is the change point that lowers its thread.
pub(crate) fn lanes(run: &Run) -> String {
    let (_, points) = run.order_and_points();
    let is_there = |thread: &u32| {
        run.ran.events.iter().any(|event| event.thread == *thread)
            || run.ran.asking.iter().any(|asking| asking.0 == *thread)
    };
    let shown: Vec<u32> = (0..run.threads).filter(is_there).collect();
    let mut rows: Vec<(String, u32, String)> = Vec::new();
    for (index, event) in run.ran.events.iter().enumerate() {
        let number = index as u32 + 1;
        let lowered = points
            .iter()
            .rposition(|point| *point == number)
            .map_or(String::new(), |at| format!(" v{}", at + 1));
        let place = run.ran.place(event.line);
        let label = format!(
            "{} = {} {}{lowered}",
            run.names.words(&event.ask),
            event.answer,
            short(run, place)
        );
        rows.push((number.to_string(), event.thread, label));
    }
    for (thread, line, ask) in &run.ran.asking {
        let label = format!("{} .. {}", run.names.words(ask), short(run, run.ran.place(*line)));
        rows.push((String::new(), *thread, label));
    }
    drawn(run, &shown, &shortened(rows))
}

/// Of a long run the first and the last steps.
fn shortened(rows: Vec<(String, u32, String)>) -> Vec<(String, u32, String)> {
    const MOST: usize = 120;
    const HEAD: usize = 20;
    if rows.len() <= MOST {
        return rows;
    }
    let left_out = rows.len() - MOST;
    let mut kept: Vec<_> = rows[..HEAD].to_vec();
    kept.push((
        "..".into(),
        u32::MAX,
        format!("{left_out} steps are left out here; the trace has them"),
    ));
    kept.extend_from_slice(&rows[HEAD + left_out..]);
    kept
}

fn drawn(run: &Run, shown: &[u32], rows: &[(String, u32, String)]) -> String {
    let widest = |thread: u32| {
        rows.iter()
            .filter(|row| row.1 == thread)
            .map(|row| row.2.chars().count())
            .max()
            .unwrap_or(0)
    };
    let width = |thread: u32| widest(thread).max(run.names.thread(thread).len());
    let line = |number: &str, of: &dyn Fn(u32) -> String| {
        let lanes: Vec<String> =
            shown.iter().map(|thread| format!("{:<1$}", of(*thread), width(*thread))).collect();
        format!("{number:>6}  {}", lanes.join("  ")).trim_end().to_owned() + "\n"
    };
    let mut text = line("", &|thread| run.names.thread(thread).to_owned());
    for (number, thread, label) in rows {
        if *thread == u32::MAX {
            text.push_str(&format!("{number:>6}  {label}\n"));
        } else {
            text.push_str(&line(number, &|lane| {
                if lane == *thread {
                    label.clone()
                } else {
                    String::new()
                }
            }));
        }
    }
    text
}

/// A place in a lane: the line alone in the test's own file.
fn short(run: &Run, place: crate::Place) -> String {
    if place.file == run.settings.place.file {
        return format!(":{}", place.line);
    }
    let name = place.file.rsplit(['/', '\\']).next().unwrap_or(place.file);
    format!("{name}:{}", place.line)
}
