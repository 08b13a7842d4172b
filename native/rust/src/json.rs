//! The first part of the document of a failing run, from which pages are made.

use crate::objects::Kind;
use crate::place::Place;
use crate::raw::Ask;
use crate::report;
use crate::told::Run;
use std::collections::BTreeSet;

fn text(value: &str) -> String {
    let mut quoted = String::from("\"");
    for letter in value.chars() {
        match letter {
            '"' => quoted.push_str("\\\""),
            '\\' => quoted.push_str("\\\\"),
            '\n' => quoted.push_str("\\n"),
            letter if (letter as u32) < 0x20 => {
                quoted.push_str(&format!("\\u{:04x}", letter as u32))
            }
            letter => quoted.push(letter),
        }
    }
    quoted + "\""
}

fn list<T>(items: impl IntoIterator<Item = T>, one: impl Fn(T) -> String) -> String {
    format!("[{}]", items.into_iter().map(one).collect::<Vec<_>>().join(","))
}

fn object(members: &[(&str, String)]) -> String {
    format!(
        "{{{}}}",
        members
            .iter()
            .map(|(name, value)| format!("\"{name}\":{value}"))
            .collect::<Vec<_>>()
            .join(",")
    )
}

fn number(value: impl std::fmt::Display) -> String {
    format!("\"{value}\"")
}

fn place(place: Place) -> [(&'static str, String); 2] {
    [("file", text(place.file)), ("line", place.line.to_string())]
}

/// The document of a run, one line.
pub(crate) fn document(run: &Run) -> String {
    let trace =
        run.settings.trace_path("trace").map_or(String::new(), |path| path.display().to_string());
    let again = object(&[
        ("says", text("the run, step by step")),
        ("command", text(&report::again(run, &trace))),
    ]);
    let heading = object(&[("run", run_part(run)), ("again", format!("[{again}]"))]);
    let members = [
        ("document", "1".to_owned()),
        ("writer", text("pct for Rust")),
        ("title", text(&run.settings.name)),
        (
            "sources",
            list(sources(run), |(file, source)| {
                object(&[("file", text(file)), ("text", text(&source))])
            }),
        ),
        ("deal", deal(run)),
        ("names", "{}".to_owned()),
        ("headings", if run.passed() { "[]".to_owned() } else { format!("[{heading}]") }),
    ];
    object(&members) + "\n"
}

/// The files of all places, as far as they can be read.
fn sources(run: &Run) -> Vec<(&'static str, String)> {
    let lines = run
        .ran
        .events
        .iter()
        .map(|event| event.line)
        .chain(run.ran.asking.iter().map(|asking| asking.1));
    let files: BTreeSet<&'static str> =
        lines.map(|line| run.ran.place(line).file).chain([run.settings.place.file]).collect();
    files.into_iter().filter_map(|file| Some((file, read(file)?))).collect()
}

/// The compiler names a file from the folder of the workspace, and cargo runs tests in that of the
/// package.
fn read(file: &str) -> Option<String> {
    let here = std::env::current_dir().ok()?;
    here.ancestors().take(4).find_map(|folder| std::fs::read_to_string(folder.join(file)).ok())
}

fn deal(run: &Run) -> String {
    let names = |kind: Kind| list(&run.names.objects[kind as usize], |name| text(name));
    let valued = |kind: Kind, values: &[i64], member: &'static str, is_text: bool| {
        list(run.names.objects[kind as usize].iter().zip(values), |(name, value)| {
            object(&[
                ("name", text(name)),
                (member, if is_text { number(value) } else { value.to_string() }),
            ])
        })
    };
    let deal = &run.ran.deal;
    let members = [
        ("threads", list(0..run.threads, |thread| thread_part(run, thread))),
        ("vars", valued(Kind::Variable, &deal.variables, "value", true)),
        ("mutexes", names(Kind::Mutex)),
        ("conds", names(Kind::Condition)),
        ("rwlocks", names(Kind::RwLock)),
        ("sems", valued(Kind::Semaphore, &deal.semaphores, "count", false)),
        ("barriers", valued(Kind::Barrier, &deal.barriers, "size", false)),
    ];
    object(&members)
}

fn thread_part(run: &Run, thread: u32) -> String {
    let told = run.ran.threads.iter().find(|told| told.number == thread);
    let mut members = vec![("name", text(run.names.thread(thread)))];
    members.extend(told.into_iter().flat_map(|told| place(told.place)));
    members.push(("held", (told.is_none_or(|told| told.path.len() > 1)).to_string()));
    object(&members)
}

fn run_part(run: &Run) -> String {
    let seed = run.drawn.map_or("null".to_owned(), |drawn| {
        object(&[
            ("seed", number(drawn.seed)),
            ("depth", drawn.depth.to_string()),
            ("steps", drawn.steps.to_string()),
        ])
    });
    let steps = list(&run.ran.events, |event| {
        let step = run.step(event);
        let [file, line] = place(step.place);
        object(&[
            ("thread", text(&step.thread)),
            file,
            line,
            ("ask", text(&step.ask)),
            ("answer", number(step.answer)),
        ])
    });
    let asking = list(&run.ran.asking, |asking| asking_part(run, asking));
    let ended = run.ran.threads.iter().filter(|thread| thread.has_ended());
    let members = [
        ("seed", seed),
        ("order", list(run.order(), |name| text(&name))),
        ("points", list(run.points(), u32::to_string)),
        ("limit", run.ran.limit.to_string()),
        ("steps", steps),
        ("asking", asking),
        ("ended", list(ended, |thread| text(run.names.thread(thread.number)))),
        ("verdict", text(&run.verdict())),
    ];
    object(&members)
}

/// What a thread asks at the end of the run.
fn asking_part(run: &Run, (thread, line, ask): &(u32, u32, Ask)) -> String {
    let [file, line] = place(run.ran.place(*line));
    object(&[
        ("thread", text(run.names.thread(*thread))),
        file,
        line,
        ("ask", text(&run.names.words(ask))),
    ])
}
