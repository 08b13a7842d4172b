//! Each rule that the pages give has a test here, and each sentence that somebody can meet stands
//! in one.
#![allow(missing_docs)]

mod calls;
mod ends;
mod objects;
mod sentences;
mod spins;
mod types;
mod values;

use pct::{Config, Test};
use std::panic::{catch_unwind, AssertUnwindSafe};

/// The text with which a call panics.
fn text_of(act: impl FnOnce()) -> String {
    let payload = catch_unwind(AssertUnwindSafe(act)).expect_err("it should panic");
    payload
        .downcast_ref::<String>()
        .cloned()
        .or_else(|| payload.downcast_ref::<&str>().map(|text| (*text).to_owned()))
        .unwrap()
}

/// Of a few seeds, for tests of sentences.
fn few() -> Config {
    Config { seeds: 30, ..Config::default() }
}

/// What a check says of a test that fails. The test's own file is this one, so that of its threads
/// is another one.
fn failure(test: impl Test) -> String {
    text_of(|| pct::check_with(few(), test))
}

/// That it fails with all of these texts, in which `{name}` is the line of the source that has `//:
/// name`.
#[track_caller]
fn fails_with(source: &str, test: impl Test, texts: &[&str]) {
    let told = failure(test);
    for text in texts {
        let text = filled(source, text);
        assert!(told.contains(&text), "no {text:?} in:\n{told}");
    }
}

/// A text with the numbers of the lines that it names.
fn filled(source: &str, text: &str) -> String {
    let marks = source
        .lines()
        .enumerate()
        .filter_map(|(line, text)| Some((line + 1, text.split_once(" //: ")?.1)));
    marks.fold(text.to_owned(), |text, (line, name)| {
        text.replace(&format!("{{{name}}}"), &line.to_string())
    })
}
