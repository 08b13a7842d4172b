//! The same calls compile and give the same against std, against this crate outside of a run, and
//! in runs. `tests/parity/methods.py` looks whether each stable method of std stands among them.
#![allow(missing_docs, clippy::all)]

mod with_std {
    use std as lib;
    use std::sync::atomic::Ordering::SeqCst;
    use std::time::Duration;

    const OUTSIDE: bool = true;
    include!("parity/calls.rs");
}

mod with_pct {
    use pct as lib;
    use pct::sync::atomic::Ordering::SeqCst;
    use std::time::Duration;

    const OUTSIDE: bool = true;
    include!("parity/calls.rs");
}

#[allow(dead_code)]
mod in_a_run {
    use pct as lib;
    use pct::sync::atomic::Ordering::SeqCst;
    use std::time::Duration;

    const OUTSIDE: bool = false;
    include!("parity/calls.rs");
}

#[test]
fn std_and_this_crate_do_the_same() {
    with_std::all();
    with_pct::all();
}

#[test]
fn in_runs_it_is_the_same() {
    let tests = [
        in_a_run::mutexes,
        in_a_run::rwlocks,
        in_a_run::condvars,
        in_a_run::barriers,
        in_a_run::once,
        in_a_run::channels,
        in_a_run::threads,
        in_a_run::atomics,
    ];
    for test in tests {
        pct::check_with(pct::Config { seeds: 20, ..pct::Config::default() }, test);
    }
}
