//! What a run has beside its threads: what may leak, and the lazy statics.

use crate::lazy_static::Slot;
use std::collections::{BTreeMap, HashMap};
use std::panic::Location;
use std::sync::{Arc, Mutex, MutexGuard, RwLock};

/// What was made and isn't dropped.
#[derive(Clone, Copy, Debug)]
struct Left {
    what: &'static str,
    place: &'static Location<'static>,
}

#[derive(Debug, Default)]
struct Kept {
    next: u64,
    left: BTreeMap<u64, Left>,
}

/// A run, by its number in pct.
#[derive(Debug, Default)]
pub(crate) struct Run {
    number: u32,
    kept: Mutex<Kept>,
    pub statics: Mutex<HashMap<usize, Slot>>,
}

/// The runs that haven't passed.
static RUNS: RwLock<BTreeMap<u32, Arc<Run>>> = RwLock::new(BTreeMap::new());

/// Nothing of a test's code goes while this crate has one of its locks.
pub(crate) fn locked<T>(mutex: &Mutex<T>) -> MutexGuard<'_, T> {
    mutex.lock().unwrap_or_else(|poisoned| poisoned.into_inner())
}

/// The calling thread's run begins.
pub(crate) fn begin() -> Arc<Run> {
    let number = pct::layer::run().unwrap_or(0);
    let run = Arc::new(Run { number, ..Run::default() });
    RUNS.write().unwrap_or_else(|poisoned| poisoned.into_inner()).insert(number, run.clone());
    run
}

/// The run that the calling thread is in.
pub(crate) fn current() -> Option<Arc<Run>> {
    let number = pct::layer::run()?;
    RUNS.read().unwrap_or_else(|poisoned| poisoned.into_inner()).get(&number).cloned()
}

/// Something of a run that has to be dropped before its end. Outside of one it is nothing.
#[derive(Debug)]
pub(crate) struct Owed {
    of: Option<(Arc<Run>, u64)>,
}

impl Owed {
    /// What was made at a place.
    pub fn new(what: &'static str, place: &'static Location<'static>) -> Owed {
        let of = current().map(|run| {
            let number = {
                let mut kept = locked(&run.kept);
                let number = kept.next;
                kept.next += 1;
                kept.left.insert(number, Left { what, place });
                number
            };
            (run, number)
        });
        Owed { of }
    }
}

impl Drop for Owed {
    fn drop(&mut self) {
        if let Some((run, number)) = self.of.take() {
            locked(&run.kept).left.remove(&number);
        }
    }
}

impl Run {
    /// Drops the lazy statics. None is there any more.
    pub fn drop_statics(&self) {
        loop {
            let next = locked(&self.statics).values_mut().find_map(Slot::take);
            match next {
                Some(value) => drop(value),
                None => return,
            }
        }
    }

    /// All threads have ended. What is left fails the run, where it was made.
    pub fn end(&self, fails_by_leaks: bool) {
        let first = locked(&self.kept).left.values().next().copied().filter(|_| fails_by_leaks);
        if let Some(Left { what, place }) = first {
            let many = locked(&self.kept).left.len();
            let message = match many {
                1 => format!("a leak: {what} that is made here is left at the end"),
                _ => format!(
                    "a leak: {what} that is made here is left at the end, the first of {many} \
                     such things"
                ),
            };
            pct::layer::fail(place, message);
        }
        RUNS.write().unwrap_or_else(|poisoned| poisoned.into_inner()).remove(&self.number);
    }
}
