//! What a real thread knows of the run that it is in. It is the first of the thread's
//! thread-locals, so its destructor is the last one, and the thread's end is posted there.

use crate::live::Live;
use crate::objects::Kind;
use crate::place::Place;
use crate::state::Panicked;
use std::cell::{Cell, RefCell};
use std::panic::{self, PanicHookInfo};
use std::sync::{Arc, Once};

/// Of whoever declares a test's threads and is none of them.
const NOBODY: u32 = u32::MAX;

struct Seat {
    live: RefCell<Option<Arc<Live>>>,
    me: Cell<u32>,
    /// Whether the end is posted by the destructor.
    ends: Cell<bool>,
    panicked: RefCell<Option<Panicked>>,
    /// How many panics there were that may still unwind, since there was no ask without one.
    unwinding: Cell<u32>,
}

thread_local! {
    static SEAT: Seat = const {
        Seat {
            live: RefCell::new(None),
            me: Cell::new(NOBODY),
            ends: Cell::new(false),
            panicked: RefCell::new(None),
            unwinding: Cell::new(0),
        }
    };
}

impl Drop for Seat {
    fn drop(&mut self) {
        if let Some(live) = self.live.take().filter(|_| self.ends.get()) {
            live.leave(self.me.get());
        }
    }
}

/// The thread is a thread of a run from now on. `ends` says whether its end is posted when its
/// thread-locals are gone.
pub(crate) fn enter(live: &Arc<Live>, me: u32, ends: bool) {
    SEAT.with(|seat| {
        seat.me.set(me);
        seat.ends.set(ends);
        seat.panicked.take();
        seat.unwinding.set(0);
        seat.live.replace(Some(live.clone()));
    });
}

/// The thread is of no run any more.
pub(crate) fn exit() {
    SEAT.with(|seat| seat.live.take());
}

/// Declares threads and names objects of a run, of which the caller is none.
pub(crate) fn declare<R>(live: &Arc<Live>, act: impl FnOnce() -> R) -> R {
    struct Leaves;
    impl Drop for Leaves {
        fn drop(&mut self) {
            exit();
        }
    }
    enter(live, NOBODY, false);
    let _leaves = Leaves;
    act()
}

/// Acts for a thread of a run; nothing outside of one.
pub(crate) fn current<R>(act: impl FnOnce(&Arc<Live>, u32) -> R) -> Option<R> {
    SEAT.try_with(|seat| match (&*seat.live.borrow(), seat.me.get()) {
        (Some(live), me) if me != NOBODY => Some(act(live, me)),
        _ => None,
    })
    .ok()
    .flatten()
}

/// Acts for a thread of a run, or for who declares its threads.
pub(crate) fn naming<R>(act: impl FnOnce(&Arc<Live>) -> R) -> Option<R> {
    SEAT.try_with(|seat| seat.live.borrow().as_ref().map(act)).ok().flatten()
}

/// An object of this run is dropped, or was changed without a step.
pub(crate) fn free(run: u32, kind: Kind, number: u32) {
    current(|live, _| live.free(run, kind, number));
}

/// The panic that the thread is in, or was in since its run began.
pub(crate) fn panicked() -> Option<Panicked> {
    SEAT.try_with(|seat| seat.panicked.borrow().clone()).ok().flatten()
}

/// Whether the thread panics, or has panicked since its run began. It costs little.
pub(crate) fn has_panicked() -> bool {
    std::thread::panicking()
        || SEAT.try_with(|seat| seat.panicked.borrow().is_some()).unwrap_or(false)
}

/// The thread asks, where panics are as std's: one that doesn't unwind now was caught.
pub(crate) fn goes_on() {
    if !std::thread::panicking() {
        let _ = SEAT.try_with(|seat| seat.unwinding.set(0));
    }
}

/// A panic of a thread of a run is kept and told with the run; all others go to the hook that stood
/// before.
pub(crate) fn install_hook() {
    static HOOK: Once = Once::new();
    HOOK.call_once(|| {
        let others = panic::take_hook();
        panic::set_hook(Box::new(move |info| {
            if current(|live, me| keep(live, me, info)).is_none() {
                others(info);
            }
        }));
    });
}

/// It never waits: whoever panics has the baton, and no lock is taken here but by `try_lock`.
fn keep(live: &Arc<Live>, me: u32, info: &PanicHookInfo<'_>) {
    let place = info.location().map_or_else(
        || live.last_place(me),
        |location| Place { file: name_of(location.file()), line: location.line() },
    );
    let told = Panicked { place, message: message_of(info.payload()), is_panic: true };
    SEAT.with(|seat| {
        let mut panicked = seat.panicked.borrow_mut();
        seat.unwinding.set(seat.unwinding.get() + 1);
        // std's own panic by which it aborts is a third one.
        if let Some(first) = panicked.as_ref().filter(|_| seat.unwinding.get() == 2) {
            live.tell_second(me, first, &told);
        }
        if panicked.is_none() || live.settings.panics_as_std() {
            *panicked = Some(told);
        }
    });
}

/// The names of files that panics told, each kept once.
fn name_of(file: &str) -> &'static str {
    static NAMES: std::sync::Mutex<Vec<&'static str>> = std::sync::Mutex::new(Vec::new());
    let Ok(mut names) = NAMES.try_lock() else { return "?" };
    if let Some(name) = names.iter().find(|name| **name == file) {
        return name;
    }
    let name: &'static str = Box::leak(file.to_owned().into_boxed_str());
    names.push(name);
    name
}

/// The text of a payload, where it is one.
pub(crate) fn message_of(payload: &(dyn std::any::Any + Send)) -> String {
    let text = payload
        .downcast_ref::<&str>()
        .copied()
        .or_else(|| payload.downcast_ref::<String>().map(String::as_str));
    text.unwrap_or("a panic without a text").to_owned()
}
