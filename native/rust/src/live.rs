//! A run with its real threads, of which one at a time goes: the one that has the baton.

use crate::ask::{kind, Late};
use crate::config::Settings;
use crate::objects::{Id, Kind, StaticValue, Word};
use crate::place::Place;
use crate::pool::Pool;
use crate::raw::Ask;
use crate::seat;
use crate::spin::Look;
use crate::state::{Access, End, Fault, Next, Panicked, State};
use std::panic::{self, AssertUnwindSafe};
use std::sync::atomic::{
    AtomicBool, AtomicI64, AtomicU32, AtomicU64, Ordering::Acquire, Ordering::Relaxed,
    Ordering::Release,
};
use std::sync::{Arc, Mutex, MutexGuard, OnceLock, TryLockError};
use std::thread::{self, Thread};

/// A thread of the run: where it waits for its answer.
struct Slot {
    goes: AtomicBool,
    answer: AtomicI64,
    kind: AtomicU32,
    place: Mutex<Option<Place>>,
    thread: OnceLock<Thread>,
}

/// What a step came to, with the kind of ask that it was posted as.
#[derive(Clone, Copy, Debug, PartialEq, Eq)]
pub(crate) struct Answer {
    pub kind: u32,
    pub value: i64,
}

pub(crate) struct Live {
    pub id: u32,
    state: Mutex<State>,
    slots: Vec<Slot>,
    is_over: AtomicBool,
    asks: AtomicU64,
    baton: AtomicU32,
    runner: Thread,
    pub settings: Arc<Settings>,
    pub pool: Option<Arc<Pool>>,
    fault: Mutex<Option<Fault>>,
}

/// A thread of a run that is over stays with what it owns.
fn forever() -> ! {
    loop {
        thread::park();
    }
}

impl Live {
    pub fn new(state: State, settings: Arc<Settings>, pool: Option<Arc<Pool>>) -> Live {
        static RUNS: AtomicU32 = AtomicU32::new(1);
        let slot = |_| Slot {
            goes: AtomicBool::new(false),
            answer: AtomicI64::new(0),
            kind: AtomicU32::new(kind::BEGIN),
            place: Mutex::new(None),
            thread: OnceLock::new(),
        };
        Live {
            id: RUNS.fetch_add(1, Relaxed),
            slots: (0..state.deal.threads).map(slot).collect(),
            state: Mutex::new(state),
            is_over: AtomicBool::new(false),
            asks: AtomicU64::new(0),
            baton: AtomicU32::new(0),
            runner: thread::current(),
            settings,
            pool,
            fault: Mutex::new(None),
        }
    }

    /// The state, for who has the baton. It is never waited for.
    pub fn state(&self) -> Result<MutexGuard<'_, State>, Fault> {
        self.state.try_lock().map_err(|refusal| match refusal {
            TryLockError::WouldBlock => "two threads had the baton at once".to_owned(),
            TryLockError::Poisoned(_) => "the layer panicked while it had its state".to_owned(),
        })
    }

    /// As `state`, for callers that have no way on without it.
    fn held(&self) -> MutexGuard<'_, State> {
        self.state().unwrap_or_else(|fault| self.fail(fault))
    }

    /// A fault of the layer: the runner is told, and the thread stays.
    pub fn fail(&self, fault: Fault) -> ! {
        if let Ok(mut told) = self.fault.lock() {
            told.get_or_insert(fault);
        }
        self.tell_runner();
        forever()
    }

    /// The check ends with this sentence. Who declares a test's threads is the runner itself, and
    /// panics.
    pub fn stop(&self, sentence: String) -> ! {
        assert!(seat::current(|_, _| ()).is_some(), "pct: {sentence}");
        self.close(End::Sentence(sentence))
    }

    fn close(&self, end: End) -> ! {
        let closed = self.held().close(end);
        if let Err(fault) = closed {
            self.fail(fault);
        }
        self.tell_runner();
        forever()
    }

    fn tell_runner(&self) {
        self.is_over.store(true, Release);
        self.runner.unpark();
    }

    /// Brings the baton back with an ask. It returns with the baton, once the step is taken.
    pub fn ask(&self, me: u32, place: Place, late: Late) -> Answer {
        if self.settings.panics_as_std() {
            seat::goes_on();
        } else if seat::has_panicked() {
            self.fail_by_panic(me, None);
        }
        self.step(me, place, late)
    }

    fn step(&self, me: u32, place: Place, late: Late) -> Answer {
        let is_tired = {
            let mut state = self.held();
            !state.spins.is_own(me) && state.spins.is_tired(me) && state.lets_another(me)
        };
        if is_tired {
            self.rest(me, place);
        }
        let mut state = self.held();
        if !state.spins.is_own(me) && !state.lets(&late) {
            state.spins.wake_resting(me);
        }
        drop(state);
        if let Err(fault) = self.wake_waiters(me) {
            self.fail(fault);
        }
        self.settled(self.bring(me, place, Some(late)), me)
    }

    fn settled(&self, brought: Result<Option<Answer>, Fault>, me: u32) -> Answer {
        match brought {
            Ok(Some(answer)) => answer,
            Ok(None) => self.wait(me),
            Err(fault) => self.fail(fault),
        }
    }

    /// Where the thread's last step changed something, those who wait for a change look again.
    fn wake_waiters(&self, me: u32) -> Result<(), Fault> {
        loop {
            let owed = self.state()?.spins.next_owed(me);
            let Some(semaphore) = owed else { return Ok(()) };
            let up = Late::Ask(Ask::of(kind::UP, semaphore));
            let brought = self.bring(me, self.last_place(me), Some(up));
            self.settled(brought, me);
            self.state()?.spins.has_woken(me);
        }
    }

    /// The answer, where it is this thread's turn next; none where it waits. Without an ask it
    /// ends.
    fn bring(&self, me: u32, place: Place, late: Option<Late>) -> Result<Option<Answer>, Fault> {
        self.asks.fetch_add(1, Relaxed);
        let mut state = self.state()?;
        let line = state.places.number(place);
        if let Ok(mut last) = self.slots[me as usize].place.try_lock() {
            *last = Some(place);
        }
        state.bring(me, line, late.unwrap_or(Late::Ask(Ask::of(kind::NONE, 0))));
        let next = match state.declared {
            Some((next, many)) => {
                state.declared = (next + 1 < many).then_some((next + 1, many));
                Next::Goes(next, Ask::of(kind::BEGIN, 0), 0)
            }
            None => state.next()?,
        };
        drop(state);
        match next {
            Next::Goes(thread, ask, answer) if thread == me => {
                Ok(Some(Answer { kind: ask.kind, value: answer }))
            }
            Next::Goes(thread, ask, answer) => self.hand(thread, ask.kind, answer).map(|()| None),
            Next::Over => {
                self.tell_runner();
                if late.is_some() {
                    forever();
                }
                Ok(None)
            }
        }
    }

    /// Gives the baton to a thread with its answer.
    pub fn hand(&self, thread: u32, kind: u32, answer: i64) -> Result<(), Fault> {
        let slot =
            self.slots.get(thread as usize).ok_or("the baton was for a thread that isn't there")?;
        self.baton.store(thread, Relaxed);
        slot.answer.store(answer, Relaxed);
        slot.kind.store(kind, Relaxed);
        slot.goes.store(true, Release);
        slot.thread.get().ok_or("the baton was for a thread that wasn't started")?.unpark();
        Ok(())
    }

    fn wait(&self, me: u32) -> Answer {
        let slot = &self.slots[me as usize];
        while !slot.goes.swap(false, Acquire) {
            thread::park();
        }
        Answer { kind: slot.kind.load(Relaxed), value: slot.answer.load(Relaxed) }
    }

    /// Brings the baton back for the last time.
    pub fn leave(&self, me: u32) {
        let left = self
            .finish(me)
            .and_then(|()| self.wake_waiters(me))
            .and_then(|()| self.bring(me, self.last_place(me), None));
        if let Err(fault) = left {
            self.fail(fault);
        }
    }

    /// What a handle tells of the thread from now on, which those who look again and again for it
    /// may see.
    fn finish(&self, me: u32) -> Result<(), Fault> {
        let mut state = self.state()?;
        state.threads.finish(me);
        state.spins.changes(me);
        state.spins.wake_resting(me);
        Ok(())
    }

    /// Where the thread asked last.
    pub fn last_place(&self, me: u32) -> Place {
        let last = self.slots.get(me as usize).and_then(|slot| *slot.place.try_lock().ok()?);
        last.unwrap_or(self.settings.place)
    }

    /// The number of an object, given at its first use in the run with its first value. None where
    /// it is an atomic that has none, or for which none is left.
    pub fn number(&self, id: &Id, first: Option<i64>, place: Place) -> Option<u32> {
        match id.word() {
            Word::Of { run, number } if run == self.id => return number,
            Word::Unused => (),
            _ => self.stop(format!(
                "{place}: one of the {} was used by another run: it is a static, or the test \
                 captured it. Make it within the test",
                id.kind.plural()
            )),
        }
        let number = first.and_then(|first| self.new_number(id.kind, first, place));
        id.give(self.id, number);
        number
    }

    fn new_number(&self, kind: Kind, first: i64, place: Place) -> Option<u32> {
        let mut state = self.held();
        match state.number(kind, first, place) {
            Ok(None) if kind != Kind::Variable => {
                drop(state);
                self.stop(format!("{place}: a run has at most 64 {} at a time", kind.plural()))
            }
            Ok(number) => number,
            Err(fault) => {
                drop(state);
                self.fail(fault)
            }
        }
    }

    /// Of objects that aren't atomics.
    pub fn sure_number(&self, id: &Id, first: i64, place: Place) -> u32 {
        self.number(id, Some(first), place)
            .unwrap_or_else(|| self.fail("an object without a number".into()))
    }

    pub fn free(&self, run: u32, kind: Kind, number: u32) {
        if run == self.id && !self.is_over.load(Relaxed) {
            if let Ok(mut state) = self.state() {
                state.objects.free(kind, number);
            }
        }
    }

    /// The value of an atomic static in this run.
    pub fn static_value(
        &self,
        id: &Id,
        first: i64,
        is_numbered: bool,
        place: Place,
    ) -> StaticValue {
        let known = self.held().objects.statics.get(&id.address()).copied();
        known.unwrap_or_else(|| {
            let number =
                is_numbered.then(|| self.new_number(Kind::Variable, first, place)).flatten();
            let value = StaticValue { number, value: first };
            self.held().objects.statics.insert(id.address(), value);
            value
        })
    }

    pub fn set_static(&self, id: &Id, value: i64) {
        if let Some(stands) = self.held().objects.statics.get_mut(&id.address()) {
            stands.value = value;
        }
    }

    /// The thread's last step changed something that the book doesn't know.
    pub fn changed(&self, me: u32) {
        self.held().spins.changes(me);
    }

    /// The semaphore at which a thread waits for changes.
    fn new_semaphore(&self, me: u32, place: Place) -> u32 {
        let number = self.new_number(Kind::Semaphore, 0, place);
        let semaphore = number.unwrap_or_else(|| self.fail("a thread without a semaphore".into()));
        self.held().spins.give(me, semaphore);
        semaphore
    }

    /// Waits until another thread has changed something, may be about to wait, or has ended.
    fn rest(&self, me: u32, place: Place) {
        let known = self.held().spins.semaphore(me);
        let semaphore = known.unwrap_or_else(|| self.new_semaphore(me, place));
        let mut state = self.held();
        state.spins.wake_resting(me);
        drop(state);
        if let Err(fault) = self.wake_waiters(me) {
            self.fail(fault);
        }
        self.held().spins.rest(me);
        let down = Late::Ask(Ask::of(kind::DOWN, semaphore));
        self.settled(self.bring(me, place, Some(down)), me);
        self.held().spins.goes_on(me);
    }

    /// Waits for a change, where nothing has changed since the thread looked last.
    pub fn look(&self, me: u32, place: Place) {
        let look = self.held().spins.look(me);
        let late = match look {
            Look::Rest if self.held().lets_another(me) => return self.rest(me, place),
            Look::Again | Look::Rest => Ask::yields(),
            Look::Wait(Some(semaphore)) => Ask::of(kind::DOWN, semaphore),
            Look::Wait(None) => Ask::of(kind::DOWN, self.new_semaphore(me, place)),
        };
        if late.kind == kind::DOWN {
            self.held().spins.wake_resting(me);
        }
        // Those whom it has to wake first are woken while it doesn't wait itself.
        if let Err(fault) = self.wake_waiters(me) {
            self.fail(fault);
        }
        self.held().spins.begin(me, late.kind == kind::DOWN);
        self.ask(me, place, Late::Ask(late));
        self.held().spins.goes_on(me);
    }

    /// An access of a cell, for `races`: the cell's number.
    pub fn access(&self, me: u32, id: &crate::cell::CellId, place: Place, is_write: bool) -> u32 {
        let mut state = self.held();
        let cell = id.number(self.id, &mut state.cells);
        if state.keeps_steps {
            let (after, line) = (state.steps, state.places.number(place));
            state.accesses.push(Access { after, thread: me, line, cell, is_write });
        }
        cell
    }

    /// Waits for the end of a thread, where it hasn't ended.
    pub fn join(&self, me: u32, place: Place, target: u32) {
        let has_ended = self.held().threads.has_ended(target);
        if has_ended {
            self.knows_ended(me, target);
        } else {
            self.ask(me, place, Late::Ask(Ask::of(kind::JOIN, target)));
        }
    }

    /// Numbers a thread, and makes the step that starts it.
    pub fn start(&self, me: u32, name: Option<String>, place: Place) -> u32 {
        let mut state = self.held();
        let most = state.deal.threads;
        let Some(number) = state.threads.spawn(me, name, place, most) else {
            let end = match most {
                64 => End::Sentence(format!("{place}: a run has at most 64 threads")),
                _ => End::MoreThreads,
            };
            drop(state);
            self.close(end)
        };
        drop(state);
        self.ask(me, place, Late::Ask(Ask::of(kind::START, number)));
        number
    }

    /// What the real thread of a thread does: it waits for the baton first. A kept thread is freed
    /// and posts its end at once, a fresh one when its thread-locals are gone.
    pub fn body(self: &Arc<Live>, me: u32, is_kept: Option<&dyn Fn()>, act: impl FnOnce()) {
        seat::enter(self, me, is_kept.is_none());
        self.wait(me);
        if let Err(payload) = panic::catch_unwind(AssertUnwindSafe(act)) {
            self.fail_by_panic(me, Some(seat::message_of(&*payload)));
        }
        if seat::has_panicked() && !self.settings.panics_as_std() {
            self.fail_by_panic(me, None);
        }
        if let Some(free) = is_kept {
            seat::exit();
            free();
            self.leave(me);
        }
    }

    /// The panic fails the run: it is an assertion that doesn't hold, in its line. Nothing is
    /// unwound further. Where a hook of the test's own had it, the line is that of the thread's
    /// last ask, and the message that of the payload, where that is known.
    pub fn fail_by_panic(&self, me: u32, message: Option<String>) -> ! {
        let unknown = || "a panic, whose message a hook of the test's own has".to_owned();
        let told = seat::panicked().unwrap_or_else(|| Panicked {
            place: self.last_place(me),
            message: message.unwrap_or_else(unknown),
            is_panic: true,
        });
        self.fail_by(me, told)
    }

    /// The thread fails by its own panic, or by another one's which nobody took.
    pub fn fail_by(&self, me: u32, told: Panicked) -> ! {
        let place = told.place;
        self.held().panicked.get_or_insert(told);
        self.step(me, place, Late::Ask(Ask::of(kind::CHECK_FAILS, 0)));
        forever()
    }

    /// A second panic, perhaps while the first one unwinds: then std aborts the process after this.
    pub fn tell_second(&self, me: u32, first: &Panicked, second: &Panicked) {
        let Ok(mut state) = self.state() else { return };
        let name = state
            .threads
            .get(me)
            .and_then(|thread| thread.name.clone())
            .unwrap_or_else(|| format!("t{me}"));
        eprintln!(
            "pct: thread {name} panicked at {}: {}\npct: and again at {}: {}. While the first \
             panic unwinds, that aborts the process",
            first.place, first.message, second.place, second.message
        );
        if let Some(path) = self.settings.trace_path("trace") {
            if crate::files::write_unfinished(&mut state, &self.settings, me, first, &path) {
                eprintln!("pct: the steps until then are in {}", path.display());
            }
        }
    }

    /// Real threads tell where they can be unparked.
    pub fn seat_thread(&self, me: u32, thread: Thread) -> Result<(), Fault> {
        let slot = self.slots.get(me as usize).ok_or("a thread beyond the run's was started")?;
        slot.thread.set(thread).map_err(|_| "a thread was started twice".to_owned())
    }

    pub fn is_over(&self) -> bool {
        self.is_over.load(Acquire)
    }

    pub fn take_fault(&self) -> Option<Fault> {
        self.fault.lock().ok()?.take()
    }

    /// How many asks there were, and who has the baton.
    pub fn progress(&self) -> (u64, u32) {
        (self.asks.load(Relaxed), self.baton.load(Relaxed))
    }
}
