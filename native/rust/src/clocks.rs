//! What orders the accesses of a run's cells: happens-before, by the orderings that the code declares.
//! The values of a run are those of one order of all steps, so an unordered pair here is one in C11's
//! sense, too.

use crate::ask::kind;
use crate::raw::Ask;
use std::collections::HashMap;
use std::sync::atomic::{AtomicU32, Ordering, Ordering::Relaxed};

/// By what clocks know an object: a number that no other object of the process has, which it takes
/// along where it is moved.
#[derive(Debug, Default)]
pub(crate) struct Tag(AtomicU32);

impl Tag {
    pub const fn new() -> Tag {
        Tag(AtomicU32::new(0))
    }

    /// The number, given at the first use.
    pub fn number(&self) -> u32 {
        static LAST: AtomicU32 = AtomicU32::new(0);
        match self.0.load(Relaxed) {
            0 => {
                let number = LAST.fetch_add(1, Relaxed).wrapping_add(1).max(1);
                self.0.store(number, Relaxed);
                number
            }
            number => number,
        }
    }
}

/// How many releases of each thread are known to have happened.
#[derive(Clone, Debug, Default, PartialEq, Eq)]
pub(crate) struct Clock(Vec<u32>);

impl Clock {
    fn of(&self, thread: u32) -> u32 {
        self.0.get(thread as usize).copied().unwrap_or(0)
    }

    fn at(&mut self, thread: u32) -> &mut u32 {
        let index = thread as usize;
        if self.0.len() <= index {
            self.0.resize(index + 1, 0);
        }
        &mut self.0[index]
    }

    fn join(&mut self, other: &Clock) {
        if self.0.len() < other.0.len() {
            self.0.resize(other.0.len(), 0);
        }
        self.0.iter_mut().zip(&other.0).for_each(|(own, other)| *own = (*own).max(*other));
    }

    /// Whether all that the other one knows is known.
    fn covers(&self, other: &Clock) -> bool {
        other.0.iter().enumerate().all(|(thread, at)| self.of(thread as u32) >= *at)
    }
}

/// What a thread knows.
#[derive(Clone, Debug, Default)]
struct Known {
    now: Clock,
    /// At its last release fence.
    released: Clock,
    /// What an acquire fence would take in: it was read by relaxed loads.
    read: Clock,
}

/// An atomic: what who acquires it comes to know, and who has stored and loaded.
#[derive(Clone, Debug, Default)]
struct Atomic {
    released: Clock,
    stores: Clock,
    loads: Clock,
    plain_loads: Clock,
    plain_changes: Clock,
}

/// A read-write lock: what its writers and its readers let go, and who holds it for writing.
#[derive(Clone, Debug, Default)]
struct RwLock {
    written: Clock,
    read: Clock,
    writer: Option<u32>,
}

/// How an atomic is used.
#[derive(Clone, Copy, Debug, PartialEq, Eq)]
pub(crate) enum Use {
    Load(Ordering),
    Store(Ordering),
    Change(Ordering),
    /// Not as an atomic.
    PlainLoad,
    PlainChange,
}

/// The clocks of a run.
#[derive(Debug, Default)]
pub(crate) struct Clocks {
    threads: Vec<Known>,
    mutexes: HashMap<u32, Clock>,
    semaphores: HashMap<u32, Clock>,
    barriers: HashMap<u32, Clock>,
    rwlocks: HashMap<u32, RwLock>,
    /// By tag.
    atomics: HashMap<u32, Atomic>,
    points: HashMap<u32, Clock>,
    /// What fences that are sequentially consistent know.
    fenced: Clock,
}

fn acquires(order: Ordering) -> bool {
    matches!(order, Ordering::Acquire | Ordering::AcqRel | Ordering::SeqCst)
}

fn releases(order: Ordering) -> bool {
    matches!(order, Ordering::Release | Ordering::AcqRel | Ordering::SeqCst)
}

impl Clocks {
    fn known(&mut self, thread: u32) -> &mut Known {
        let index = thread as usize;
        while self.threads.len() <= index {
            let mut known = Known::default();
            *known.now.at(self.threads.len() as u32) = 1;
            self.threads.push(known);
        }
        &mut self.threads[index]
    }

    /// What the thread knows, to be let go: what it does from now on isn't in it.
    fn let_go(&mut self, thread: u32) -> Clock {
        let known = self.known(thread);
        let now = known.now.clone();
        *known.now.at(thread) += 1;
        now
    }

    fn take_in(&mut self, thread: u32, other: &Clock) {
        self.known(thread).now.join(other);
    }

    /// When the thread accesses something now.
    pub fn now(&mut self, thread: u32) -> u32 {
        self.known(thread).now.of(thread)
    }

    /// Whether what a thread did then is known to another one.
    pub fn knows(&mut self, thread: u32, other: u32, at: u32) -> bool {
        thread == other || self.known(thread).now.of(other) >= at
    }

    /// Keeps up with a step on anything but an atomic.
    pub fn took(&mut self, thread: u32, ask: &Ask, answer: i64) {
        match ask.kind {
            kind::LOCK => self.take_mutex(thread, ask.a),
            kind::TRY_LOCK if answer == 1 => self.take_mutex(thread, ask.a),
            kind::REGAIN => self.take_mutex(thread, ask.b),
            kind::UNLOCK => self.let_mutex_go(thread, ask.a),
            kind::RELEASE => self.let_mutex_go(thread, ask.b),
            kind::RD_LOCK | kind::WR_LOCK | kind::RW_UNLOCK => self.rwlock(thread, ask),
            kind::TRY_RD_LOCK | kind::TRY_WR_LOCK if answer == 1 => self.rwlock(thread, ask),
            kind::UP => {
                let now = self.let_go(thread);
                self.semaphores.entry(ask.a).or_default().join(&now);
            }
            kind::TRY_DOWN if answer != 1 => (),
            kind::DOWN | kind::TRY_DOWN => {
                let known = self.semaphores.get(&ask.a).cloned().unwrap_or_default();
                self.take_in(thread, &known);
            }
            kind::ARRIVE => {
                let now = self.let_go(thread);
                self.barriers.entry(ask.a).or_default().join(&now);
            }
            kind::LEAVE => {
                let known = self.barriers.get(&ask.a).cloned().unwrap_or_default();
                self.take_in(thread, &known);
            }
            kind::START => {
                let now = self.let_go(thread);
                self.take_in(ask.a, &now);
            }
            kind::JOIN => self.join(thread, ask.a),
            _ => (),
        }
    }

    /// The thread knows all that one did which has ended.
    pub fn join(&mut self, thread: u32, ended: u32) {
        let known = self.known(ended).now.clone();
        self.take_in(thread, &known);
    }

    fn take_mutex(&mut self, thread: u32, mutex: u32) {
        let known = self.mutexes.get(&mutex).cloned().unwrap_or_default();
        self.take_in(thread, &known);
    }

    fn let_mutex_go(&mut self, thread: u32, mutex: u32) {
        let now = self.let_go(thread);
        self.mutexes.insert(mutex, now);
    }

    fn rwlock(&mut self, thread: u32, ask: &Ask) {
        if ask.kind == kind::RW_UNLOCK {
            let now = self.let_go(thread);
            let lock = self.rwlocks.entry(ask.a).or_default();
            match lock.writer.take_if(|writer| *writer == thread) {
                Some(_) => lock.written = now,
                None => lock.read.join(&now),
            }
            return;
        }
        let lock = self.rwlocks.entry(ask.a).or_default();
        let mut known = lock.written.clone();
        if matches!(ask.kind, kind::WR_LOCK | kind::TRY_WR_LOCK) {
            known.join(&lock.read);
            lock.writer = Some(thread);
        }
        self.take_in(thread, &known);
    }

    /// Keeps up with the use of an atomic. Whether it is ordered with all others, where one of the two
    /// is that of plain memory.
    pub fn atomic(&mut self, thread: u32, tag: u32, usage: Use) -> bool {
        let mut atomic = self.atomics.remove(&tag).unwrap_or_default();
        let is_ordered = match usage {
            Use::PlainLoad => self.known(thread).now.covers(&atomic.stores),
            Use::PlainChange => {
                let now = &self.known(thread).now;
                now.covers(&atomic.stores) && now.covers(&atomic.loads)
            }
            Use::Load(_) => self.known(thread).now.covers(&atomic.plain_changes),
            Use::Store(_) | Use::Change(_) => {
                let now = &self.known(thread).now;
                now.covers(&atomic.plain_changes) && now.covers(&atomic.plain_loads)
            }
        };
        if let Use::Load(order) | Use::Change(order) = usage {
            let known = self.known(thread);
            known.read.join(&atomic.released);
            if acquires(order) {
                known.now.join(&atomic.released);
            }
        }
        self.use_as(thread, &mut atomic, usage);
        self.atomics.insert(tag, atomic);
        is_ordered
    }

    fn use_as(&mut self, thread: u32, atomic: &mut Atomic, usage: Use) {
        let at = self.now(thread);
        match usage {
            Use::Load(_) => *atomic.loads.at(thread) = at,
            Use::PlainLoad => {
                *atomic.loads.at(thread) = at;
                *atomic.plain_loads.at(thread) = at;
            }
            Use::PlainChange => {
                *atomic.stores.at(thread) = at;
                *atomic.plain_changes.at(thread) = at;
            }
            Use::Store(order) | Use::Change(order) => {
                *atomic.stores.at(thread) = at;
                // A plain store ends what the stores before it released; a change goes on with it.
                if matches!(usage, Use::Store(_)) {
                    atomic.released = Clock::default();
                }
                let now = match releases(order) {
                    true => self.let_go(thread),
                    false => self.known(thread).released.clone(),
                };
                atomic.released.join(&now);
            }
        }
    }

    /// A fence. Those that are sequentially consistent order each other, as in Loom.
    pub fn fence(&mut self, thread: u32, order: Ordering) {
        if acquires(order) {
            let known = self.known(thread);
            let read = std::mem::take(&mut known.read);
            known.now.join(&read);
        }
        if order == Ordering::SeqCst {
            let fenced = self.fenced.clone();
            self.take_in(thread, &fenced);
        }
        if releases(order) {
            let now = self.let_go(thread);
            if order == Ordering::SeqCst {
                self.fenced.join(&now);
            }
            self.known(thread).released = now;
        }
    }

    /// Who comes to this point knows what stood before.
    pub fn give(&mut self, thread: u32, point: u32) {
        let now = self.let_go(thread);
        self.points.entry(point).or_default().join(&now);
    }

    /// The thread knows what was given at this point.
    pub fn take(&mut self, thread: u32, point: u32) {
        let known = self.points.get(&point).cloned().unwrap_or_default();
        self.take_in(thread, &known);
    }
}

#[cfg(test)]
mod tests {
    use super::*;
    use Ordering::{AcqRel, Acquire, Release, SeqCst};

    /// Whether thread 1 knows what thread 0 did first, after these uses of one atomic.
    fn passes(uses: &[(u32, Use)]) -> bool {
        let mut clocks = Clocks::default();
        let at = clocks.now(0);
        for (thread, usage) in uses {
            clocks.atomic(*thread, 8, *usage);
        }
        clocks.knows(1, 0, at)
    }

    #[test]
    fn a_store_that_releases_is_acquired() {
        assert!(passes(&[(0, Use::Store(Release)), (1, Use::Load(Acquire))]));
        assert!(passes(&[(0, Use::Store(SeqCst)), (1, Use::Change(AcqRel))]));
    }

    #[test]
    fn relaxed_uses_order_nothing() {
        assert!(!passes(&[(0, Use::Store(Relaxed)), (1, Use::Load(Acquire))]));
        assert!(!passes(&[(0, Use::Store(Release)), (1, Use::Load(Relaxed))]));
        assert!(!passes(&[(0, Use::Change(Acquire)), (1, Use::Change(Acquire))]));
    }

    #[test]
    fn changes_go_on_with_a_release_and_stores_end_it() {
        let between = |usage| [(0, Use::Store(Release)), (2, usage), (1, Use::Load(Acquire))];
        assert!(passes(&between(Use::Change(Relaxed))));
        assert!(!passes(&between(Use::Store(Relaxed))));
    }

    #[test]
    fn fences_order_relaxed_uses() {
        let mut clocks = Clocks::default();
        let at = clocks.now(0);
        clocks.fence(0, Release);
        clocks.atomic(0, 8, Use::Store(Relaxed));
        clocks.atomic(1, 8, Use::Load(Relaxed));
        assert!(!clocks.knows(1, 0, at));
        clocks.fence(1, Acquire);
        assert!(clocks.knows(1, 0, at));
    }

    #[test]
    fn fences_of_both_threads_order_them() {
        let mut clocks = Clocks::default();
        let at = clocks.now(0);
        clocks.fence(0, SeqCst);
        clocks.fence(1, AcqRel);
        assert!(!clocks.knows(1, 0, at));
        clocks.fence(1, SeqCst);
        assert!(clocks.knows(1, 0, at));
    }

    #[test]
    fn readers_dont_order_readers() {
        let mut clocks = Clocks::default();
        let at = clocks.now(0);
        for (thread, what) in [(0, kind::RD_LOCK), (0, kind::RW_UNLOCK), (1, kind::RD_LOCK)] {
            clocks.took(thread, &Ask::of(what, 3), 0);
        }
        assert!(!clocks.knows(1, 0, at));
        clocks.took(1, &Ask::of(kind::RW_UNLOCK, 3), 0);
        clocks.took(1, &Ask::of(kind::WR_LOCK, 3), 0);
        assert!(clocks.knows(1, 0, at));
    }

    #[test]
    fn what_follows_a_release_isnt_in_it() {
        let mut clocks = Clocks::default();
        clocks.atomic(0, 8, Use::Store(Release));
        let at = clocks.now(0);
        clocks.atomic(1, 8, Use::Load(Acquire));
        assert!(!clocks.knows(1, 0, at));
    }
}
