//! Threads that wait by looking again and again. Each waits at a semaphore of its own, until a step
//! of another one changes something.

use crate::objects::MOST;
use crate::raw::Ask;

/// Who waits so, and who has changed something since its last ask. Threads are bits.
pub(crate) struct Spins {
    semaphores: [Option<u32>; MOST],
    /// How many changes there were.
    many: u64,
    /// How many there were when a thread waited or wanted to last.
    seen: [Option<u64>; MOST],
    /// Who has taken another step since then.
    looked: u64,
    waiting: u64,
    changed: u64,
    /// Whom a thread has to wake before its next ask.
    owed: [u64; MOST],
    /// Whose steps are this module's own: they change nothing that anybody looks at.
    own: u64,
    /// Who waits only as long as another thread goes on.
    resting: u64,
    /// Who took the last step, and how many it has taken in a row.
    row: (u32, u32),
    /// How many steps in a row each thread takes until it rests, where it rests at all.
    until_rest: Option<[u32; MOST]>,
    /// How many changes each thread has made, and how many the others had made when it wanted to wait
    /// last.
    made: [u64; MOST],
    seen_of_others: [Option<u64>; MOST],
}

/// A thread that rests again and again takes at least so many steps in a row.
const LEAST_ROW: u32 = 16;

impl Default for Spins {
    fn default() -> Self {
        Spins {
            semaphores: [None; MOST],
            many: 0,
            seen: [None; MOST],
            looked: 0,
            waiting: 0,
            changed: 0,
            owed: [0; MOST],
            own: 0,
            resting: 0,
            row: (0, 0),
            until_rest: None,
            made: [0; MOST],
            seen_of_others: [None; MOST],
        }
    }
}

/// What a thread does that would wait.
pub(crate) enum Look {
    /// It looks again: something has changed since it wanted to wait last, or it hasn't looked
    /// since then.
    Again,
    /// It waits at its semaphore, once it has one.
    Wait(Option<u32>),
    /// Only its own steps have changed something since then: it waits so as long as another thread
    /// goes on.
    Rest,
}

impl Spins {
    /// Keeps up with a step.
    pub fn took(&mut self, thread: u32, ask: &Ask, answer: i64) {
        if self.is_own(thread) {
            return;
        }
        self.looked |= 1 << thread;
        self.row = if self.row.0 == thread { (thread, self.row.1 + 1) } else { (thread, 1) };
        if ask.changes(answer) {
            self.changes(thread);
        }
    }

    /// Whether its step is one of this module.
    pub fn is_own(&self, thread: u32) -> bool {
        self.own >> thread & 1 == 1
    }

    /// The thread has changed something.
    pub fn changes(&mut self, thread: u32) {
        self.many += 1;
        self.made[thread as usize] += 1;
        self.changed |= 1 << thread;
    }

    /// A thread wants to wait.
    pub fn look(&mut self, thread: u32) -> Look {
        let has_looked = self.looked >> thread & 1 == 1;
        self.looked &= !(1 << thread);
        let seen = self.seen[thread as usize].replace(self.many);
        let others = self.many - self.made[thread as usize];
        let seen_of_others = self.seen_of_others[thread as usize].replace(others);
        match (has_looked, seen == Some(self.many)) {
            (true, true) => Look::Wait(self.semaphores[thread as usize]),
            (true, false) if self.until_rest.is_some() && seen_of_others == Some(others) => {
                Look::Rest
            }
            _ => Look::Again,
        }
    }

    /// Threads rest after so many steps in a row.
    pub fn rest_after(&mut self, steps: Option<u32>) {
        self.until_rest = steps.map(|steps| [steps; MOST]);
    }

    /// Whether the thread has taken so many steps in a row that it is to rest. The next time it takes
    /// half as many.
    pub fn is_tired(&mut self, thread: u32) -> bool {
        let Some(until) = self.until_rest.as_mut().map(|all| &mut all[thread as usize]) else {
            return false;
        };
        if self.row.0 != thread || self.row.1 < *until {
            return false;
        }
        *until = (*until / 2).max(LEAST_ROW);
        self.row.1 = 0;
        true
    }

    pub fn semaphore(&self, thread: u32) -> Option<u32> {
        self.semaphores[thread as usize]
    }

    /// The thread waits as long as another one goes on.
    pub fn rest(&mut self, thread: u32) {
        self.begin(thread, true);
        self.resting |= 1 << thread;
    }

    /// The thread may be about to wait, or ends: those who rest go on.
    pub fn wake_resting(&mut self, thread: u32) {
        let resting = std::mem::take(&mut self.resting) & self.waiting;
        self.owed[thread as usize] |= resting;
        self.waiting &= !resting;
    }

    pub fn give(&mut self, thread: u32, semaphore: u32) {
        self.semaphores[thread as usize] = Some(semaphore);
    }

    /// Its next step is one of this module, by which it waits or not.
    pub fn begin(&mut self, thread: u32, waits: bool) {
        self.own |= 1 << thread;
        self.waiting |= u64::from(waits) << thread;
    }

    /// It goes on.
    pub fn goes_on(&mut self, thread: u32) {
        self.own &= !(1 << thread);
        self.waiting &= !(1 << thread);
        self.resting &= !(1 << thread);
    }

    /// The next one whom the thread has to wake before its next ask, by its semaphore. Who begins
    /// to wait meanwhile has looked since the change.
    pub fn next_owed(&mut self, thread: u32) -> Option<u32> {
        let owed = &mut self.owed[thread as usize];
        if self.changed >> thread & 1 == 1 {
            self.changed &= !(1 << thread);
            *owed |= std::mem::take(&mut self.waiting);
        }
        if *owed == 0 {
            return None;
        }
        let waiter = owed.trailing_zeros();
        *owed &= *owed - 1;
        self.own |= 1 << thread;
        self.semaphores[waiter as usize]
    }

    /// It has woken all.
    pub fn has_woken(&mut self, thread: u32) {
        self.own &= !(1 << thread);
    }

    /// The semaphores, with their threads.
    pub fn all(&self) -> impl Iterator<Item = (u32, u32)> + '_ {
        self.semaphores
            .iter()
            .enumerate()
            .filter_map(|(thread, semaphore)| semaphore.map(|it| (it, thread as u32)))
    }
}
