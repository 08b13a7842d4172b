//! Numbers of objects: who has which, in a run.

use crate::ask::kind;
use crate::clocks::Tag;
use crate::place::Place;
use crate::raw::{Ask, Deal};
use crate::seat;
use std::collections::HashMap;
use std::sync::atomic::{AtomicU64, Ordering::Relaxed};

/// At most so many objects of a kind, and so many threads.
pub(crate) const MOST: usize = 64;

/// The kinds of objects that a deal has.
#[derive(Clone, Copy, Debug, PartialEq, Eq)]
pub enum Kind {
    Variable,
    Mutex,
    Condition,
    Semaphore,
    Barrier,
    RwLock,
}

impl Kind {
    pub const ALL: [Kind; 6] = [
        Kind::Variable,
        Kind::Mutex,
        Kind::Condition,
        Kind::Semaphore,
        Kind::Barrier,
        Kind::RwLock,
    ];

    /// As texts of names have it.
    pub fn word(self) -> &'static str {
        ["var", "mutex", "cond", "sem", "barrier", "rwlock"][self as usize]
    }

    /// As sentences have it.
    pub fn plural(self) -> &'static str {
        ["atomics", "mutexes", "condition variables", "semaphores", "barriers", "read-write locks"]
            [self as usize]
    }
}

/// What an object keeps to be known by in runs: the run in the upper half, one more than its number
/// in the lower.
#[derive(Debug)]
pub struct Id {
    pub kind: Kind,
    word: AtomicU64,
    /// By what clocks know an atomic.
    pub(crate) tag: Tag,
}

impl Drop for Id {
    fn drop(&mut self) {
        self.forget();
    }
}

impl Id {
    /// Of an object that no run has used.
    pub const fn new(kind: Kind) -> Id {
        Id { kind, word: AtomicU64::new(0), tag: Tag::new() }
    }

    pub(crate) fn word(&self) -> Word {
        match self.word.load(Relaxed) {
            0 => Word::Unused,
            u64::MAX => Word::Static,
            word => Word::Of { run: (word >> 32) as u32, number: (word as u32).checked_sub(1) },
        }
    }

    pub fn give(&self, run: u32, number: Option<u32>) {
        self.word.store(
            u64::from(run) << 32 | u64::from(number.map_or(0, |number| number + 1)),
            Relaxed,
        );
    }

    pub fn mark_static(&self) {
        self.word.store(u64::MAX, Relaxed);
    }

    /// It will have a fresh number at its next use.
    pub fn forget(&self) {
        if let Word::Of { run, number: Some(number) } = self.word() {
            seat::free(run, self.kind, number);
        }
        self.word.store(0, Relaxed);
    }

    pub fn address(&self) -> usize {
        std::ptr::from_ref(self) as usize
    }
}

/// What an `Id` says.
pub(crate) enum Word {
    Unused,
    Static,
    /// The number is none for an atomic for which no variable was left.
    Of {
        run: u32,
        number: Option<u32>,
    },
}

/// An atomic static, whose value is kept for each run apart.
#[derive(Clone, Copy)]
pub(crate) struct StaticValue {
    pub number: Option<u32>,
    pub value: i64,
}

/// The numbers that a run has given, and what stands of its objects.
pub(crate) struct Objects {
    given: [u32; 6],
    freed: [u64; 6],
    reused: [u64; 6],
    pub values: [i64; MOST],
    counts: [i64; MOST],
    sizes: [i64; MOST],
    held: u64,
    read_holds: [u32; MOST],
    pub statics: HashMap<usize, StaticValue>,
    /// Where each was first used, by kind.
    pub first_uses: [Vec<Place>; 6],
}

impl Objects {
    pub fn new() -> Objects {
        Objects {
            given: [0; 6],
            freed: [0; 6],
            reused: [0; 6],
            values: [0; MOST],
            counts: [0; MOST],
            sizes: [0; MOST],
            held: 0,
            read_holds: [0; MOST],
            statics: HashMap::new(),
            first_uses: Default::default(),
        }
    }

    pub fn given(&self, kind: Kind) -> u32 {
        self.given[kind as usize]
    }

    /// Whether two objects had this number, one after the other.
    pub fn is_reused(&self, kind: Kind, number: u32) -> bool {
        self.reused[kind as usize] >> number & 1 == 1
    }

    /// A number for an object with this first value: a fresh one, or where there is none, that of a
    /// dropped object which stands as the new one would.
    pub fn number(&mut self, kind: Kind, first: i64, place: Place) -> Option<u32> {
        let given = &mut self.given[kind as usize];
        let number = *given;
        if (number as usize) < MOST {
            *given += 1;
            self.first_uses[kind as usize].push(place);
            self.stand(kind, number, first);
            return Some(number);
        }
        let number = (0..MOST as u32).find(|number| self.is_as_fresh(kind, *number, first))?;
        self.freed[kind as usize] &= !(1 << number);
        self.reused[kind as usize] |= 1 << number;
        Some(number)
    }

    fn stand(&mut self, kind: Kind, number: u32, first: i64) {
        match kind {
            Kind::Variable => self.values[number as usize] = first,
            Kind::Semaphore => self.counts[number as usize] = first,
            Kind::Barrier => self.sizes[number as usize] = first,
            Kind::Mutex | Kind::Condition | Kind::RwLock => (),
        }
    }

    fn is_as_fresh(&self, kind: Kind, number: u32, first: i64) -> bool {
        let index = number as usize;
        let stands = match kind {
            Kind::Variable => self.values[index] == first,
            Kind::Semaphore => self.counts[index] == first,
            Kind::Barrier => self.sizes[index] == first,
            Kind::Mutex => self.held >> number & 1 == 0,
            Kind::RwLock => self.read_holds[index] == 0,
            Kind::Condition => true,
        };
        stands && self.freed[kind as usize] >> number & 1 == 1
    }

    pub fn free(&mut self, kind: Kind, number: u32) {
        self.freed[kind as usize] |= 1 << number;
    }

    /// Whether a step that is asked can be taken now for sure, but for one that waits for a thread.
    pub fn lets(&self, ask: &Ask) -> bool {
        let index = ask.a as usize;
        match ask.kind {
            kind::LOCK => self.held >> ask.a & 1 == 0,
            kind::DOWN => self.counts[index] > 0,
            kind::RD_LOCK | kind::WR_LOCK => self.read_holds[index] == 0,
            kind::REGAIN | kind::LEAVE | kind::JOIN | kind::NONE => false,
            _ => true,
        }
    }

    /// Keeps up with a step.
    pub fn took(&mut self, ask: &Ask, answer: i64) {
        let index = ask.a as usize;
        match ask.kind {
            kind::WRITE => self.values[index] = ask.x,
            kind::ADD => self.values[index] += ask.x,
            kind::CAS if answer == 1 => self.values[index] = ask.y,
            kind::LOCK | kind::REGAIN | kind::UNLOCK | kind::RELEASE => self.hold(ask),
            kind::TRY_LOCK if answer == 1 => self.hold(ask),
            kind::DOWN => self.counts[index] -= 1,
            kind::TRY_DOWN => self.counts[index] -= answer,
            kind::UP => self.counts[index] += 1,
            kind::RD_LOCK | kind::WR_LOCK => self.read_holds[index] += 1,
            kind::TRY_RD_LOCK | kind::TRY_WR_LOCK => self.read_holds[index] += answer as u32,
            kind::RW_UNLOCK => self.read_holds[index] -= 1,
            _ => (),
        }
    }

    fn hold(&mut self, ask: &Ask) {
        match ask.kind {
            kind::LOCK | kind::TRY_LOCK => self.held |= 1 << ask.a,
            kind::REGAIN => self.held |= 1 << ask.b,
            kind::RELEASE => self.held &= !(1 << ask.b),
            _ => self.held &= !(1 << ask.a),
        }
    }
}

impl Deal {
    /// Takes an object in with its first value. Whether the deal is another one then.
    pub fn mend(&mut self, kind: Kind, number: u32, first: i64) -> bool {
        let list = match kind {
            Kind::Variable => &mut self.variables,
            Kind::Semaphore => &mut self.semaphores,
            Kind::Barrier => &mut self.barriers,
            Kind::Mutex => return more(&mut self.mutexes, number),
            Kind::Condition => return more(&mut self.conditions, number),
            Kind::RwLock => return more(&mut self.rwlocks, number),
        };
        match list.get_mut(number as usize) {
            Some(value) if *value == first => return false,
            Some(value) => *value = first,
            None => list.push(first),
        }
        true
    }
}

fn more(count: &mut u32, number: u32) -> bool {
    let grows = number >= *count;
    *count = (*count).max(number + 1);
    grows
}
