//! The values that the core's library takes and gives, as `include/pct.h` lays them out, and what
//! is made of them.

/// What a thread asks: `pct.h` says which kinds there are and what their values mean.
#[repr(C)]
#[derive(Clone, Copy, Debug, Default, PartialEq, Eq, Hash)]
pub(crate) struct Ask {
    pub kind: u32,
    pub a: u32,
    pub b: u32,
    pub x: i64,
    pub y: i64,
}

/// A step.
#[repr(C)]
#[derive(Clone, Copy, Debug, Default, PartialEq, Eq, Hash)]
pub(crate) struct Event {
    pub thread: u32,
    pub line: u32,
    pub ask: Ask,
    pub answer: i64,
}

/// What became of a run.
#[repr(C)]
#[derive(Clone, Copy, Debug, PartialEq, Eq, Hash)]
pub(crate) struct Outcome {
    pub kind: u32,
    pub reason: u32,
    pub thread: u32,
    pub line: u32,
    pub blocked: u64,
    pub lines: [u32; 64],
}

/// After the step of `thread` that is its `number`-th it is lowered.
#[repr(C)]
#[derive(Clone, Copy, Debug, Default, PartialEq, Eq)]
pub(crate) struct Moment {
    pub thread: u32,
    pub number: u32,
}

#[repr(C)]
#[derive(Clone, Copy, Debug, Default)]
pub(crate) struct RawDeal {
    pub threads: u32,
    pub mutexes: u32,
    pub conditions: u32,
    pub rwlocks: u32,
}

#[repr(C)]
pub(crate) struct RawTurn {
    pub status: u32,
    pub choice: u32,
    pub thread: u32,
    pub answer: i64,
}

#[repr(C)]
pub(crate) struct RawCount {
    pub status: u32,
    pub count: u64,
}

#[repr(C)]
pub(crate) struct RawRead {
    pub status: u32,
    pub line: u32,
    pub fault: u32,
}

#[repr(C)]
pub(crate) struct RawHandle {
    pub full: bool,
    pub at: *mut u8,
}

#[repr(C)]
pub(crate) struct RawHead {
    pub status: u32,
    pub version: u32,
    pub limit: u32,
    pub threads: u64,
    pub points: u64,
    pub steps: u64,
}

#[repr(C)]
#[derive(Clone, Debug)]
pub(crate) struct RawDirective {
    pub low: u32,
    pub count: u32,
    pub moments: [Moment; 7],
    pub verdict: Outcome,
}

impl RawDirective {
    /// Of at most 7 moments.
    pub fn new(low: u32, moments: &[Moment], verdict: &Outcome) -> RawDirective {
        let mut raw = RawDirective {
            low,
            count: moments.len() as u32,
            moments: [Moment::default(); 7],
            verdict: *verdict,
        };
        raw.moments[..moments.len()].copy_from_slice(moments);
        raw
    }

    pub fn moments(&self) -> &[Moment] {
        &self.moments[..self.count as usize]
    }
}

/// Two accesses of a variable that nothing orders, by their steps from 1.
#[repr(C)]
#[derive(Clone, Copy, Debug, Default, PartialEq, Eq)]
pub(crate) struct RawRace {
    pub variable: u32,
    pub first: u32,
    pub second: u32,
}

/// At this step the thread takes a mutex while it holds another.
#[repr(C)]
#[derive(Clone, Copy, Debug, Default, PartialEq, Eq)]
pub(crate) struct RawNesting {
    pub step: u32,
    pub thread: u32,
    pub held: u32,
    pub taken: u32,
}

#[repr(C)]
pub(crate) struct RawLocks {
    pub status: u32,
    pub kind: u32,
    pub count: u64,
}

/// The run of a seed.
#[repr(C)]
#[derive(Clone, Copy, Debug)]
pub(crate) struct RawRow {
    pub seed: u64,
    pub steps: u32,
    pub verdict: Outcome,
}

/// Failures that have one verdict.
#[repr(C)]
#[derive(Clone, Copy, Debug)]
pub(crate) struct RawGroup {
    pub verdict: Outcome,
    pub count: u32,
    pub steps: u32,
    pub first: u64,
}

/// What the runs of a campaign have in common.
#[repr(C)]
#[derive(Clone, Copy, Debug)]
pub(crate) struct Frame {
    pub threads: u32,
    pub steps: u32,
    pub depth: u32,
    pub limit: u32,
}

#[repr(C)]
#[derive(Clone, Copy)]
pub(crate) struct RawBound {
    pub status: u32,
    pub low: u64,
    pub high: u64,
}

const NO_MEMORY: u32 = 6;

/// A call of the library refused what it was given. What is told is a fault of this crate, or want
/// of memory.
#[derive(Clone, Debug, PartialEq, Eq)]
pub(crate) struct Refused {
    pub call: &'static str,
    pub status: u32,
}

impl std::fmt::Display for Refused {
    fn fmt(&self, to: &mut std::fmt::Formatter<'_>) -> std::fmt::Result {
        match self.status {
            NO_MEMORY => write!(to, "no memory for {}", self.call),
            status => write!(to, "the library refused {} with the status {status}", self.call),
        }
    }
}

/// What the threads share: how many threads and objects without a value there are, and the first
/// values of the others.
#[derive(Clone, Debug, Default, PartialEq, Eq)]
pub(crate) struct Deal {
    pub threads: u32,
    pub mutexes: u32,
    pub conditions: u32,
    pub rwlocks: u32,
    pub variables: Vec<i64>,
    pub semaphores: Vec<i64>,
    pub barriers: Vec<i64>,
}

impl Deal {
    pub fn raw(&self) -> RawDeal {
        let Deal { threads, mutexes, conditions, rwlocks, .. } = *self;
        RawDeal { threads, mutexes, conditions, rwlocks }
    }
}

/// By what a book chooses who takes the next step.
#[derive(Clone, Debug, PartialEq, Eq)]
pub(crate) enum Plan {
    Points { order: Vec<u32>, points: Vec<u32> },
    Moments { order: Vec<u32>, moments: Vec<Moment> },
    List(Vec<u32>),
}

/// Whose turn it is.
#[derive(Clone, Copy, Debug, PartialEq, Eq)]
pub(crate) enum Choice {
    Turn(u32),
    Waits(u32),
    Over,
}

/// What became of a post with a step.
#[derive(Clone, Copy, Debug, PartialEq, Eq)]
pub(crate) enum Stepped {
    Answer(i64),
    /// The step was taken, and the run is over with it.
    Ended(i64),
    Posted,
}

impl Outcome {
    pub fn of(kind: u32) -> Outcome {
        Outcome { kind, reason: 0, thread: 0, line: 0, blocked: 0, lines: [0; 64] }
    }
}
