//! What a thread asks, and asks that are made into posts only when the book waits for their thread.

use crate::raw::Ask;

/// The kinds of asks, as `pct.h` numbers them.
#[rustfmt::skip]
pub(crate) mod kind {
    pub const NONE: u32 = 0;
    pub const READ: u32 = 1;
    pub const WRITE: u32 = 2;
    pub const ADD: u32 = 3;
    pub const CAS: u32 = 4;
    pub const LOCK: u32 = 5;
    pub const TRY_LOCK: u32 = 6;
    pub const UNLOCK: u32 = 7;
    pub const RELEASE: u32 = 8;
    pub const REGAIN: u32 = 9;
    pub const SIGNAL: u32 = 10;
    pub const BROADCAST: u32 = 11;
    pub const DOWN: u32 = 12;
    pub const TRY_DOWN: u32 = 13;
    pub const UP: u32 = 14;
    pub const ARRIVE: u32 = 15;
    pub const LEAVE: u32 = 16;
    pub const JOIN: u32 = 17;
    pub const YIELD: u32 = 18;
    pub const CHECK_HOLDS: u32 = 19;
    pub const CHECK_FAILS: u32 = 20;
    pub const START: u32 = 24;
    pub const BEGIN: u32 = 25;
    pub const RD_LOCK: u32 = 26;
    pub const WR_LOCK: u32 = 27;
    pub const TRY_RD_LOCK: u32 = 28;
    pub const TRY_WR_LOCK: u32 = 29;
    pub const RW_UNLOCK: u32 = 30;
}

impl Ask {
    /// An ask of an object, or of a thread.
    pub fn of(kind: u32, a: u32) -> Ask {
        Ask { kind, a, ..Ask::default() }
    }

    pub fn with_value(kind: u32, a: u32, x: i64) -> Ask {
        Ask { kind, a, x, ..Ask::default() }
    }

    pub fn exchange(variable: u32, old: i64, new: i64) -> Ask {
        Ask { kind: kind::CAS, a: variable, x: old, y: new, ..Ask::default() }
    }

    /// An ask of a condition with the mutex of the wait.
    pub fn of_wait(kind: u32, condition: u32, mutex: u32) -> Ask {
        Ask { kind, a: condition, b: mutex, ..Ask::default() }
    }

    pub fn yields() -> Ask {
        Ask::of(kind::YIELD, 0)
    }

    /// Whether its step changes something that a thread which waits by looking again and again may
    /// see.
    pub fn changes(&self, answer: i64) -> bool {
        match self.kind {
            kind::READ | kind::YIELD | kind::CHECK_HOLDS | kind::BEGIN | kind::JOIN => false,
            kind::CAS | kind::TRY_LOCK | kind::TRY_DOWN | kind::TRY_RD_LOCK | kind::TRY_WR_LOCK => {
                answer == 1
            }
            kind::SIGNAL | kind::BROADCAST => answer > 0,
            _ => true,
        }
    }
}

/// How a value becomes another one, with an operand, in the width of its type. All are kept as i64.
pub(crate) type Change = fn(i64, i64) -> i64;

/// An ask that its thread has brought and that isn't posted yet.
#[derive(Clone, Copy)]
pub(crate) enum Late {
    Ask(Ask),
    /// A change of a variable. `sum` is what is added, where it is an addition.
    Change {
        variable: u32,
        change: Change,
        by: i64,
        sum: Option<i64>,
    },
}

impl Late {
    /// The ask, with the values that stand now.
    pub fn ask(&self, values: &[i64]) -> Ask {
        match *self {
            Late::Ask(ask) => ask,
            Late::Change { variable, change, by, sum } => {
                let old = values[variable as usize];
                let new = change(old, by);
                match sum {
                    Some(sum) if old.checked_add(sum) == Some(new) => {
                        Ask::with_value(kind::ADD, variable, sum)
                    }
                    _ => Ask::exchange(variable, old, new),
                }
            }
        }
    }
}
