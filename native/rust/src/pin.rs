//! One processor for a runner and the threads of its runs: one thread at a time goes, and a second
//! processor would only cost.

use crate::ffi::{self, Processors};
use std::sync::atomic::{AtomicBool, Ordering::AcqRel, Ordering::Release};

const MOST: usize = 1024;

/// Which processors runners of this process have claimed.
static CLAIMED: [AtomicBool; MOST] = [const { AtomicBool::new(false) }; MOST];

/// The calling thread is on one processor until this is dropped, and so are the threads that it
/// starts.
pub(crate) struct Pin {
    before: Processors,
    claimed: usize,
    /// What keeps other processes from the processor, where no other one has it.
    _mark: Option<Mark>,
}

fn is_in(set: &Processors, processor: usize) -> bool {
    set[processor / 64] >> (processor % 64) & 1 == 1
}

impl Pin {
    /// Claims a processor on which the thread may run and which no other runner has, if possible
    /// none of another process either. None where this process has claimed all, or where the system
    /// isn't Linux.
    pub fn claim() -> Option<Pin> {
        let before = ffi::allowed()?;
        let is_free = |processor: &usize| {
            is_in(&before, *processor) && !CLAIMED[*processor].swap(true, AcqRel)
        };
        let with_mark = |processor: usize| {
            let mark = is_free(&processor).then(|| Mark::of(processor))?;
            if mark.is_none() {
                CLAIMED[processor].store(false, Release);
            }
            mark.map(|mark| (processor, Some(mark)))
        };
        let (claimed, mark) = (0..MOST)
            .find_map(with_mark)
            .or_else(|| (0..MOST).find(is_free).map(|processor| (processor, None)))?;
        let mut one = [0; 16];
        one[claimed / 64] = 1 << (claimed % 64);
        let pin = Pin { before, claimed, _mark: mark };
        ffi::allow(&one).then_some(pin)
    }
}

impl Drop for Pin {
    fn drop(&mut self) {
        CLAIMED[self.claimed].store(false, Release);
        ffi::allow(&self.before);
    }
}

/// An address in the system's memory, which goes with its process.
#[cfg(target_os = "linux")]
struct Mark {
    _listener: std::os::unix::net::UnixListener,
}

#[cfg(target_os = "linux")]
impl Mark {
    /// None where another process has it, or where there are no such addresses.
    fn of(processor: usize) -> Option<Mark> {
        use std::os::linux::net::SocketAddrExt;
        use std::os::unix::net::{SocketAddr, UnixListener};
        let address = SocketAddr::from_abstract_name(format!("pct processor {processor}")).ok()?;
        UnixListener::bind_addr(&address).ok().map(|listener| Mark { _listener: listener })
    }
}

#[cfg(not(target_os = "linux"))]
struct Mark;

#[cfg(not(target_os = "linux"))]
impl Mark {
    fn of(_: usize) -> Option<Mark> {
        None
    }
}
