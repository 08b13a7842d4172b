//! The calls of the core's library, as `include/pct.h` declares them, and those of the system that
//! std doesn't have. Each is wrapped in safe Rust: pointers go with the lengths of their slices,
//! and a handle is made, kept and freed by one owner.

#![allow(unsafe_code)]

use crate::raw::*;
use std::ptr;

type Numbers = *const u32;
type Values = *const i64;

#[rustfmt::skip]
extern "C" {
    fn pct_tell_version() -> u32;
    fn pct_draw(seed: u64, threads: u32, steps: u32, depth: u32, order: *mut u32, orders: usize,
        points: *mut u32, count: usize) -> u32;
    fn pct_book_by_points(book: *mut RawHandle, deal: *const RawDeal, v: Values, vs: usize,
        s: Values, ss: usize, b: Values, bs: usize, order: Numbers, orders: usize, points: Numbers,
        count: usize, limit: u32) -> u32;
    fn pct_book_by_moments(book: *mut RawHandle, deal: *const RawDeal, v: Values, vs: usize,
        s: Values, ss: usize, b: Values, bs: usize, order: Numbers, orders: usize,
        moments: *const Moment, count: usize, limit: u32) -> u32;
    fn pct_book_by_list(book: *mut RawHandle, deal: *const RawDeal, v: Values, vs: usize,
        s: Values, ss: usize, b: Values, bs: usize, threads: Numbers, count: usize,
        limit: u32) -> u32;
    fn pct_book_free(book: *mut RawHandle);
    fn pct_book_next(book: *mut RawHandle) -> RawTurn;
    fn pct_book_post(book: *mut RawHandle, thread: u32, line: u32, ask: *const Ask) -> RawTurn;
    fn pct_book_take(book: *mut RawHandle, thread: u32) -> RawTurn;
    fn pct_book_step(book: *mut RawHandle, thread: u32, line: u32, ask: *const Ask) -> RawTurn;
    fn pct_book_length(book: *mut RawHandle) -> RawCount;
    fn pct_book_steps(book: *mut RawHandle, from: u32, steps: *mut Event, count: usize) -> u32;
    fn pct_book_outcome(book: *mut RawHandle, outcome: *mut Outcome) -> u32;
    fn pct_text_trace(names: *const u8, bytes: usize, version: u32, limit: u32, order: Numbers,
        orders: usize, points: Numbers, count: usize, steps: *const Event, step_count: usize,
        verdict: *const Outcome, text: *mut u8, room: usize) -> RawCount;
    fn pct_text_verdict(names: *const u8, bytes: usize, verdict: *const Outcome, text: *mut u8,
        room: usize) -> RawCount;
    fn pct_text_directive(names: *const u8, bytes: usize, directive: *const RawDirective,
        text: *mut u8, room: usize) -> RawCount;
    fn pct_text_read_directive(names: *const u8, bytes: usize, text: *const u8, length: usize,
        directive: *mut RawDirective) -> RawRead;
    fn pct_text_read_trace(trace: *mut RawHandle, names: *const u8, bytes: usize, text: *const u8,
        length: usize) -> RawRead;
    fn pct_text_trace_free(trace: *mut RawHandle);
    fn pct_text_trace_head(trace: *mut RawHandle) -> RawHead;
    fn pct_text_trace_steps(trace: *mut RawHandle, from: u32, steps: *mut Event,
        count: usize) -> u32;
    fn pct_text_trace_verdict(trace: *mut RawHandle, verdict: *mut Outcome) -> u32;
    fn pct_text_report(names: *const u8, bytes: usize, frame: *const Frame, rows: *const RawRow,
        count: usize, text: *mut u8, room: usize) -> RawCount;
    fn pct_text_report_json(names: *const u8, bytes: usize, frame: *const Frame,
        rows: *const RawRow, count: usize, text: *mut u8, room: usize) -> RawCount;
    fn pct_tell_moments(steps: *const Event, count: usize, points: Numbers, points_count: usize,
        moments: *mut Moment, room: usize) -> RawCount;
    fn pct_tell_points(steps: *const Event, count: usize, most: u32, moments: *const Moment,
        many: usize, points: *mut u32, room: usize) -> u32;
    fn pct_tell_order_count(threads: u32) -> RawCount;
    fn pct_tell_order(threads: u32, low: u32, place: u32, order: *mut u32, orders: usize) -> u32;
    fn pct_tell_bound(threads: u32, steps: u32, points: u32) -> RawBound;
    fn pct_tell_races(deal: *const RawDeal, v: Values, vs: usize, s: Values, ss: usize, b: Values,
        bs: usize, steps: *const Event, count: usize, races: *mut RawRace, room: usize) -> RawCount;
    fn pct_tell_lock_order(deal: *const RawDeal, v: Values, vs: usize, s: Values, ss: usize,
        b: Values, bs: usize, steps: *const Event, count: usize, mutexes: *mut u32,
        mutex_room: usize, nestings: *mut RawNesting, nesting_room: usize) -> RawLocks;
    fn pct_tell_groups(rows: *const RawRow, count: usize, groups: *mut RawGroup,
        room: usize) -> RawCount;
}

const DONE: u32 = 0;
const NOT_YET: u32 = 3;
const NO_ROOM: u32 = 8;

/// The version of `pct.h` that these declarations are of.
const VERSION: u32 = 1;

fn done(call: &'static str, status: u32) -> Result<(), Refused> {
    if status == DONE {
        return Ok(());
    }
    Err(Refused { call, status })
}

/// Whether the library that was linked has the version of these declarations.
pub(crate) fn is_of_this_version() -> bool {
    // SAFETY: it takes nothing and keeps nothing.
    unsafe { pct_tell_version() == VERSION }
}

/// The order and the change points that a seed draws.
#[rustfmt::skip]
pub(crate) fn draw(seed: u64, threads: u32, steps: u32, depth: u32)
    -> Result<(Vec<u32>, Vec<u32>), Refused> {
    let mut order = vec![0; threads as usize];
    let mut points = vec![0; (depth as usize).saturating_sub(1)];
    // SAFETY: both lists go with their lengths, and it writes no further.
    let status = unsafe {
        pct_draw(seed, threads, steps, depth, order.as_mut_ptr(), order.len(), points.as_mut_ptr(),
            points.len())
    };
    done("a draw", status).map(|()| (order, points))
}

/// A book of turns.
pub(crate) struct Book(RawHandle);

// SAFETY: the library keeps no thread's own, and says that a handle may be used from any thread,
// one call at a time; `&mut` sees to the latter.
unsafe impl Send for Book {}

impl Drop for Book {
    fn drop(&mut self) {
        // SAFETY: the handle was made by the library, and this is the last use.
        unsafe { pct_book_free(&mut self.0) }
    }
}

impl Book {
    pub fn new(deal: &Deal, plan: &Plan, limit: u32) -> Result<Book, Refused> {
        let mut book = Book(RawHandle { full: false, at: ptr::null_mut() });
        let (raw, v, s, b) = (deal.raw(), &deal.variables, &deal.semaphores, &deal.barriers);
        // SAFETY: each list goes with its length, and the library keeps none of them.
        #[rustfmt::skip]
        let status = unsafe {
            match plan {
                Plan::Points { order, points } => pct_book_by_points(&mut book.0, &raw, v.as_ptr(),
                    v.len(), s.as_ptr(), s.len(), b.as_ptr(), b.len(), order.as_ptr(), order.len(),
                    points.as_ptr(), points.len(), limit),
                Plan::Moments { order, moments } => pct_book_by_moments(&mut book.0, &raw,
                    v.as_ptr(), v.len(), s.as_ptr(), s.len(), b.as_ptr(), b.len(), order.as_ptr(),
                    order.len(), moments.as_ptr(), moments.len(), limit),
                Plan::List(threads) => pct_book_by_list(&mut book.0, &raw, v.as_ptr(), v.len(),
                    s.as_ptr(), s.len(), b.as_ptr(), b.len(), threads.as_ptr(), threads.len(),
                    limit),
            }
        };
        done("a book", status).map(|()| book)
    }

    fn choice(turn: &RawTurn) -> Choice {
        match turn.choice {
            1 => Choice::Turn(turn.thread),
            2 => Choice::Waits(turn.thread),
            _ => Choice::Over,
        }
    }

    pub fn next(&mut self) -> Choice {
        // SAFETY: the handle has a book.
        Book::choice(&unsafe { pct_book_next(&mut self.0) })
    }

    pub fn post(&mut self, thread: u32, line: u32, ask: &Ask) -> Result<Choice, Refused> {
        // SAFETY: the handle has a book, and the ask is a reference.
        let turn = unsafe { pct_book_post(&mut self.0, thread, line, ask) };
        done("a post", turn.status).map(|()| Book::choice(&turn))
    }

    pub fn take(&mut self, thread: u32) -> Result<(Stepped, Choice), Refused> {
        // SAFETY: the handle has a book.
        Book::stepped("a step", unsafe { pct_book_take(&mut self.0, thread) })
    }

    /// Posts, and takes the step where the turn is this thread's then.
    #[rustfmt::skip]
    pub fn step(&mut self, thread: u32, line: u32, ask: &Ask)
        -> Result<(Stepped, Choice), Refused> {
        // SAFETY: the handle has a book, and the ask is a reference.
        Book::stepped("a post with its step", unsafe {
            pct_book_step(&mut self.0, thread, line, ask)
        })
    }

    fn stepped(call: &'static str, turn: RawTurn) -> Result<(Stepped, Choice), Refused> {
        let what = match turn.status {
            DONE => Stepped::Answer(turn.answer),
            1 => Stepped::Ended(turn.answer),
            2 => Stepped::Posted,
            status => return Err(Refused { call, status }),
        };
        Ok((what, Book::choice(&turn)))
    }

    pub fn length(&mut self) -> u32 {
        // SAFETY: the handle has a book.
        unsafe { pct_book_length(&mut self.0) }.count as u32
    }

    pub fn steps(&mut self) -> Result<Vec<Event>, Refused> {
        let mut steps = vec![Event::default(); self.length() as usize];
        // SAFETY: the list goes with its length.
        done("the steps", unsafe {
            pct_book_steps(&mut self.0, 0, steps.as_mut_ptr(), steps.len())
        })
        .map(|()| steps)
    }

    pub fn outcome(&mut self) -> Result<Option<Outcome>, Refused> {
        let mut outcome = Outcome::of(0);
        // SAFETY: the outcome is a reference.
        match unsafe { pct_book_outcome(&mut self.0, &mut outcome) } {
            NOT_YET => Ok(None),
            status => done("the outcome", status).map(|()| Some(outcome)),
        }
    }
}

/// Asks a call for its size, and then for its text.
fn text_of(
    call: &'static str,
    write: impl Fn(*mut u8, usize) -> RawCount,
) -> Result<String, Refused> {
    let needed = write(ptr::null_mut(), 0);
    if needed.status != NO_ROOM {
        return done(call, needed.status).map(|()| String::new());
    }
    let mut text = vec![0; needed.count as usize];
    done(call, write(text.as_mut_ptr(), text.len()).status)?;
    String::from_utf8(text).map_err(|_| Refused { call, status: NO_ROOM })
}

/// The text of a trace. Here and below, `names` is the text of the names that `pct.h` describes.
#[rustfmt::skip]
pub(crate) fn trace_text(names: &str, version: u32, limit: u32, order: &[u32], points: &[u32],
    steps: &[Event], verdict: &Outcome)
    -> Result<String, Refused> {
    // SAFETY: each list goes with its length.
    text_of("the text of a trace", |text, room| unsafe {
        pct_text_trace(names.as_ptr(), names.len(), version, limit, order.as_ptr(), order.len(),
            points.as_ptr(), points.len(),
            steps.as_ptr(), steps.len(), verdict, text, room)
    })
}

pub(crate) fn verdict_text(names: &str, verdict: &Outcome) -> Result<String, Refused> {
    // SAFETY: each list goes with its length.
    text_of("the text of a verdict", |text, room| unsafe {
        pct_text_verdict(names.as_ptr(), names.len(), verdict, text, room)
    })
}

pub(crate) fn directive_text(names: &str, directive: &RawDirective) -> Result<String, Refused> {
    // SAFETY: each list goes with its length.
    text_of("the text of a directive", |text, room| unsafe {
        pct_text_directive(names.as_ptr(), names.len(), directive, text, room)
    })
}

/// Reads a directive. A fault is told by its line.
pub(crate) fn read_directive(names: &str, text: &str) -> Result<RawDirective, String> {
    let mut directive = RawDirective::new(0, &[], &Outcome::of(0));
    // SAFETY: both texts go with their lengths, and the directive is a reference.
    let read = unsafe {
        let (names, many) = (names.as_ptr(), names.len());
        pct_text_read_directive(names, many, text.as_ptr(), text.len(), &mut directive)
    };
    match read.status {
        DONE => Ok(directive),
        _ => Err(fault_of("directive", &read)),
    }
}

fn fault_of(what: &str, read: &RawRead) -> String {
    format!("line {} of the {what} has a fault of the kind {}", read.line, read.fault)
}

/// The report of a campaign, as a text or as JSON.
#[rustfmt::skip]
pub(crate) fn report_text(names: &str, frame: &Frame, rows: &[RawRow], is_json: bool)
    -> Result<String, Refused> {
    let write = if is_json { pct_text_report_json } else { pct_text_report };
    // SAFETY: each list goes with its length.
    text_of("a report", |text, room| unsafe {
        write(names.as_ptr(), names.len(), frame, rows.as_ptr(), rows.len(), text, room)
    })
}

/// A trace that was read.
pub(crate) struct ReadTrace {
    pub steps: Vec<Event>,
    pub verdict: Outcome,
}

struct TraceHandle(RawHandle);

impl Drop for TraceHandle {
    fn drop(&mut self) {
        // SAFETY: the handle is the library's, and this is the last use.
        unsafe { pct_text_trace_free(&mut self.0) }
    }
}

/// Reads a trace. A fault is told by its line.
pub(crate) fn read_trace(names: &str, text: &str) -> Result<ReadTrace, String> {
    let mut handle = TraceHandle(RawHandle { full: false, at: ptr::null_mut() });
    // SAFETY: both texts go with their lengths, and the library keeps neither.
    let read = unsafe {
        pct_text_read_trace(&mut handle.0, names.as_ptr(), names.len(), text.as_ptr(), text.len())
    };
    if read.status != DONE {
        return Err(fault_of("trace", &read));
    }
    parts_of(&mut handle).map_err(|refused| refused.to_string())
}

fn parts_of(handle: &mut TraceHandle) -> Result<ReadTrace, Refused> {
    // SAFETY: the handle has a trace, and each list has just the length that its head says.
    unsafe {
        let head = pct_text_trace_head(&mut handle.0);
        done("the head of a trace", head.status)?;
        let mut read = ReadTrace {
            steps: vec![Event::default(); head.steps as usize],
            verdict: Outcome::of(0),
        };
        let steps = &mut read.steps;
        done("its steps", pct_text_trace_steps(&mut handle.0, 0, steps.as_mut_ptr(), steps.len()))?;
        done("its verdict", pct_text_trace_verdict(&mut handle.0, &mut read.verdict))?;
        Ok(read)
    }
}

/// The moments of a run's change points.
pub(crate) fn moments(steps: &[Event], points: &[u32]) -> Result<Vec<Moment>, Refused> {
    let mut moments = [Moment::default(); 7];
    // SAFETY: each list goes with its length.
    let count = unsafe {
        let (steps, many) = (steps.as_ptr(), steps.len());
        let room = (moments.as_mut_ptr(), moments.len());
        pct_tell_moments(steps, many, points.as_ptr(), points.len(), room.0, room.1)
    };
    done("the moments of a run", count.status).map(|()| moments[..count.count as usize].to_vec())
}

/// The change points that stand for moments in a run's steps. A moment that doesn't occur is
/// `most`.
pub(crate) fn points(steps: &[Event], most: u32, moments: &[Moment]) -> Result<Vec<u32>, Refused> {
    let mut points = vec![0; moments.len()];
    // SAFETY: each list goes with its length.
    let status = unsafe {
        let (moments, many) = (moments.as_ptr(), moments.len());
        let room = (points.as_mut_ptr(), points.len());
        pct_tell_points(steps.as_ptr(), steps.len(), most, moments, many, room.0, room.1)
    };
    done("the points of moments", status).map(|()| points)
}

/// All orders of `threads` threads that place `low` last.
pub(crate) fn orders_with_last(threads: u32, low: u32) -> Result<Vec<Vec<u32>>, Refused> {
    // SAFETY: it takes a number.
    let count = unsafe { pct_tell_order_count(threads) };
    done("the number of orders", count.status)?;
    let order_at = |place| {
        let mut order = vec![0; threads as usize];
        // SAFETY: the list goes with its length.
        let status =
            unsafe { pct_tell_order(threads, low, place, order.as_mut_ptr(), order.len()) };
        done("an order", status).map(|()| order)
    };
    (0..count.count as u32).map(order_at).collect()
}

/// In one of how many choices of an order and points a certified directive's verdict comes.
pub(crate) fn bound(threads: u32, steps: u32, points: u32) -> Result<u128, Refused> {
    // SAFETY: it takes numbers.
    let bound = unsafe { pct_tell_bound(threads, steps, points) };
    done("a bound", bound.status).map(|()| u128::from(bound.high) << 64 | u128::from(bound.low))
}

/// The data races of a run's steps, at most one of a variable.
#[rustfmt::skip]
pub(crate) fn races(deal: &Deal, steps: &[Event]) -> Result<Vec<RawRace>, Refused> {
    let (raw, v, s, b) = (deal.raw(), &deal.variables, &deal.semaphores, &deal.barriers);
    let mut races = [RawRace::default(); 64];
    // SAFETY: each list goes with its length.
    let count = unsafe {
        pct_tell_races(&raw, v.as_ptr(), v.len(), s.as_ptr(), s.len(), b.as_ptr(), b.len(),
            steps.as_ptr(), steps.len(),
            races.as_mut_ptr(), races.len())
    };
    done("the races of a run", count.status).map(|()| races[..count.count as usize].to_vec())
}

/// An order in which a run's steps take the mutexes, or a cycle of nestings.
#[rustfmt::skip]
pub(crate) fn lock_order(deal: &Deal, steps: &[Event])
    -> Result<Result<Vec<u32>, Vec<RawNesting>>, Refused> {
    let (raw, v, s, b) = (deal.raw(), &deal.variables, &deal.semaphores, &deal.barriers);
    let (mut mutexes, mut nestings) = ([0; 64], [RawNesting::default(); 64]);
    // SAFETY: each list goes with its length.
    let locks = unsafe {
        pct_tell_lock_order(&raw, v.as_ptr(), v.len(), s.as_ptr(), s.len(), b.as_ptr(), b.len(),
            steps.as_ptr(), steps.len(),
            mutexes.as_mut_ptr(), mutexes.len(), nestings.as_mut_ptr(), nestings.len())
    };
    done("the lock order of a run", locks.status)?;
    let count = locks.count as usize;
    let is_order = locks.kind == 1;
    Ok(if is_order { Ok(mutexes[..count].to_vec()) } else { Err(nestings[..count].to_vec()) })
}

/// The failures among rows in groups by their verdicts, the most frequent first.
pub(crate) fn groups(rows: &[RawRow]) -> Result<Vec<RawGroup>, Refused> {
    let nothing = RawGroup { verdict: Outcome::of(0), count: 0, steps: 0, first: 0 };
    // SAFETY: the lists go with their lengths, an empty one at first.
    let needed = unsafe { pct_tell_groups(rows.as_ptr(), rows.len(), ptr::null_mut(), 0) };
    if needed.status != NO_ROOM {
        return done("the groups of a campaign", needed.status).map(|()| Vec::new());
    }
    let mut groups = vec![nothing; needed.count as usize];
    // SAFETY: as above.
    let count =
        unsafe { pct_tell_groups(rows.as_ptr(), rows.len(), groups.as_mut_ptr(), groups.len()) };
    done("the groups of a campaign", count.status).map(|()| groups)
}

/// The processors on which a thread may run, on Linux: a bit for each.
pub(crate) type Processors = [u64; 16];

#[cfg(target_os = "linux")]
mod system {
    use super::Processors;
    use std::ffi::{c_int, c_void};

    #[repr(C)]
    pub struct Image {
        address: usize,
        name: *const u8,
        headers: *const Header,
        count: u16,
    }

    /// A program header as 64-bit Linux has it.
    #[repr(C)]
    struct Header {
        kind: u32,
        flags: u32,
        offset: u64,
        address: u64,
        physical: u64,
        file_size: u64,
        memory_size: u64,
        align: u64,
    }

    extern "C" {
        fn sched_getaffinity(thread: c_int, size: usize, to: *mut u64) -> c_int;
        fn sched_setaffinity(thread: c_int, size: usize, to: *const u64) -> c_int;
        #[cfg(target_pointer_width = "64")]
        fn dl_iterate_phdr(
            each: extern "C" fn(*const Image, usize, *mut c_void) -> c_int,
            to: *mut c_void,
        ) -> c_int;
    }

    pub fn allowed() -> Option<Processors> {
        let mut set = [0; 16];
        // SAFETY: the set goes with its size.
        (unsafe { sched_getaffinity(0, size_of_val(&set), set.as_mut_ptr()) } >= 0).then_some(set)
    }

    pub fn allow(set: &Processors) -> bool {
        // SAFETY: the set goes with its size.
        unsafe { sched_setaffinity(0, size_of_val(set), set.as_ptr()) == 0 }
    }

    #[cfg(target_pointer_width = "64")]
    extern "C" fn add(image: *const Image, _: usize, to: *mut c_void) -> c_int {
        const LOADED: u32 = 1;
        // SAFETY: the system calls it with an image whose headers are as many as it says, and with
        // our own list.
        let (image, ranges) = unsafe { (&*image, &mut *to.cast::<Vec<(usize, usize)>>()) };
        let headers =
            unsafe { std::slice::from_raw_parts(image.headers, usize::from(image.count)) };
        ranges.extend(headers.iter().filter(|header| header.kind == LOADED).map(|header| {
            let start = image.address + header.address as usize;
            (start, start + header.memory_size as usize)
        }));
        0
    }

    #[cfg(target_pointer_width = "64")]
    pub fn images() -> Vec<(usize, usize)> {
        let mut ranges: Vec<(usize, usize)> = Vec::new();
        // SAFETY: `add` takes the list for what it is, and no call comes after this one's return.
        unsafe { dl_iterate_phdr(add, (&raw mut ranges).cast()) };
        ranges
    }

    #[cfg(not(target_pointer_width = "64"))]
    pub fn images() -> Vec<(usize, usize)> {
        Vec::new()
    }
}

#[cfg(not(target_os = "linux"))]
pub(crate) use crate::elsewhere::{allow, allowed, images};
#[cfg(target_os = "linux")]
pub(crate) use system::{allow, allowed, images};
