//! Atomic types, as `std::sync::atomic` has them. Each operation is one step. Orderings are taken,
//! and all mean `SeqCst`.

mod boolean;
mod integers;
mod pointer;

pub use boolean::AtomicBool;
pub use integers::{
    AtomicI16, AtomicI32, AtomicI64, AtomicI8, AtomicIsize, AtomicU16, AtomicU32, AtomicU64,
    AtomicU8, AtomicUsize,
};
pub use pointer::AtomicPtr;
pub use std::sync::atomic::Ordering;

use crate::ask::{kind, Change, Late};
use crate::clocks::Use;
use crate::live::{Answer, Live};
use crate::objects::{Id, Word};
use crate::place::Place;
use crate::raw::Ask;
use crate::seat;
use std::panic::Location;

/// A fence. In a run all values are as with `SeqCst` without it, so it is no step.
pub fn fence(order: Ordering) {
    seat::current(|live, me| live.fence(me, order));
    std::sync::atomic::fence(order);
}

/// A fence for the compiler. In a run it is no step.
pub fn compiler_fence(order: Ordering) {
    std::sync::atomic::compiler_fence(order);
}

/// Waits until another thread has changed something, as `hint::spin_loop` does.
#[deprecated(since = "0.1.0", note = "use hint::spin_loop instead, as in std")]
#[track_caller]
pub fn spin_loop_hint() {
    crate::thread::spin();
}

/// Where the value of an atomic is: in the object, as i64.
pub(crate) trait Cell {
    /// Whether it has a variable of the book.
    const IS_NUMBERED: bool = true;

    fn id(&self) -> &Id;
    fn get(&self) -> i64;
    fn set(&self, value: i64);
}

/// The orderings of an operation: where it is done, and where an exchange fails.
#[derive(Clone, Copy)]
pub(crate) struct Orders {
    done: Ordering,
    failed: Ordering,
}

impl From<Ordering> for Orders {
    fn from(order: Ordering) -> Orders {
        Orders { done: order, failed: order }
    }
}

impl From<(Ordering, Ordering)> for Orders {
    fn from((done, failed): (Ordering, Ordering)) -> Orders {
        Orders { done, failed }
    }
}

/// An operation on an atomic.
#[derive(Clone, Copy)]
pub(crate) enum Operation {
    Load,
    Store(i64),
    /// From the old value, where it is another one at all.
    Exchange {
        old: i64,
        new: i64,
    },
    Change {
        change: Change,
        by: i64,
        sum: Option<i64>,
    },
}

impl Operation {
    fn late(&self, variable: u32) -> Late {
        match *self {
            Operation::Load => Late::Ask(Ask::of(kind::READ, variable)),
            Operation::Store(value) => Late::Ask(Ask::with_value(kind::WRITE, variable, value)),
            Operation::Exchange { old, new } => Late::Ask(Ask::exchange(variable, old, new)),
            Operation::Change { change, by, sum } => Late::Change { variable, change, by, sum },
        }
    }

    /// What stands after it, where it does something.
    fn after(&self, value: i64) -> Option<i64> {
        match *self {
            Operation::Load => None,
            Operation::Store(new) => Some(new),
            Operation::Exchange { old, new } => (old == value).then_some(new),
            Operation::Change { change, by, .. } => Some(change(value, by)),
        }
    }

    /// How the atomic was used by it, where this value stood before.
    fn usage(&self, value: i64, orders: Orders) -> Use {
        match *self {
            Operation::Load => Use::Load(orders.done),
            Operation::Store(_) => Use::Store(orders.done),
            Operation::Exchange { old, .. } if old != value => Use::Load(orders.failed),
            Operation::Exchange { .. } | Operation::Change { .. } => Use::Change(orders.done),
        }
    }

    /// Whether the step was the one that the value wants. None where the book says otherwise than
    /// the object.
    fn agrees(&self, value: i64, answer: Answer) -> Option<bool> {
        match (self, answer.kind) {
            (_, kind::YIELD | kind::WRITE) => Some(true),
            (_, kind::READ | kind::ADD) => (answer.value == value).then_some(true),
            (Operation::Exchange { old, .. }, _) => {
                ((answer.value == 1) == (*old == value)).then_some(true)
            }
            (_, _) => Some(answer.value == 1),
        }
    }
}

/// Makes an operation in a run and gives the value before it; none outside of one.
#[track_caller]
pub(crate) fn operate<C: Cell>(
    cell: &C,
    operation: Operation,
    orders: impl Into<Orders>,
) -> Option<i64> {
    operate_at(cell, operation, orders.into(), Place::of(Location::caller()))
}

/// As [`operate`], of that place.
pub(crate) fn operate_at<C: Cell>(
    cell: &C,
    operation: Operation,
    orders: Orders,
    place: Place,
) -> Option<i64> {
    seat::current(|live, me| {
        let is_static = matches!(cell.id().word(), Word::Static)
            || matches!(cell.id().word(), Word::Unused) && crate::image::has(cell.id().address());
        if is_static {
            let value = operate_static(live, me, cell, operation, place);
            live.used(me, &cell.id().tag, place, operation.usage(value, orders));
            return value;
        }
        let first = C::IS_NUMBERED.then(|| cell.get());
        let number = live.number(cell.id(), first, place);
        loop {
            let answer = ask(live, me, number, operation, place);
            let value = cell.get();
            if agree(live, me, operation, value, answer, place) {
                operation.after(value).into_iter().for_each(|new| cell.set(new));
                live.used(me, &cell.id().tag, place, operation.usage(value, orders));
                return value;
            }
        }
    })
}

/// Whether the step is what the object's value wants. Not where another thread changed it between
/// the post and the step, which is to be made again.
fn agree(
    live: &Live,
    me: u32,
    operation: Operation,
    value: i64,
    answer: Answer,
    place: Place,
) -> bool {
    if answer.kind == kind::YIELD && operation.after(value).is_some() {
        live.changed(me);
    }
    operation.agrees(value, answer).unwrap_or_else(|| {
        live.fail(format!("{place}: the book departs from an atomic's value, {value}: {answer:?}"))
    })
}

fn ask(live: &Live, me: u32, number: Option<u32>, operation: Operation, place: Place) -> Answer {
    let late = number.map_or(Late::Ask(Ask::yields()), |variable| operation.late(variable));
    live.ask(me, place, late)
}

/// The value of a static is kept in the run.
fn operate_static<C: Cell>(
    live: &Live,
    me: u32,
    cell: &C,
    operation: Operation,
    place: Place,
) -> i64 {
    cell.id().mark_static();
    let first = cell.get();
    let number = live.static_value(cell.id(), first, C::IS_NUMBERED, place).number;
    loop {
        let answer = ask(live, me, number, operation, place);
        let value = live.static_value(cell.id(), first, C::IS_NUMBERED, place).value;
        if agree(live, me, operation, value, answer, place) {
            operation.after(value).into_iter().for_each(|new| live.set_static(cell.id(), new));
            return value;
        }
    }
}

/// The value, taken as that of plain memory, which it may change to: no step.
#[track_caller]
pub(crate) fn plain<C: Cell>(cell: &C, usage: Use) -> i64 {
    let place = Place::of(Location::caller());
    let found = seat::current(|live, me| {
        live.used(me, &cell.id().tag, place, usage);
        match cell.id().word() {
            Word::Static => live.static_value(cell.id(), cell.get(), C::IS_NUMBERED, place).value,
            _ => cell.get(),
        }
    });
    found.unwrap_or_else(|| cell.get())
}

/// By what a run knows an atomic, and its first value.
pub(crate) fn identity<C: Cell>(cell: &C) -> (&Id, Option<i64>) {
    (cell.id(), C::IS_NUMBERED.then(|| cell.get()))
}
