//! Accesses of cells that overlap, or that nothing orders, where they fail the run.

use crate::clocks::{Clocks, Tag, Use};
use crate::live::Live;
use crate::place::Place;
use crate::state::{Panicked, State};
use std::sync::atomic::Ordering;

/// An access: by whom, when by its clock, and where.
#[derive(Clone, Copy, Debug)]
struct At {
    thread: u32,
    at: u32,
    place: Place,
    is_write: bool,
}

/// What is known of a cell: its last write, what each thread read since then, and the accesses that
/// haven't ended.
#[derive(Clone, Debug, Default)]
struct Known {
    written: Option<At>,
    read: Vec<At>,
    open: Vec<At>,
}

/// The clocks of a run with its cells, by their numbers.
#[derive(Debug, Default)]
pub(crate) struct Checked {
    pub clocks: Clocks,
    cells: Vec<Known>,
}

/// Why an access fails the run.
#[derive(Clone, Copy, Debug, PartialEq, Eq)]
enum Why {
    Overlaps,
    IsUnordered,
}

impl Checked {
    fn cell(&mut self, number: u32) -> &mut Known {
        let index = number as usize;
        if self.cells.len() <= index {
            self.cells.resize_with(index + 1, Known::default);
        }
        &mut self.cells[index]
    }

    /// An access begins. The other one, where the two are a race.
    fn begin(&mut self, number: u32, me: u32, place: Place, is_write: bool) -> Option<(Why, At)> {
        let own = At { thread: me, at: self.clocks.now(me), place, is_write };
        let known = self.cell(number).clone();
        let clashes = |other: &&At| is_write || other.is_write;
        let overlaps = known.open.iter().find(clashes).map(|other| (Why::Overlaps, *other));
        let earlier = known.written.iter().chain(known.read.iter().filter(|_| is_write));
        let unordered = || {
            earlier
                .copied()
                .find(|other| !self.clocks.knows(me, other.thread, other.at))
                .map(|other| (Why::IsUnordered, other))
        };
        let race = overlaps.or_else(unordered);
        let cell = self.cell(number);
        cell.open.push(own);
        if is_write {
            cell.written = Some(own);
            cell.read.clear();
        } else {
            cell.read.retain(|other| other.thread != me);
            cell.read.push(own);
        }
        race
    }

    /// An access ends.
    fn end(&mut self, number: u32, me: u32, is_write: bool) {
        let open = &mut self.cell(number).open;
        let own = |at: &At| at.thread == me && at.is_write == is_write;
        // A guard may have gone to another thread meanwhile.
        let index = open.iter().rposition(own).or(open.len().checked_sub(1));
        if let Some(index) = index {
            open.swap_remove(index);
        }
    }
}

fn told(state: &State, why: Why, is_write: bool, other: At) -> String {
    let name = state.threads.get(other.thread).and_then(|thread| thread.name.clone());
    let name = name.unwrap_or_else(|| format!("t{}", other.thread));
    let changes = if is_write { "changes" } else { "reads" };
    let other_does = if other.is_write { "changes" } else { "reads" };
    let other_did = if other.is_write { "changed" } else { "read" };
    match why {
        Why::Overlaps => format!(
            "a data race: it {changes} the cell while {name}, from {} on, {other_does} it",
            other.place
        ),
        Why::IsUnordered => format!(
            "a data race: it {changes} the cell that {name} {other_did} at {}, and nothing orders \
             the two",
            other.place
        ),
    }
}

impl Live {
    /// Whether accesses are looked at in each run.
    pub fn checks_accesses(&self) -> bool {
        self.settings.config.races
    }

    /// An access of a cell begins, which ends later: the run fails where it is a race.
    pub fn begin_access(&self, me: u32, cell: u32, place: Place, is_write: bool) {
        let Ok(mut state) = self.state() else { return };
        let Some(checked) = state.checked.as_mut() else { return };
        let Some((why, other)) = checked.begin(cell, me, place, is_write) else { return };
        let message = told(&state, why, is_write, other);
        drop(state);
        self.fail_by(me, Panicked { place, message, is_panic: false })
    }

    /// An access of a cell ends.
    pub fn end_access(&self, me: u32, cell: u32, is_write: bool) {
        self.checking(|checked| checked.end(cell, me, is_write));
    }

    fn checking<R>(&self, act: impl FnOnce(&mut Checked) -> R) -> Option<R> {
        if !self.checks_accesses() || self.is_over() {
            return None;
        }
        self.state().ok()?.checked.as_mut().map(act)
    }

    /// An atomic was used, by a step or as no atomic. The run fails where another use of it should
    /// be ordered with this one and isn't.
    pub fn used(&self, me: u32, tag: &Tag, place: Place, usage: Use) {
        let ordered = self.checking(|checked| checked.clocks.atomic(me, tag.number(), usage));
        if ordered == Some(false) {
            let message = "a data race: it takes an atomic's value as that of plain memory, or \
                           another thread did, and nothing orders the two";
            self.fail_by(me, Panicked { place, message: message.into(), is_panic: false });
        }
    }

    pub fn fence(&self, me: u32, order: Ordering) {
        self.checking(|checked| checked.clocks.fence(me, order));
    }

    /// What this thread did is known from now on to who takes it at this point.
    pub fn give(&self, me: u32, point: &Tag) {
        self.checking(|checked| checked.clocks.give(me, point.number()));
    }

    pub fn take(&self, me: u32, point: &Tag) {
        self.checking(|checked| checked.clocks.take(me, point.number()));
    }

    /// The thread knows what another one did which has ended.
    pub fn knows_ended(&self, me: u32, ended: u32) {
        self.checking(|checked| checked.clocks.join(me, ended));
    }
}

#[cfg(test)]
mod tests {
    use super::*;
    use crate::ask::kind;
    use crate::raw::Ask;

    const PLACE: Place = Place { file: "it.rs", line: 1 };

    #[test]
    fn accesses_that_overlap_are_races() {
        let mut checked = Checked::default();
        assert!(checked.begin(0, 0, PLACE, false).is_none());
        assert!(checked.begin(0, 0, PLACE, false).is_none());
        let race = checked.begin(0, 0, PLACE, true).map(|(why, _)| why);
        assert_eq!(race, Some(Why::Overlaps));
        assert!(checked.begin(1, 0, PLACE, true).is_none());
    }

    #[test]
    fn accesses_that_a_mutex_orders_are_none() {
        let mut checked = Checked::default();
        for thread in [0, 1] {
            checked.clocks.took(thread, &Ask::of(kind::LOCK, 0), 0);
            assert!(checked.begin(0, thread, PLACE, true).is_none());
            checked.end(0, thread, true);
            checked.clocks.took(thread, &Ask::of(kind::UNLOCK, 0), 0);
        }
        assert_eq!(checked.begin(0, 2, PLACE, false).map(|(why, _)| why), Some(Why::IsUnordered));
    }

    #[test]
    fn readers_are_no_races() {
        let mut checked = Checked::default();
        for thread in [0, 1] {
            assert!(checked.begin(0, thread, PLACE, false).is_none());
            checked.end(0, thread, false);
        }
        assert_eq!(checked.begin(0, 1, PLACE, true).map(|(why, _)| why), Some(Why::IsUnordered));
    }
}
