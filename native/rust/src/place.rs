//! Places in sources, and the numbers by which the book has them.

use std::collections::HashMap;
use std::panic::Location;

/// The greatest line that a trace may have.
pub(crate) const MOST_LINE: u32 = 4096;

/// A line of a source.
#[derive(Clone, Copy, Debug, PartialEq, Eq, Hash, PartialOrd, Ord)]
pub struct Place {
    /// The file, as the compiler names it.
    pub file: &'static str,
    /// The line, from 1.
    pub line: u32,
}

impl Place {
    pub(crate) fn of(location: &'static Location<'static>) -> Place {
        Place { file: location.file(), line: location.line() }
    }
}

impl std::fmt::Display for Place {
    fn fmt(&self, to: &mut std::fmt::Formatter<'_>) -> std::fmt::Result {
        write!(to, "{}:{}", self.file, self.line)
    }
}

/// The places of one run. A line of the test's own file is its own number; each other place has one
/// above the greatest line, by when the run first came to it.
#[derive(Clone, Debug)]
pub(crate) struct Places {
    pub file: &'static str,
    others: Vec<Place>,
    numbers: HashMap<Place, u32>,
}

impl Places {
    pub fn new(file: &'static str) -> Places {
        Places { file, others: Vec::new(), numbers: HashMap::new() }
    }

    pub fn number(&mut self, place: Place) -> u32 {
        if place.line <= MOST_LINE && self.is_own(place.file) {
            return place.line;
        }
        *self.numbers.entry(place).or_insert_with(|| {
            self.others.push(place);
            MOST_LINE + self.others.len() as u32
        })
    }

    /// The same text may stand at two addresses.
    fn is_own(&self, file: &'static str) -> bool {
        std::ptr::eq(file, self.file) || file == self.file
    }

    pub fn place(&self, number: u32) -> Place {
        let other =
            number.checked_sub(MOST_LINE + 1).and_then(|index| self.others.get(index as usize));
        other.copied().unwrap_or(Place { file: self.file, line: number })
    }
}

/// The places of a check outside of the test's own file: numbers from the greatest line downward,
/// by when its runs, taken in the order of their seeds, first came to them.
#[derive(Clone, Debug, Default)]
pub(crate) struct Sites {
    given: Vec<Place>,
    numbers: HashMap<Place, u32>,
}

impl Sites {
    /// Beginning with those that a file lists.
    pub fn with(places: Vec<Place>) -> Sites {
        let mut sites = Sites::default();
        for place in places {
            sites.number(place);
        }
        sites
    }

    fn number(&mut self, place: Place) -> u32 {
        if let Some(number) = self.numbers.get(&place) {
            return *number;
        }
        let number = MOST_LINE.saturating_sub(self.given.len() as u32).max(1);
        self.given.push(place);
        self.numbers.insert(place, number);
        number
    }

    /// The line by which a text has a number of a run.
    pub fn line(&mut self, places: &Places, number: u32) -> u32 {
        if number <= MOST_LINE {
            return number;
        }
        self.number(places.place(number))
    }

    /// The place of a line of a text.
    pub fn place(&self, file: &'static str, line: u32) -> Place {
        let listed = MOST_LINE.checked_sub(line).and_then(|index| self.given.get(index as usize));
        listed.copied().unwrap_or(Place { file, line })
    }

    /// Each with its number.
    pub fn all(&self) -> impl Iterator<Item = (u32, Place)> + '_ {
        self.given.iter().enumerate().map(|(index, place)| (MOST_LINE - index as u32, *place))
    }
}

impl Sites {
    /// Takes in the places of the next run.
    pub fn absorb(&mut self, places: &Places) {
        for place in &places.others {
            self.number(*place);
        }
    }
}
