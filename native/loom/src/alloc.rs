//! Memory that has to be given back before a run's end.

use crate::run::{locked, Owed};
use std::collections::HashMap;
use std::panic::Location;
use std::sync::Mutex;

pub use crate::raw::{alloc, alloc_zeroed, dealloc};
pub use std::alloc::Layout;

/// A value that has to be dropped before the run's end.
#[derive(Debug)]
pub struct Track<T> {
    value: T,
    _owed: Owed,
}

impl<T> Track<T> {
    /// Of a value.
    #[track_caller]
    pub fn new(value: T) -> Track<T> {
        Track { value, _owed: Owed::new("a Track", Location::caller()) }
    }

    /// The value.
    pub fn get_ref(&self) -> &T {
        &self.value
    }

    /// The value.
    pub fn get_mut(&mut self) -> &mut T {
        &mut self.value
    }

    /// The value, which is dropped as it likes.
    pub fn into_inner(self) -> T {
        self.value
    }
}

impl<T> std::ops::Deref for Track<T> {
    type Target = T;

    fn deref(&self) -> &T {
        &self.value
    }
}

impl<T> std::ops::DerefMut for Track<T> {
    fn deref_mut(&mut self) -> &mut T {
        &mut self.value
    }
}

/// The blocks of memory of all runs, by their addresses.
pub(crate) struct Blocks;

static BLOCKS: Mutex<Option<HashMap<usize, Owed>>> = Mutex::new(None);

impl Blocks {
    /// A block was taken.
    #[track_caller]
    pub fn taken(pointer: *mut u8) -> *mut u8 {
        if !pointer.is_null() {
            let owed = Owed::new("a block of memory", Location::caller());
            locked(&BLOCKS).get_or_insert_default().insert(pointer as usize, owed);
        }
        pointer
    }

    /// It is given back.
    pub fn given_back(pointer: *mut u8) {
        let owed = locked(&BLOCKS).get_or_insert_default().remove(&(pointer as usize));
        drop(owed);
    }
}
