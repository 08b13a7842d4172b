//! Shared ownership, with what the run has to know of it: whether it leaks, and what it orders.

use crate::run::{locked, Owed};
use pct::layer::Point;
use std::collections::HashMap;
use std::fmt;
use std::panic::Location;
use std::sync::atomic::{AtomicUsize, Ordering::Relaxed};
use std::sync::{Arc as StdArc, Mutex};

/// std's `Arc`, whose handles all have to be dropped before the run's end. That a handle is dropped
/// comes before what the last one does. No call is a step.
pub struct Arc<T: ?Sized> {
    /// First, so that it is dropped before the value.
    handle: Handle,
    value: StdArc<T>,
}

/// What the handles of a value share.
#[derive(Debug)]
struct Shared {
    handles: AtomicUsize,
    address: usize,
    order: Point,
    owed: Mutex<Option<Owed>>,
}

/// A handle. It is counted until it is dropped; one that stands for a pointer has none.
#[derive(Debug)]
struct Handle(Option<StdArc<Shared>>);

/// What the handles of each value share, by its address: a pointer finds it there.
static ALL: Mutex<Option<HashMap<usize, StdArc<Shared>>>> = Mutex::new(None);

fn at(address: usize) -> Option<StdArc<Shared>> {
    locked(&ALL).get_or_insert_default().get(&address).cloned()
}

/// A pointer counts one handle more.
pub(crate) fn count_raw(address: usize) {
    if let Some(shared) = at(address) {
        shared.handles.fetch_add(1, Relaxed);
    }
}

impl Shared {
    fn new(address: usize, place: &'static Location<'static>) -> StdArc<Shared> {
        let shared = StdArc::new(Shared {
            handles: AtomicUsize::new(1),
            address,
            order: Point::new(),
            owed: Mutex::new(Some(Owed::new("an Arc", place))),
        });
        locked(&ALL).get_or_insert_default().insert(address, shared.clone());
        shared
    }

    /// A handle is gone. Who has the last one knows what the others did.
    fn drop_one(&self) {
        self.order.give();
        pct::layer::changed();
        if self.handles.fetch_sub(1, Relaxed) == 1 {
            self.order.take();
            locked(&ALL).get_or_insert_default().remove(&self.address);
            drop(locked(&self.owed).take());
        }
    }
}

impl Drop for Handle {
    fn drop(&mut self) {
        self.0.take().into_iter().for_each(|shared| shared.drop_one());
    }
}

impl Handle {
    fn is_last(&self) -> bool {
        let shared = self.0.as_ref().filter(|shared| shared.handles.load(Relaxed) == 1);
        shared.inspect(|shared| shared.order.take()).is_some()
    }

    fn another(&self) -> Handle {
        Handle(self.0.clone().inspect(|shared| {
            shared.handles.fetch_add(1, Relaxed);
        }))
    }
}

impl<T> Arc<T> {
    /// The first handle of a value.
    #[track_caller]
    pub fn new(value: T) -> Arc<T> {
        Arc::of(StdArc::new(value), Location::caller())
    }

    /// The first handle of a pinned value.
    #[track_caller]
    pub fn pin(value: T) -> std::pin::Pin<Arc<T>>
    where
        T: Unpin,
    {
        std::pin::Pin::new(Arc::new(value))
    }

    /// The value, where this is its only handle.
    ///
    /// # Errors
    ///
    /// With the handle, where there is another one.
    pub fn try_unwrap(this: Arc<T>) -> Result<T, Arc<T>> {
        if !this.handle.is_last() {
            return Err(this);
        }
        let Arc { handle, value } = this;
        StdArc::try_unwrap(value).map_err(|value| Arc { handle, value })
    }
}

impl<T: ?Sized> Arc<T> {
    fn of(value: StdArc<T>, place: &'static Location<'static>) -> Arc<T> {
        let address = StdArc::as_ptr(&value).cast::<()>() as usize;
        Arc { handle: Handle(Some(Shared::new(address, place))), value }
    }

    /// The first handle of a value that std's has: so a handle of a trait object is made.
    ///
    /// # Panics
    ///
    /// Where there is another handle.
    #[track_caller]
    pub fn from_std(mut value: StdArc<T>) -> Arc<T> {
        assert!(StdArc::get_mut(&mut value).is_some(), "from_std takes the only handle of a value");
        Arc::of(value, Location::caller())
    }

    /// Of a counted handle.
    #[track_caller]
    pub(crate) fn of_kept(value: StdArc<T>) -> Arc<T> {
        match at(StdArc::as_ptr(&value).cast::<()>() as usize) {
            Some(shared) => Arc { handle: Handle(Some(shared)), value },
            None => Arc::of(value, Location::caller()),
        }
    }

    /// How many handles there are.
    pub fn strong_count(this: &Arc<T>) -> usize {
        this.handle.0.as_ref().map_or(0, |shared| shared.handles.load(Relaxed))
    }

    /// The value, where this is its only handle.
    pub fn get_mut(this: &mut Arc<T>) -> Option<&mut T> {
        this.handle.is_last().then(|| StdArc::get_mut(&mut this.value)).flatten()
    }

    /// Whether both are handles of one value.
    pub fn ptr_eq(this: &Arc<T>, other: &Arc<T>) -> bool {
        StdArc::ptr_eq(&this.value, &other.value)
    }

    /// Where the value is.
    pub fn as_ptr(this: &Arc<T>) -> *const T {
        StdArc::as_ptr(&this.value)
    }

    /// A pointer that stands for the handle.
    pub fn into_raw(mut this: Arc<T>) -> *const T {
        this.handle.0.take();
        StdArc::into_raw(this.value)
    }
}

impl<T: ?Sized> Clone for Arc<T> {
    fn clone(&self) -> Arc<T> {
        Arc { handle: self.handle.another(), value: self.value.clone() }
    }
}

impl<T: ?Sized> std::ops::Deref for Arc<T> {
    type Target = T;

    fn deref(&self) -> &T {
        &self.value
    }
}

impl<T: ?Sized> AsRef<T> for Arc<T> {
    fn as_ref(&self) -> &T {
        self
    }
}

impl<T: ?Sized> std::borrow::Borrow<T> for Arc<T> {
    fn borrow(&self) -> &T {
        self
    }
}

impl<T: Default> Default for Arc<T> {
    #[track_caller]
    fn default() -> Arc<T> {
        Arc::new(T::default())
    }
}

impl<T> From<T> for Arc<T> {
    #[track_caller]
    fn from(value: T) -> Arc<T> {
        Arc::new(value)
    }
}

impl<T: ?Sized + fmt::Debug> fmt::Debug for Arc<T> {
    fn fmt(&self, to: &mut fmt::Formatter<'_>) -> fmt::Result {
        (**self).fmt(to)
    }
}

impl<T: ?Sized + fmt::Display> fmt::Display for Arc<T> {
    fn fmt(&self, to: &mut fmt::Formatter<'_>) -> fmt::Result {
        (**self).fmt(to)
    }
}

impl<T: ?Sized> fmt::Pointer for Arc<T> {
    fn fmt(&self, to: &mut fmt::Formatter<'_>) -> fmt::Result {
        fmt::Pointer::fmt(&Arc::as_ptr(self), to)
    }
}

impl<T: ?Sized + PartialEq> PartialEq for Arc<T> {
    fn eq(&self, other: &Arc<T>) -> bool {
        **self == **other
    }
}

impl<T: ?Sized + Eq> Eq for Arc<T> {}

impl<T: ?Sized + PartialOrd> PartialOrd for Arc<T> {
    fn partial_cmp(&self, other: &Arc<T>) -> Option<std::cmp::Ordering> {
        (**self).partial_cmp(other)
    }
}

impl<T: ?Sized + Ord> Ord for Arc<T> {
    fn cmp(&self, other: &Arc<T>) -> std::cmp::Ordering {
        (**self).cmp(other)
    }
}

impl<T: ?Sized + std::hash::Hash> std::hash::Hash for Arc<T> {
    fn hash<H: std::hash::Hasher>(&self, state: &mut H) {
        (**self).hash(state);
    }
}
