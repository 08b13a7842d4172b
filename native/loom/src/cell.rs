//! Cells whose accesses are looked at: two that overlap, or that nothing orders, fail the run.

use std::marker::PhantomData;

/// A cell for code that sees to its accesses itself.
#[derive(Debug)]
pub struct UnsafeCell<T: ?Sized>(pct::cell::UnsafeCell<T>);

/// A read of a cell, which ends where this is dropped.
#[derive(Debug)]
pub struct ConstPtr<T: ?Sized> {
    pub(crate) pointer: *const T,
    _access: pct::cell::Access,
}

/// A change of a cell, which ends where this is dropped.
#[derive(Debug)]
pub struct MutPtr<T: ?Sized> {
    pub(crate) pointer: *mut T,
    _access: pct::cell::Access,
}

impl<T> UnsafeCell<T> {
    /// A cell with a value.
    pub const fn new(value: T) -> UnsafeCell<T> {
        UnsafeCell(pct::cell::UnsafeCell::new(value))
    }

    /// The value.
    pub fn into_inner(self) -> T {
        self.0.into_inner()
    }
}

impl<T: ?Sized> UnsafeCell<T> {
    /// Reads the value by a pointer, which the closure must not keep.
    #[track_caller]
    pub fn with<R>(&self, read: impl FnOnce(*const T) -> R) -> R {
        self.0.with(read)
    }

    /// Changes the value by a pointer, which the closure must not keep.
    #[track_caller]
    pub fn with_mut<R>(&self, write: impl FnOnce(*mut T) -> R) -> R {
        self.0.with_mut(write)
    }

    /// Begins to read the value.
    #[track_caller]
    pub fn get(&self) -> ConstPtr<T> {
        ConstPtr { pointer: self.0.as_ptr(), _access: self.0.access(false) }
    }

    /// Begins to change the value.
    #[track_caller]
    pub fn get_mut(&self) -> MutPtr<T> {
        MutPtr { pointer: self.0.as_ptr(), _access: self.0.access(true) }
    }
}

impl<T: ?Sized> ConstPtr<T> {
    /// Reads the value by a pointer, which the closure must not keep.
    pub fn with<F, R>(&self, read: F) -> R
    where
        F: FnOnce(*const T) -> R,
    {
        read(self.pointer)
    }
}

impl<T: ?Sized> MutPtr<T> {
    /// Changes the value by a pointer, which the closure must not keep.
    pub fn with<F, R>(&self, write: F) -> R
    where
        F: FnOnce(*mut T) -> R,
    {
        write(self.pointer)
    }
}

impl<T: Default> Default for UnsafeCell<T> {
    fn default() -> UnsafeCell<T> {
        UnsafeCell::new(T::default())
    }
}

impl<T> From<T> for UnsafeCell<T> {
    fn from(value: T) -> UnsafeCell<T> {
        UnsafeCell::new(value)
    }
}

/// A cell of one thread, whose accesses are looked at as those of an [`UnsafeCell`].
pub struct Cell<T> {
    access: pct::cell::UnsafeCell<()>,
    value: std::cell::Cell<T>,
    _of_one_thread: PhantomData<std::cell::Cell<()>>,
}

impl<T> Cell<T> {
    /// A cell with a value.
    pub const fn new(value: T) -> Cell<T> {
        let access = pct::cell::UnsafeCell::new(());
        Cell { access, value: std::cell::Cell::new(value), _of_one_thread: PhantomData }
    }

    /// The value.
    #[track_caller]
    pub fn get(&self) -> T
    where
        T: Copy,
    {
        let _access = self.access.access(false);
        self.value.get()
    }

    /// Sets the value.
    #[track_caller]
    pub fn set(&self, value: T) {
        self.replace(value);
    }

    /// Sets the value, and gives the old one.
    #[track_caller]
    pub fn replace(&self, value: T) -> T {
        let _access = self.access.access(true);
        self.value.replace(value)
    }

    /// Gives the value, and leaves a plain one.
    #[track_caller]
    pub fn take(&self) -> T
    where
        T: Default,
    {
        self.replace(T::default())
    }

    /// The value.
    pub fn into_inner(self) -> T {
        self.value.into_inner()
    }
}

impl<T: Copy + std::fmt::Debug> std::fmt::Debug for Cell<T> {
    fn fmt(&self, to: &mut std::fmt::Formatter<'_>) -> std::fmt::Result {
        self.value.fmt(to)
    }
}

impl<T: Default> Default for Cell<T> {
    fn default() -> Cell<T> {
        Cell::new(T::default())
    }
}
