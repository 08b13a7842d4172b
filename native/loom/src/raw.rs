//! All unsafe code of this package, and functions that are unsafe in Loom.
#![allow(unsafe_code)]

use crate::alloc::Blocks;
use crate::atomic::{
    AtomicBool, AtomicI16, AtomicI32, AtomicI64, AtomicI8, AtomicIsize, AtomicPtr, AtomicU16,
    AtomicU32, AtomicU64, AtomicU8, AtomicUsize,
};
use crate::cell::{ConstPtr, MutPtr, UnsafeCell};
use crate::sync::arc::{self, Arc};
use std::alloc::Layout;

/// The value of a lazy static, which its run has.
pub(crate) fn of_run<T>(value: std::sync::Arc<T>) -> &'static T {
    // SAFETY: what the run keeps is dropped when all its threads have ended, and what the process
    // keeps never is: nobody is left who could have the reference but what the test leaked.
    unsafe { &*std::sync::Arc::as_ptr(&value) }
}

// SAFETY: one thread goes at a time, each access is looked at, and who dereferences a pointer of it
// does so by unsafe code. It is Loom's promise, too.
unsafe impl<T: ?Sized> Sync for UnsafeCell<T> {}

impl<T: ?Sized> ConstPtr<T> {
    /// The value.
    ///
    /// # Safety
    ///
    /// Nobody changes it meanwhile.
    pub unsafe fn deref(&self) -> &T {
        // SAFETY: the caller's promise; the pointer is that of a cell that lives.
        unsafe { &*self.pointer }
    }
}

impl<T: ?Sized> MutPtr<T> {
    /// The value.
    ///
    /// # Safety
    ///
    /// Nobody else has it meanwhile.
    #[allow(clippy::mut_from_ref)] // as Loom has it
    pub unsafe fn deref(&self) -> &mut T {
        // SAFETY: the caller's promise; the pointer is that of a cell that lives.
        unsafe { &mut *self.pointer }
    }
}

macro_rules! unsync {
    ($($name:ident $value:ty),*) => { $(
        impl $name {
            /// The value, read as that of plain memory: no step. The run fails where nothing orders
            /// it with a change.
            ///
            /// # Safety
            ///
            /// Nobody changes it meanwhile.
            #[track_caller]
            pub unsafe fn unsync_load(&self) -> $value {
                self.plain()
            }
        }
    )* };
}

unsync!(
    AtomicU8 u8, AtomicU16 u16, AtomicU32 u32, AtomicU64 u64, AtomicUsize usize, AtomicI8 i8,
    AtomicI16 i16, AtomicI32 i32, AtomicI64 i64, AtomicIsize isize, AtomicBool bool
);

impl<T> AtomicPtr<T> {
    /// The value, read as that of plain memory: no step. The run fails where nothing orders it with
    /// a change.
    ///
    /// # Safety
    ///
    /// Nobody changes it meanwhile.
    #[track_caller]
    pub unsafe fn unsync_load(&self) -> *mut T {
        self.plain()
    }
}

impl<T: ?Sized> Arc<T> {
    /// The handle of a pointer.
    ///
    /// # Safety
    ///
    /// As std's: the pointer is that of [`Arc::into_raw`], and each is taken once.
    #[track_caller]
    pub unsafe fn from_raw(pointer: *const T) -> Arc<T> {
        // SAFETY: the caller's promise.
        let value = unsafe { std::sync::Arc::from_raw(pointer) };
        Arc::of_kept(value)
    }

    /// Counts one handle more.
    ///
    /// # Safety
    ///
    /// As std's: the pointer is that of [`Arc::into_raw`], and a handle lives.
    pub unsafe fn increment_strong_count(pointer: *const T) {
        // SAFETY: the caller's promise. The count stands until a handle is made of it.
        unsafe { std::sync::Arc::increment_strong_count(pointer) };
        arc::count_raw(pointer.cast::<()>() as usize);
    }

    /// Counts one handle less.
    ///
    /// # Safety
    ///
    /// As std's: the pointer is that of [`Arc::into_raw`], and a handle lives.
    #[track_caller]
    pub unsafe fn decrement_strong_count(pointer: *const T) {
        // SAFETY: the caller's promise.
        drop(unsafe { Arc::from_raw(pointer) });
    }
}

/// Takes a block of memory, which the run must give back.
///
/// # Safety
///
/// As std's: the layout's size isn't 0.
#[track_caller]
pub unsafe fn alloc(layout: Layout) -> *mut u8 {
    // SAFETY: the caller's promise.
    Blocks::taken(unsafe { std::alloc::alloc(layout) })
}

/// As [`alloc`], with zeros in it.
///
/// # Safety
///
/// As std's: the layout's size isn't 0.
#[track_caller]
pub unsafe fn alloc_zeroed(layout: Layout) -> *mut u8 {
    // SAFETY: the caller's promise.
    Blocks::taken(unsafe { std::alloc::alloc_zeroed(layout) })
}

/// Gives a block of memory back.
///
/// # Safety
///
/// As std's: it was taken by this layout.
pub unsafe fn dealloc(pointer: *mut u8, layout: Layout) {
    Blocks::given_back(pointer);
    // SAFETY: the caller's promise.
    unsafe { std::alloc::dealloc(pointer, layout) };
}
