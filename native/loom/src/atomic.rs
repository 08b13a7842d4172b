//! Atomic types, as Loom has them. Each operation is one step.

pub use pct::sync::atomic::{compiler_fence, fence, Ordering};

/// Waits until another thread has changed something, as `hint::spin_loop` does.
#[deprecated(since = "0.1.0", note = "use hint::spin_loop instead, as in std")]
#[track_caller]
pub fn spin_loop_hint() {
    pct::hint::spin_loop();
}

macro_rules! atomic {
    ($($name:ident $value:ty),*) => { $(
        #[doc = concat!("pct's [`", stringify!($name), "`](pct::sync::atomic::", stringify!($name),
            "), with what Loom adds.")]
        #[derive(Debug)]
        pub struct $name(pct::sync::atomic::$name);

        impl $name {
            /// With a first value. No step.
            pub const fn new(value: $value) -> $name {
                $name(pct::sync::atomic::$name::new(value))
            }

            /// Changes the value as that of plain memory: no step. The run fails where nothing
            /// orders it with another use.
            #[track_caller]
            pub fn with_mut<R>(&mut self, change: impl FnOnce(&mut $value) -> R) -> R {
                self.0.plain_change();
                let old = self.0.plain();
                let mut value = old;
                let changed = change(&mut value);
                // One that stays the same is the same object for the run.
                if value != old {
                    *self.0.get_mut() = value;
                }
                changed
            }

            /// The value. No step.
            pub fn into_inner(self) -> $value {
                self.0.into_inner()
            }
        }

        impl Default for $name {
            fn default() -> $name {
                $name::new(Default::default())
            }
        }

        impl From<$value> for $name {
            fn from(value: $value) -> $name {
                $name::new(value)
            }
        }

        impl std::ops::Deref for $name {
            type Target = pct::sync::atomic::$name;

            fn deref(&self) -> &pct::sync::atomic::$name {
                &self.0
            }
        }
    )* };
}

atomic!(
    AtomicU8 u8, AtomicU16 u16, AtomicU32 u32, AtomicU64 u64, AtomicUsize usize, AtomicI8 i8,
    AtomicI16 i16, AtomicI32 i32, AtomicI64 i64, AtomicIsize isize, AtomicBool bool
);

/// pct's [`AtomicPtr`](pct::sync::atomic::AtomicPtr), with what Loom adds.
#[derive(Debug)]
pub struct AtomicPtr<T>(pct::sync::atomic::AtomicPtr<T>);

impl<T> AtomicPtr<T> {
    /// With a first value. No step.
    pub const fn new(value: *mut T) -> AtomicPtr<T> {
        AtomicPtr(pct::sync::atomic::AtomicPtr::new(value))
    }

    /// Changes the value as that of plain memory: no step. The run fails where nothing orders it
    /// with another use.
    #[track_caller]
    pub fn with_mut<R>(&mut self, change: impl FnOnce(&mut *mut T) -> R) -> R {
        self.0.plain_change();
        change(self.0.get_mut())
    }

    /// The value. No step.
    pub fn into_inner(self) -> *mut T {
        self.0.into_inner()
    }
}

impl<T> Default for AtomicPtr<T> {
    fn default() -> AtomicPtr<T> {
        AtomicPtr::new(std::ptr::null_mut())
    }
}

impl<T> From<*mut T> for AtomicPtr<T> {
    fn from(value: *mut T) -> AtomicPtr<T> {
        AtomicPtr::new(value)
    }
}

impl<T> std::ops::Deref for AtomicPtr<T> {
    type Target = pct::sync::atomic::AtomicPtr<T>;

    fn deref(&self) -> &pct::sync::atomic::AtomicPtr<T> {
        &self.0
    }
}
