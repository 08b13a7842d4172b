//! Loom's calls over pct: a crate's tests for Loom run as they are, each by some thousand schedules
//! that PCT draws, in place of all of them.
//!
//! ```
//! use loom::sync::{atomic::{AtomicUsize, Ordering::SeqCst}, Arc};
//!
//! loom::model(|| {
//!     let n = Arc::new(AtomicUsize::new(0));
//!     let other = n.clone();
//!     let adder = loom::thread::spawn(move || other.fetch_add(1, SeqCst));
//!     n.fetch_add(1, SeqCst);
//!     adder.join().unwrap();
//!     assert_eq!(n.load(SeqCst), 2);
//! });
//! ```
//!
//! A run fails where an assertion does, where all wait, where two accesses of a
//! [`cell::UnsafeCell`] overlap or aren't ordered by the orderings that the code declares, and where
//! an [`Arc`](sync::Arc), an [`alloc::Track`] or an allocation is left. Values are those of one order
//! of all steps: what only weaker memory shows isn't found.

pub mod alloc;
mod atomic;
pub mod cell;
pub mod future;
pub mod hint;
pub mod lazy_static;
pub mod model;
mod raw;
mod run;
pub mod sync;
pub mod thread;

/// Runs a test by the builder's defaults: [`model::Builder`].
///
/// # Panics
///
/// Where a run fails.
#[track_caller]
pub fn model<F>(test: F)
where
    F: Fn() + Sync + Send + 'static,
{
    model::Builder::new().check(test);
}

/// Loom tries no other schedules from here on. Here it does nothing.
pub fn stop_exploring() {}

/// Loom tries other schedules again. Here it does nothing.
pub fn explore() {}

/// Loom leaves this schedule. Here it does nothing.
pub fn skip_branch() {}

/// Statics that each thread has its own of, made anew in each run and dropped at the end of their
/// thread.
#[macro_export]
macro_rules! thread_local {
    () => {};
    ($(#[$attribute:meta])* $vis:vis static $name:ident : $type:ty = const $init:block $(; $($rest:tt)*)?) => {
        $crate::thread_local!($(#[$attribute])* $vis static $name : $type = $init);
        $($crate::thread_local!($($rest)*);)?
    };
    ($(#[$attribute:meta])* $vis:vis static $name:ident : $type:ty = $init:expr; $($rest:tt)*) => {
        $crate::thread_local!($(#[$attribute])* $vis static $name : $type = $init);
        $crate::thread_local!($($rest)*);
    };
    ($(#[$attribute:meta])* $vis:vis static $name:ident : $type:ty = $init:expr) => {
        $(#[$attribute])*
        $vis static $name: $crate::thread::LocalKey<$type> =
            $crate::thread::LocalKey::made_by(|| $init);
    };
}

/// Statics that are made at their first use in each run and dropped at its end.
#[macro_export]
macro_rules! lazy_static {
    () => {};
    ($(#[$attribute:meta])* $vis:vis static ref $name:ident : $type:ty = $init:expr; $($rest:tt)*) => {
        #[allow(missing_copy_implementations, non_camel_case_types, dead_code)]
        $(#[$attribute])*
        $vis struct $name {
            _private: (),
        }
        #[doc(hidden)]
        #[allow(non_upper_case_globals)]
        $vis static $name: $name = $name { _private: () };
        impl ::std::ops::Deref for $name {
            type Target = $type;

            fn deref(&self) -> &$type {
                static LAZY: $crate::lazy_static::Lazy<$type> =
                    $crate::lazy_static::Lazy::made_by(|| $init);
                LAZY.get()
            }
        }
        $crate::lazy_static!($($rest)*);
    };
}
