//! Atomic integers.

use super::{operate, plain, Cell, Operation};
use crate::clocks::Use;
use crate::objects::{Id, Kind};
use std::sync::atomic::Ordering::{self, Relaxed};

macro_rules! integer {
    ($name:ident, $value:ident, $text:literal) => {
        #[doc = concat!("An atomic ", $text, ".")]
        pub struct $name {
            id: Id,
            inner: std::sync::atomic::$name,
        }

        impl Cell for $name {
            fn id(&self) -> &Id {
                &self.id
            }

            fn get(&self) -> i64 {
                self.inner.load(Relaxed) as i64
            }

            fn set(&self, value: i64) {
                self.inner.store(value as $value, Relaxed);
            }
        }

        impl $name {
            /// With a first value. No step.
            pub const fn new(value: $value) -> $name {
                $name { id: Id::new(Kind::Variable), inner: std::sync::atomic::$name::new(value) }
            }

            /// The value. No step.
            pub fn get_mut(&mut self) -> &mut $value {
                self.id.forget();
                self.inner.get_mut()
            }

            /// The value. No step.
            pub fn into_inner(self) -> $value {
                self.inner.load(Relaxed)
            }

            /// The value as that of plain memory: no step. For layers over this crate.
            #[doc(hidden)]
            #[track_caller]
            pub fn plain(&self) -> $value {
                plain(self, Use::PlainLoad) as $value
            }

            /// The value is about to be changed as that of plain memory: no step. For layers over this
            /// crate.
            #[doc(hidden)]
            #[track_caller]
            pub fn plain_change(&self) {
                plain(self, Use::PlainChange);
            }

            /// The value: one step, `read`.
            #[track_caller]
            pub fn load(&self, order: Ordering) -> $value {
                match operate(self, Operation::Load, order) {
                    Some(value) => value as $value,
                    None => self.inner.load(order),
                }
            }

            /// Sets the value: one step, `write`.
            #[track_caller]
            pub fn store(&self, value: $value, order: Ordering) {
                if operate(self, Operation::Store(value as i64), order).is_none() {
                    self.inner.store(value, order);
                }
            }

            /// Sets the value, and gives the old one: one step, `cas`.
            #[track_caller]
            pub fn swap(&self, value: $value, order: Ordering) -> $value {
                let swap = Operation::Change { change: |_, by| by, by: value as i64, sum: None };
                match operate(self, swap, order) {
                    Some(old) => old as $value,
                    None => self.inner.swap(value, order),
                }
            }

            /// Sets the value where it is `current`, and gives the old one: one step, `cas`.
            #[deprecated(
                since = "0.1.0",
                note = "use compare_exchange or compare_exchange_weak instead, as in std"
            )]
            #[track_caller]
            pub fn compare_and_swap(
                &self,
                current: $value,
                new: $value,
                order: Ordering,
            ) -> $value {
                let failure = match order {
                    Ordering::Relaxed | Ordering::Release => Ordering::Relaxed,
                    Ordering::Acquire | Ordering::AcqRel => Ordering::Acquire,
                    _ => Ordering::SeqCst,
                };
                self.compare_exchange(current, new, order, failure).unwrap_or_else(|found| found)
            }

            /// Sets the value where it is `current`: one step, `cas`.
            #[track_caller]
            pub fn compare_exchange(
                &self,
                current: $value,
                new: $value,
                success: Ordering,
                failure: Ordering,
            ) -> Result<$value, $value> {
                let exchange = Operation::Exchange { old: current as i64, new: new as i64 };
                match operate(self, exchange, (success, failure)) {
                    Some(old) if old as $value == current => Ok(current),
                    Some(old) => Err(old as $value),
                    None => self.inner.compare_exchange(current, new, success, failure),
                }
            }

            /// As `compare_exchange`: in a run it fails only where the value is another one.
            #[track_caller]
            pub fn compare_exchange_weak(
                &self,
                current: $value,
                new: $value,
                success: Ordering,
                failure: Ordering,
            ) -> Result<$value, $value> {
                let exchange = Operation::Exchange { old: current as i64, new: new as i64 };
                match operate(self, exchange, (success, failure)) {
                    Some(old) if old as $value == current => Ok(current),
                    Some(old) => Err(old as $value),
                    None => self.inner.compare_exchange_weak(current, new, success, failure),
                }
            }

            /// Loads, and exchanges until it succeeds or the function gives none: a step for each.
            #[track_caller]
            pub fn fetch_update<F>(
                &self,
                set: Ordering,
                fetch: Ordering,
                mut update: F,
            ) -> Result<$value, $value>
            where
                F: FnMut($value) -> Option<$value>,
            {
                let mut old = self.load(fetch);
                while let Some(new) = update(old) {
                    match self.compare_exchange_weak(old, new, set, fetch) {
                        Ok(old) => return Ok(old),
                        Err(found) => old = found,
                    }
                }
                Err(old)
            }

            /// As `fetch_update`.
            #[track_caller]
            pub fn try_update(
                &self,
                set: Ordering,
                fetch: Ordering,
                update: impl FnMut($value) -> Option<$value>,
            ) -> Result<$value, $value> {
                self.fetch_update(set, fetch, update)
            }

            /// As `fetch_update`, with a function that always gives a value.
            #[track_caller]
            pub fn update(
                &self,
                set: Ordering,
                fetch: Ordering,
                mut update: impl FnMut($value) -> $value,
            ) -> $value {
                self.fetch_update(set, fetch, |old| Some(update(old))).unwrap_or_else(|old| old)
            }

            /// Adds, and gives the old value: one step, `add` where the sum stays in i64 and in the
            /// type, else `cas`.
            #[track_caller]
            pub fn fetch_add(&self, by: $value, order: Ordering) -> $value {
                let change = |old, by| (old as $value).wrapping_add(by as $value) as i64;
                let sum = Some(by as i64);
                match operate(self, Operation::Change { change, by: by as i64, sum }, order) {
                    Some(old) => old as $value,
                    None => self.inner.fetch_add(by, order),
                }
            }

            /// Subtracts, and gives the old value: one step, as `fetch_add` of what is the other
            /// way round.
            #[track_caller]
            pub fn fetch_sub(&self, by: $value, order: Ordering) -> $value {
                let change = |old, by| (old as $value).wrapping_sub(by as $value) as i64;
                let sum = (by as i64).checked_neg();
                match operate(self, Operation::Change { change, by: by as i64, sum }, order) {
                    Some(old) => old as $value,
                    None => self.inner.fetch_sub(by, order),
                }
            }

            integer!(@changes $value fetch_and "the bits that both have"
                (|old: $value, by: $value| old & by));
            integer!(@changes $value fetch_nand "the bits that not both have"
                (|old: $value, by: $value| !(old & by)));
            integer!(@changes $value fetch_or "the bits that one has"
                (|old: $value, by: $value| old | by));
            integer!(@changes $value fetch_xor "the bits that just one has"
                (|old: $value, by: $value| old ^ by));
            integer!(@changes $value fetch_max "the greater value"
                (|old: $value, by: $value| old.max(by)));
            integer!(@changes $value fetch_min "the lesser value"
                (|old: $value, by: $value| old.min(by)));
        }

        impl Default for $name {
            fn default() -> $name {
                $name::new(0)
            }
        }

        impl From<$value> for $name {
            fn from(value: $value) -> $name {
                $name::new(value)
            }
        }

        impl std::fmt::Debug for $name {
            fn fmt(&self, to: &mut std::fmt::Formatter<'_>) -> std::fmt::Result {
                self.inner.fmt(to)
            }
        }
    };
    (@changes $value:ident $name:ident $text:literal ($change:expr)) => {
        #[doc = concat!("Sets ", $text, ", and gives the old value: one step, `cas`.")]
        #[track_caller]
        pub fn $name(&self, by: $value, order: Ordering) -> $value {
            let change = |old, by| ($change)(old as $value, by as $value) as i64;
            match operate(self, Operation::Change { change, by: by as i64, sum: None }, order) {
                Some(old) => old as $value,
                None => self.inner.$name(by, order),
            }
        }
    };
}

integer!(AtomicI8, i8, "i8");
integer!(AtomicI16, i16, "i16");
integer!(AtomicI32, i32, "i32");
integer!(AtomicI64, i64, "i64");
integer!(AtomicIsize, isize, "isize");
integer!(AtomicU8, u8, "u8");
integer!(AtomicU16, u16, "u16");
integer!(AtomicU32, u32, "u32");
integer!(AtomicU64, u64, "u64");
integer!(AtomicUsize, usize, "usize");
