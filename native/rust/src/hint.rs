//! Hints, as `std::hint` has them.

pub use std::hint::{assert_unchecked, black_box, unreachable_unchecked};

/// Waits until another thread has changed something, where nothing has changed since this thread
/// waited so last.
#[track_caller]
pub fn spin_loop() {
    crate::thread::spin();
}
