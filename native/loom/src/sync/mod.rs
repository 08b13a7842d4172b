//! What threads share.

pub(crate) mod arc;
mod notify;

pub use arc::Arc;
pub use notify::Notify;
pub use pct::sync::{
    mpsc, Barrier, BarrierWaitResult, Condvar, LockResult, Mutex, MutexGuard, Once, OnceLock,
    PoisonError, RwLock, RwLockReadGuard, RwLockWriteGuard, TryLockError, TryLockResult,
    WaitTimeoutResult,
};

/// Atomic types.
pub mod atomic {
    pub use crate::atomic::*;
}
