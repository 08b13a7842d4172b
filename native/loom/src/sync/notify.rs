//! Waking one thread.

use pct::layer::Token;

/// A flag that one thread waits for. A notification that comes before the wait isn't lost; two are
/// one.
#[derive(Debug, Default)]
pub struct Notify(Token);

impl Notify {
    /// Not notified.
    pub fn new() -> Notify {
        Notify::default()
    }

    /// Wakes the thread that waits, or that waits next: one step, and a second one where it wasn't
    /// notified before.
    #[track_caller]
    pub fn notify(&self) {
        self.0.give();
    }

    /// Waits for a notification and takes it: two steps.
    #[track_caller]
    pub fn wait(&self) {
        self.0.take();
    }
}
