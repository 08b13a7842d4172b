//! Lazy statics of runs.

use crate::run::{current, locked};
use pct::layer::Point;
use std::any::Any;
use std::sync::Arc;

pub use crate::thread::AccessError;

/// A static that is made at its first use in each run, and dropped at its end. Outside of runs there
/// is one value.
pub struct Lazy<T: 'static> {
    init: fn() -> T,
}

impl<T> std::fmt::Debug for Lazy<T> {
    fn fmt(&self, to: &mut std::fmt::Formatter<'_>) -> std::fmt::Result {
        to.debug_struct("Lazy").finish_non_exhaustive()
    }
}

/// Where a run has the value of a lazy static; nothing stands there once it is dropped.
#[derive(Debug)]
pub(crate) struct Slot {
    value: Option<Arc<dyn Any + Send + Sync>>,
    order: Arc<Point>,
}

impl Slot {
    /// The value, which nobody finds here from now on.
    pub fn take(&mut self) -> Option<Arc<dyn Any + Send + Sync>> {
        let value = self.value.take()?;
        self.order.take();
        Some(value)
    }
}

impl<T: Send + Sync + 'static> Lazy<T> {
    #[doc(hidden)]
    pub const fn made_by(init: fn() -> T) -> Lazy<T> {
        Lazy { init }
    }

    /// The value.
    ///
    /// # Panics
    ///
    /// Where the run's statics are dropped.
    pub fn get(&'static self) -> &'static T {
        crate::raw::of_run(self.value())
    }

    fn value(&'static self) -> Arc<T> {
        let Some(run) = current() else { return self.outside() };
        let key = std::ptr::from_ref(self) as usize;
        if let Some(found) = self.found(&run.statics, key) {
            return found;
        }
        // Other threads may go meanwhile, and one of them may come first.
        let value = Arc::new((self.init)());
        if let Some(found) = self.found(&run.statics, key) {
            return found;
        }
        let order = Arc::new(Point::new());
        order.give();
        locked(&run.statics).insert(key, Slot { value: Some(value.clone()), order });
        value
    }

    fn found(
        &self,
        statics: &std::sync::Mutex<std::collections::HashMap<usize, Slot>>,
        key: usize,
    ) -> Option<Arc<T>> {
        let (value, order) = {
            let statics = locked(statics);
            let slot = statics.get(&key)?;
            (slot.value.clone(), slot.order.clone())
        };
        order.take();
        let value = value.expect("a lazy static of a run is used after the run's end");
        Some(value.downcast().expect("a lazy static has one type"))
    }

    /// Of the process, for code outside of runs.
    fn outside(&'static self) -> Arc<T> {
        use std::collections::HashMap;
        use std::sync::Mutex;
        type Values = Mutex<Option<HashMap<usize, Arc<dyn Any + Send + Sync>>>>;
        static VALUES: Values = Mutex::new(None);
        let key = std::ptr::from_ref(self) as usize;
        let known = |values: &Values| locked(values).get_or_insert_default().get(&key).cloned();
        let value = known(&VALUES).unwrap_or_else(|| {
            let made: Arc<dyn Any + Send + Sync> = Arc::new((self.init)());
            locked(&VALUES).get_or_insert_default().entry(key).or_insert(made).clone()
        });
        value.downcast().expect("a lazy static has one type")
    }
}
