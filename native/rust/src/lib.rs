//! Real Rust under the PCT scheduler: what a test imports from `std::sync` and `std::thread` it
//! imports from here, and each operation on something shared is one step of a run. A run's steps
//! are chosen by a proved book of turns; this crate, which is tested and not proved, starts the
//! threads and lets one at a time go. All memory is sequentially consistent: orderings are taken,
//! and all mean `SeqCst`.
//!
//! ```should_panic
//! use pct::{sync::{atomic::{AtomicUsize, Ordering::SeqCst}, Arc}, thread};
//!
//! pct::check(|| {
//!     let n = Arc::new(AtomicUsize::new(0));
//!     let adders: Vec<_> = (0..2)
//!         .map(|_| {
//!             let n = n.clone();
//!             thread::spawn(move || { let v = n.load(SeqCst); n.store(v + 1, SeqCst) })
//!         })
//!         .collect();
//!     for adder in adders { adder.join().unwrap() }
//!     assert_eq!(n.load(SeqCst), 2);
//! });
//! ```

mod accesses;
mod ask;
mod campaign;
pub mod cell;
mod check;
mod clocks;
mod config;
mod directive;
#[cfg(not(target_os = "linux"))]
mod elsewhere;
mod ffi;
mod files;
pub mod future;
pub mod hint;
mod image;
mod json;
#[doc(hidden)]
pub mod layer;
mod live;
mod names;
mod objects;
mod pin;
mod place;
mod pool;
mod races;
mod raw;
mod replay;
mod report;
mod runner;
mod seat;
mod single;
mod spin;
mod state;
mod steps;
pub mod sync;
mod test;
pub mod thread;
mod threads;
mod told;

pub use campaign::{campaign, Campaign, Group, Row};
pub use check::{check, check_with};
pub use config::{Config, Panics};
pub use directive::{certify, find, Certificate, Directive};
pub use place::Place;
pub use races::{lock_order, races, Access, LockOrder, Nesting, Race, Races};
pub use replay::{replay, Replayed};
pub use single::{run, Schedule};
pub use steps::{holds, join, name, random, step, Named};
pub use test::{threads, Declared, Test, Threads};
pub use told::{Drawn, Run, Step};
