//! The scripts of the gallery as declared threads of real Rust, each line at the line of its
//! script: the campaigns' lines are those of the scripts, and of ten of them the traces are the
//! same bytes.
#![allow(missing_docs)]

use pct::{Config, Schedule};

mod shared {
    pub use pct::sync::atomic::{AtomicI64, Ordering::SeqCst};
    pub use pct::sync::{
        Barrier, Condvar, Mutex, RwLock, RwLockReadGuard, RwLockWriteGuard, Semaphore,
    };
    pub use pct::thread;
    use std::sync::Arc;

    pub fn named<T: pct::Named>(name: &str, object: T) -> Arc<T> {
        pct::name(name, &object);
        Arc::new(object)
    }

    /// What a thread holds of a read-write lock.
    #[derive(Default)]
    pub struct Holds<'a> {
        pub reads: Vec<RwLockReadGuard<'a, ()>>,
        pub write: Option<RwLockWriteGuard<'a, ()>>,
    }

    impl Holds<'_> {
        pub fn drop_one(&mut self) {
            if self.write.take().is_none() {
                self.reads.pop();
            }
        }
    }
}

macro_rules! gallery {
    ($name:ident) => {
        #[allow(unused, clippy::all)]
        mod $name {
            use super::shared::*;
            include!(concat!("gallery/", stringify!($name), ".rs"));
        }
    };
}

gallery!(barrier_count);
gallery!(barrier_count_mended);
gallery!(bounded_buffer);
gallery!(bounded_buffer_mended);
gallery!(dekker);
gallery!(dekker_mended);
gallery!(double_checked_flag);
gallery!(double_checked_flag_mended);
gallery!(early_flag);
gallery!(early_flag_mended);
gallery!(lock_order);
gallery!(lock_order_mended);
gallery!(lost_update);
gallery!(lost_update_mended);
gallery!(lost_wakeup);
gallery!(lost_wakeup_mended);
gallery!(one_condition);
gallery!(one_condition_mended);
gallery!(peterson);
gallery!(peterson_mended);
gallery!(philosophers);
gallery!(philosophers_mended);
gallery!(pool);
gallery!(pool_mended);
gallery!(readers_writers);
gallery!(readers_writers_mended);
gallery!(released_twice);
gallery!(released_twice_mended);
gallery!(reused_cell);
gallery!(reused_cell_mended);
gallery!(seqlock);
gallery!(seqlock_mended);
gallery!(stale_read);
gallery!(stale_read_mended);
gallery!(start_before_init);
gallery!(start_before_init_mended);
gallery!(two_phase);
gallery!(two_phase_mended);
gallery!(upgraded_read_lock);
gallery!(upgraded_read_lock_mended);
gallery!(wait_with_if);
gallery!(wait_with_if_mended);
gallery!(work_stealing);
gallery!(work_stealing_mended);

/// The groups of a campaign as lines: how many, the shortest, the first seed, the verdict.
fn lines(depth: u32, seeds: u64, steps: u32, test: impl pct::Test) -> Vec<String> {
    let config = Config { depth: Some(depth), seeds, ..Config::default() };
    let campaign = pct::campaign(config, test);
    assert_eq!(campaign.steps, steps, "another run in declared order");
    campaign
        .groups
        .iter()
        .map(|group| format!("{} {} {} {}", group.count, group.steps, group.first, group.verdict))
        .collect()
}

#[test]
fn barrier_count_has_the_scripts_campaign() {
    assert_eq!(
        lines(1, 100, 7, barrier_count::test()),
        ["31 7 1 failed B 17", "26 7 2 failed D 31", "23 7 3 failed C 24", "20 7 4 failed A 10"]
    );
}

#[test]
fn barrier_count_mended_has_the_scripts_campaign() {
    assert_eq!(lines(3, 100, 20, barrier_count_mended::test()), Vec::<String>::new());
}

#[test]
fn bounded_buffer_has_the_scripts_campaign() {
    assert_eq!(
        lines(3, 1000, 54, bounded_buffer::test()),
        ["4 28 132 failed P1 17", "3 28 652 failed P2 33"]
    );
}

#[test]
fn bounded_buffer_mended_has_the_scripts_campaign() {
    assert_eq!(lines(3, 100, 53, bounded_buffer_mended::test()), Vec::<String>::new());
}

#[test]
fn dekker_has_the_scripts_campaign() {
    assert_eq!(lines(2, 300, 22, dekker::test()), ["7 7 23 failed B 50", "5 7 51 failed A 28"]);
}

#[test]
fn dekker_mended_has_the_scripts_campaign() {
    assert_eq!(lines(3, 100, 22, dekker_mended::test()), Vec::<String>::new());
}

#[test]
fn double_checked_flag_has_the_scripts_campaign() {
    assert_eq!(
        lines(2, 300, 11, double_checked_flag::test()),
        ["16 7 32 failed B 34", "7 7 12 failed A 19"]
    );
}

#[test]
fn double_checked_flag_mended_has_the_scripts_campaign() {
    assert_eq!(lines(3, 100, 12, double_checked_flag_mended::test()), Vec::<String>::new());
}

#[test]
fn early_flag_has_the_scripts_campaign() {
    assert_eq!(lines(1, 100, 5, early_flag::test()), ["21 4 9 failed Reader 18"]);
}

#[test]
fn early_flag_mended_has_the_scripts_campaign() {
    assert_eq!(lines(3, 100, 6, early_flag_mended::test()), Vec::<String>::new());
}

#[test]
fn lock_order_has_the_scripts_campaign() {
    assert_eq!(lines(2, 300, 12, lock_order::test()), ["23 2 7 stuck Save 10 Spend 19"]);
}

#[test]
fn lock_order_mended_has_the_scripts_campaign() {
    assert_eq!(lines(3, 100, 12, lock_order_mended::test()), Vec::<String>::new());
}

#[test]
fn lost_update_has_the_scripts_campaign() {
    assert_eq!(lines(2, 300, 8, lost_update::test()), ["30 8 13 failed Check 19"]);
}

#[test]
fn lost_update_mended_has_the_scripts_campaign() {
    assert_eq!(lines(3, 100, 6, lost_update_mended::test()), Vec::<String>::new());
}

#[test]
fn lost_wakeup_has_the_scripts_campaign() {
    assert_eq!(lines(2, 300, 9, lost_wakeup::test()), ["15 7 14 stuck Waiter 11"]);
}

#[test]
fn lost_wakeup_mended_has_the_scripts_campaign() {
    assert_eq!(lines(3, 100, 10, lost_wakeup_mended::test()), Vec::<String>::new());
}

#[test]
fn one_condition_has_the_scripts_campaign() {
    assert_eq!(
        lines(2, 300, 29, one_condition::test()),
        ["7 22 65 stuck Taker1 12 Putter 37", "3 22 13 stuck Taker2 24 Putter 37"]
    );
}

#[test]
fn one_condition_mended_has_the_scripts_campaign() {
    assert_eq!(lines(3, 100, 26, one_condition_mended::test()), Vec::<String>::new());
}

#[test]
fn peterson_has_the_scripts_campaign() {
    assert_eq!(
        lines(3, 1000, 14, peterson::test()),
        ["3 10 299 failed A 23", "3 10 369 failed B 43"]
    );
}

#[test]
fn peterson_mended_has_the_scripts_campaign() {
    assert_eq!(lines(3, 100, 14, peterson_mended::test()), Vec::<String>::new());
}

#[test]
fn philosophers_has_the_scripts_campaign() {
    assert_eq!(
        lines(2, 300, 20, philosophers::test()),
        ["1 5 35 stuck P1 12 P2 19 P3 26 P4 33 P5 40"]
    );
}

#[test]
fn philosophers_mended_has_the_scripts_campaign() {
    assert_eq!(lines(3, 100, 20, philosophers_mended::test()), Vec::<String>::new());
}

#[test]
fn pool_has_the_scripts_campaign() {
    assert_eq!(
        lines(2, 300, 16, pool::test()),
        ["3 20 190 stuck Worker1 29", "2 20 61 stuck Worker2 47"]
    );
}

#[test]
fn pool_mended_has_the_scripts_campaign() {
    assert_eq!(lines(3, 100, 18, pool_mended::test()), Vec::<String>::new());
}

#[test]
fn readers_writers_has_the_scripts_campaign() {
    assert_eq!(
        lines(2, 300, 17, readers_writers::test()),
        ["8 6 8 failed Reader1 22", "4 6 38 failed Reader2 35"]
    );
}

#[test]
fn readers_writers_mended_has_the_scripts_campaign() {
    assert_eq!(lines(3, 100, 25, readers_writers_mended::test()), Vec::<String>::new());
}

#[test]
fn released_twice_has_the_scripts_campaign() {
    assert_eq!(
        lines(2, 300, 16, released_twice::test()),
        ["5 11 6 failed B 18", "5 11 23 failed C 26"]
    );
}

#[test]
fn released_twice_mended_has_the_scripts_campaign() {
    assert_eq!(lines(3, 100, 15, released_twice_mended::test()), Vec::<String>::new());
}

#[test]
fn reused_cell_has_the_scripts_campaign() {
    assert_eq!(lines(2, 300, 16, reused_cell::test()), ["8 18 45 failed Check 65"]);
}

#[test]
fn reused_cell_mended_has_the_scripts_campaign() {
    assert_eq!(lines(3, 100, 16, reused_cell_mended::test()), Vec::<String>::new());
}

#[test]
fn seqlock_has_the_scripts_campaign() {
    assert_eq!(lines(2, 300, 12, seqlock::test()), ["8 12 29 failed Reader 23"]);
}

#[test]
fn seqlock_mended_has_the_scripts_campaign() {
    assert_eq!(lines(3, 100, 13, seqlock_mended::test()), Vec::<String>::new());
}

#[test]
fn stale_read_has_the_scripts_campaign() {
    assert_eq!(lines(1, 100, 4, stale_read::test()), ["51 4 1 failed B 9"]);
}

#[test]
fn stale_read_mended_has_the_scripts_campaign() {
    assert_eq!(lines(3, 100, 5, stale_read_mended::test()), Vec::<String>::new());
}

#[test]
fn start_before_init_has_the_scripts_campaign() {
    assert_eq!(lines(1, 100, 6, start_before_init::test()), ["49 4 2 failed Worker 13"]);
}

#[test]
fn start_before_init_mended_has_the_scripts_campaign() {
    assert_eq!(lines(3, 100, 6, start_before_init_mended::test()), Vec::<String>::new());
}

#[test]
fn two_phase_has_the_scripts_campaign() {
    assert_eq!(lines(1, 100, 17, two_phase::test()), ["73 17 1 failed Check 42"]);
}

#[test]
fn two_phase_mended_has_the_scripts_campaign() {
    assert_eq!(lines(3, 100, 18, two_phase_mended::test()), Vec::<String>::new());
}

#[test]
fn upgraded_read_lock_has_the_scripts_campaign() {
    assert_eq!(lines(1, 100, 2, upgraded_read_lock::test()), ["51 2 1 stuck Fill 10 Preload 18"]);
}

#[test]
fn upgraded_read_lock_mended_has_the_scripts_campaign() {
    assert_eq!(lines(3, 100, 10, upgraded_read_lock_mended::test()), Vec::<String>::new());
}

#[test]
fn wait_with_if_has_the_scripts_campaign() {
    assert_eq!(
        lines(1, 100, 18, wait_with_if::test()),
        ["19 18 4 failed Second 26", "14 18 1 failed First 14"]
    );
}

#[test]
fn wait_with_if_mended_has_the_scripts_campaign() {
    assert_eq!(lines(3, 100, 27, wait_with_if_mended::test()), Vec::<String>::new());
}

#[test]
fn work_stealing_has_the_scripts_campaign() {
    assert_eq!(lines(2, 300, 17, work_stealing::test()), ["6 19 24 failed Check 55"]);
}

#[test]
fn work_stealing_mended_has_the_scripts_campaign() {
    assert_eq!(lines(3, 100, 17, work_stealing_mended::test()), Vec::<String>::new());
}

/// FNV-1a over the traces of the seeds 1 to 1000 at depth 2: the sums are those of the scripts'
/// traces, as the plain model writes them.
fn sum_of_traces<T: pct::Test>(test: impl Fn() -> T) -> u64 {
    let trace = |seed| pct::run(Config::default(), &Schedule::seed(seed, 2), test()).trace();
    let mix = |sum: u64, byte: u8| (sum ^ u64::from(byte)).wrapping_mul(0x0100_0000_01b3);
    (1..=1000).fold(0xcbf2_9ce4_8422_2325, |sum, seed| trace(seed).bytes().fold(sum, mix))
}

#[test]
fn ten_have_the_scripts_traces_byte_for_byte() {
    assert_eq!(sum_of_traces(stale_read::test), 0x6f8604d2ca66e326);
    assert_eq!(sum_of_traces(early_flag::test), 0x2ab6db94bf3ae2ed);
    assert_eq!(sum_of_traces(barrier_count_mended::test), 0x142252ae0ababc50);
    assert_eq!(sum_of_traces(lost_update::test), 0xabdbc46f67b27fc6);
    assert_eq!(sum_of_traces(reused_cell::test), 0xc59578a6b3e58558);
    assert_eq!(sum_of_traces(released_twice::test), 0x798a769a33273962);
    assert_eq!(sum_of_traces(lost_update_mended::test), 0x685e053a2daaea28);
    assert_eq!(sum_of_traces(early_flag_mended::test), 0x8f11eacd769439dc);
    assert_eq!(sum_of_traces(reused_cell_mended::test), 0x27f05b125e1190e9);
    assert_eq!(sum_of_traces(stale_read_mended::test), 0xff8724f6a1a050fb);
}
