//! Values: each operation on each width, at its extremes, is std's.

use super::{few, filled};
use pct::cell::UnsafeCell;
use pct::sync::atomic::{self, Ordering::SeqCst};
use pct::sync::Arc;
use pct::{thread, Config, Schedule};
use std::sync::atomic as std_atomic;

const SOURCE: &str = include_str!("values.rs");

macro_rules! width {
    ($test:ident, $name:ident, $value:ident) => {
        #[test]
        fn $test() {
            let test = || {
                let extremes = [
                    0,
                    1,
                    2,
                    $value::MAX,
                    $value::MAX - 1,
                    $value::MIN,
                    $value::MIN + 1,
                    $value::MAX / 2,
                ];
                for first in extremes {
                    for by in extremes {
                        let (ours, theirs) =
                            (atomic::$name::new(first), std_atomic::$name::new(first));
                        macro_rules! same {
                            ($call:ident) => {
                                assert_eq!(
                                    ours.$call(by, SeqCst),
                                    theirs.$call(by, SeqCst),
                                    concat!(stringify!($call), " {} {}"),
                                    first,
                                    by
                                );
                                assert_eq!(ours.load(SeqCst), theirs.load(SeqCst));
                            };
                        }
                        same!(fetch_add);
                        same!(fetch_sub);
                        same!(fetch_and);
                        same!(fetch_nand);
                        same!(fetch_or);
                        same!(fetch_xor);
                        same!(fetch_max);
                        same!(fetch_min);
                        same!(swap);
                        ours.store(first, SeqCst);
                        theirs.store(first, SeqCst);
                        assert_eq!(
                            ours.compare_exchange(by, 1, SeqCst, SeqCst),
                            theirs.compare_exchange(by, 1, SeqCst, SeqCst)
                        );
                        let next = |value: $value| value.checked_add(1);
                        assert_eq!(
                            ours.fetch_update(SeqCst, SeqCst, next),
                            theirs.fetch_update(SeqCst, SeqCst, next)
                        );
                        assert_eq!(ours.into_inner(), theirs.into_inner());
                    }
                }
            };
            test();
            pct::check_with(Config { seeds: 2, ..few() }, test);
        }
    };
}

width!(i8_is_stds, AtomicI8, i8);
width!(i16_is_stds, AtomicI16, i16);
width!(i32_is_stds, AtomicI32, i32);
width!(i64_is_stds, AtomicI64, i64);
width!(isize_is_stds, AtomicIsize, isize);
width!(u8_is_stds, AtomicU8, u8);
width!(u16_is_stds, AtomicU16, u16);
width!(u32_is_stds, AtomicU32, u32);
width!(u64_is_stds, AtomicU64, u64);
width!(usize_is_stds, AtomicUsize, usize);

#[test]
fn bool_is_stds() {
    let test = || {
        for (first, by) in [(false, false), (false, true), (true, false), (true, true)] {
            let (ours, theirs) =
                (atomic::AtomicBool::new(first), std_atomic::AtomicBool::new(first));
            assert_eq!(ours.fetch_and(by, SeqCst), theirs.fetch_and(by, SeqCst));
            assert_eq!(ours.fetch_nand(by, SeqCst), theirs.fetch_nand(by, SeqCst));
            assert_eq!(ours.fetch_or(by, SeqCst), theirs.fetch_or(by, SeqCst));
            assert_eq!(ours.fetch_xor(by, SeqCst), theirs.fetch_xor(by, SeqCst));
            assert_eq!(ours.fetch_not(SeqCst), theirs.fetch_not(SeqCst));
            assert_eq!(ours.swap(by, SeqCst), theirs.swap(by, SeqCst));
            assert_eq!(
                ours.compare_exchange(by, !by, SeqCst, SeqCst),
                theirs.compare_exchange(by, !by, SeqCst, SeqCst)
            );
            assert_eq!(ours.load(SeqCst), theirs.load(SeqCst));
        }
    };
    test();
    pct::check_with(few(), test);
}

#[test]
fn pointers_are_stds() {
    let test = || {
        let mut words = [1u32, 2, 3, 4];
        let first = words.as_mut_ptr();
        let (ours, theirs) = (atomic::AtomicPtr::new(first), std_atomic::AtomicPtr::new(first));
        assert_eq!(ours.fetch_ptr_add(2, SeqCst), first);
        theirs.store(first.wrapping_add(2), SeqCst);
        assert_eq!(ours.load(SeqCst), theirs.load(SeqCst));
        assert_eq!(ours.fetch_byte_sub(4, SeqCst), first.wrapping_add(2));
        assert_eq!(ours.compare_exchange(first, first, SeqCst, SeqCst), Err(first.wrapping_add(1)));
        assert_eq!(ours.swap(first, SeqCst), first.wrapping_add(1));
        assert_eq!(ours.into_inner(), first);
    };
    test();
    pct::check_with(few(), test);
}

/// The words of the steps on an atomic.
#[test]
fn asks_are_read_write_add_and_cas() {
    let run = pct::run(Config::default(), &Schedule::declared(), || {
        let n = atomic::AtomicU8::new(250);
        n.load(SeqCst);
        n.store(254, SeqCst);
        n.fetch_add(1, SeqCst);
        n.fetch_add(1, SeqCst);
        n.fetch_sub(1, SeqCst);
        n.fetch_or(1, SeqCst);
        let _ = n.compare_exchange(7, 8, SeqCst, SeqCst);
        let big = atomic::AtomicU64::new(u64::MAX);
        big.fetch_add(1, SeqCst);
    });
    let asks: Vec<String> =
        run.steps().into_iter().map(|step| format!("{} = {}", step.ask, step.answer)).collect();
    let wanted = [
        "read v0 = 250",
        "write v0 254 = 0",
        "add v0 1 = 254",
        "cas v0 255 0 = 1",
        "cas v0 0 255 = 1",
        "cas v0 255 255 = 1",
        "cas v0 7 8 = 0",
        "add v1 1 = -1",
    ];
    assert_eq!(asks, wanted);
}

/// A ring of two cells for one who puts and one who takes. The flag, its head, says which cells are
/// full.
struct Ring {
    cells: [UnsafeCell<u32>; 2],
    head: atomic::AtomicUsize,
    tail: atomic::AtomicUsize,
    is_guarded: bool,
}

// SAFETY: with the flag a cell is touched by one thread at a time; without it that is what the test
// shows.
#[allow(unsafe_code)]
unsafe impl Sync for Ring {}

fn ring(is_guarded: bool) -> impl pct::Test {
    move || {
        let cells = [UnsafeCell::new(0), UnsafeCell::new(0)];
        let ring = Arc::new(Ring {
            cells,
            head: atomic::AtomicUsize::new(0),
            tail: atomic::AtomicUsize::new(0),
            is_guarded,
        });
        let puts = ring.clone();
        let thread = thread::spawn(move || {
            for value in 0..2 {
                let head = puts.head.load(SeqCst);
                // SAFETY: there is room, and nobody else puts.
                #[allow(unsafe_code)]
                puts.cells[head % 2].with_mut(|cell| unsafe { *cell = value }); //: puts
                puts.head.store(head + 1, SeqCst);
            }
        });
        for taken in 0..2 {
            while ring.is_guarded && ring.head.load(SeqCst) <= taken {
                pct::hint::spin_loop();
            }
            // SAFETY: with the flag the cell is full.
            #[allow(unsafe_code)]
            let value = ring.cells[taken % 2].with(|cell| unsafe { *cell }); //: takes
            ring.tail.store(taken + 1, SeqCst);
            assert!(!ring.is_guarded || value as usize == taken);
        }
        thread.join().unwrap();
    }
}

#[test]
fn a_ring_with_its_flag_has_no_race_and_without_it_one() {
    pct::check_with(few(), ring(true));
    let with = pct::races(Config::default(), &Schedule::seed(1, 2), ring(true));
    assert_eq!((with.races, with.left_out), (vec![], Vec::<String>::new()));
    let without = pct::races(Config::default(), &Schedule::declared(), ring(false));
    let told = without.races.iter().map(|race| {
        format!("{} {} {}", race.first.place.line, race.second.place.line, race.second.is_write)
    });
    let wanted = filled(SOURCE, "{takes} {puts} true");
    assert_eq!(told.collect::<Vec<_>>(), [wanted.clone(), wanted]);
    assert_eq!(
        (without.races[0].first.thread.as_str(), without.races[0].second.thread.as_str()),
        ("main", "t1")
    );
}
