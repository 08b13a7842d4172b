//! What the types do in runs, and outside of them.

use super::{fails_with, few};
use pct::sync::atomic::{AtomicU32, Ordering::SeqCst};
use pct::sync::mpsc::{self, RecvError, SendError, TryRecvError, TrySendError};
use pct::sync::{
    Arc, Barrier, Condvar, LazyLock, Mutex, Once, OnceLock, RwLock, Semaphore, TryLockError,
};
use pct::{thread, Config, Schedule};
use std::time::Duration;

/// In runs of a few seeds, and outside of one.
fn both(test: fn()) {
    test();
    pct::check_with(few(), test);
}

/// The steps of a run in declared order, of the thread main.
fn asks(test: impl pct::Test) -> Vec<String> {
    let run = pct::run(Config::default(), &Schedule::declared(), test);
    assert!(run.passed(), "{}", run.lanes());
    run.steps().into_iter().map(|step| step.ask).collect()
}

#[test]
fn mutex_and_condvar() {
    both(|| {
        let pair = Arc::new((Mutex::new(0), Condvar::new()));
        let other = pair.clone();
        let thread = thread::spawn(move || {
            *other.0.lock().unwrap() = 1;
            other.1.notify_all();
        });
        let guard = pair.1.wait_while(pair.0.lock().unwrap(), |value| *value == 0).unwrap();
        assert!(matches!(pair.0.try_lock(), Err(TryLockError::WouldBlock)));
        drop(guard);
        assert_eq!(*pair.0.try_lock().unwrap(), 1);
        thread.join().unwrap();
    });
}

#[test]
fn notify_one_wakes_who_has_waited_longest() {
    pct::check_with(few(), || {
        let shared = Arc::new((Mutex::new(Vec::new()), Condvar::new(), AtomicU32::new(0)));
        let waiters: Vec<_> = (0..2)
            .map(|number| {
                let shared = shared.clone();
                thread::spawn(move || {
                    let mut guard = shared.0.lock().unwrap();
                    shared.2.fetch_add(1, SeqCst);
                    guard.push(number);
                    guard = shared.1.wait(guard).unwrap();
                    assert_eq!(guard.remove(0), number);
                    shared.1.notify_one();
                })
            })
            .collect();
        while shared.2.load(SeqCst) < 2 {
            thread::yield_now();
        }
        drop(shared.0.lock().unwrap());
        shared.1.notify_one();
        waiters.into_iter().for_each(|waiter| waiter.join().unwrap());
    });
}

#[test]
fn readers_are_let_in_though_a_writer_waits() {
    both(|| {
        let lock = RwLock::new(5);
        let (one, other) = (lock.read().unwrap(), lock.try_read().unwrap());
        assert_eq!(*one + *other, 10);
        assert!(lock.try_write().is_err());
        drop((one, other));
        *lock.write().unwrap() += 1;
        assert_eq!(*lock.try_write().unwrap(), 6);
    });
    pct::check_with(few(), || {
        let lock = Arc::new(RwLock::new(0));
        let writer = lock.clone();
        let first = lock.read().unwrap();
        let thread = thread::spawn(move || *writer.write().unwrap() += 1);
        let second = lock.read().unwrap();
        assert_eq!(*first + *second, 0);
        drop((first, second));
        thread.join().unwrap();
    });
}

/// The page's table of steps, row by row; those of Once, channels and threads stand with their
/// types below.
#[test]
fn each_call_has_the_steps_of_the_table() {
    let mutex = || {
        let mutex = Mutex::new(0);
        drop(mutex.lock());
        drop(mutex.try_lock());
    };
    assert_eq!(asks(mutex), ["lock m0", "unlock m0", "trylock m0", "unlock m0"]);
    let rwlock = || {
        let lock = RwLock::new(0);
        drop(lock.read());
        drop(lock.write());
        drop(lock.try_read());
        drop(lock.try_write());
    };
    let taken = ["rdlock l0", "wrlock l0", "tryrdlock l0", "trywrlock l0"];
    assert_eq!(asks(rwlock), taken.map(|ask| [ask, "rwunlock l0"]).concat());
    let notifies = || {
        let condition = Condvar::new();
        condition.notify_one();
        condition.notify_all();
    };
    assert_eq!(asks(notifies), ["signal c0", "broadcast c0"]);
    let semaphore = || {
        let semaphore = Semaphore::new(1);
        semaphore.down();
        assert!(!semaphore.try_down());
        semaphore.up();
    };
    assert_eq!(asks(semaphore), ["down s0", "trydown s0", "up s0"]);
    let parks = || {
        thread::current().unpark();
        thread::current().unpark();
        thread::park();
    };
    assert_eq!(asks(parks), ["cas v0 0 1", "up s0", "cas v0 0 1", "down s0", "write v0 0"]);
    let waits = || {
        let pair = Arc::new((Mutex::new(false), Condvar::new()));
        let other = pair.clone();
        let thread = thread::spawn(move || {
            *other.0.lock().unwrap() = true;
            other.1.notify_one();
        });
        let mut guard = pair.0.lock().unwrap();
        while !*guard {
            guard = pair.1.wait(guard).unwrap();
        }
        drop(guard);
        thread.join().unwrap();
    };
    let wanted =
        ["start t1", "lock m0", "release c0 m0", "begin", "lock m0", "unlock m0", "signal c0"];
    assert_eq!(asks(waits), [&wanted[..], &["regain c0 m0", "unlock m0", "join t1"]].concat());
}

#[test]
fn barrier_and_semaphore() {
    both(|| {
        let shared = Arc::new((Barrier::new(2), Semaphore::new(0)));
        let other = shared.clone();
        let thread = thread::spawn(move || {
            other.1.up();
            other.0.wait().is_leader()
        });
        shared.1.down();
        assert!(!shared.1.try_down());
        let is_leader = shared.0.wait().is_leader();
        assert!(is_leader != thread.join().unwrap());
    });
    let alone = || assert!(Barrier::new(0).wait().is_leader());
    assert_eq!(asks(alone), ["arrive b0", "leave b0"]);
}

#[test]
fn once_and_its_cells() {
    both(|| {
        let cells =
            Arc::new((OnceLock::new(), Once::new(), LazyLock::new(|| 7), AtomicU32::new(0)));
        let threads: Vec<_> = (0..2)
            .map(|number| {
                let cells = cells.clone();
                thread::spawn(move || {
                    cells.1.call_once(|| {
                        cells.3.fetch_add(1, SeqCst);
                    });
                    assert!(cells.1.is_completed());
                    *cells.0.get_or_init(|| number) + *cells.2
                })
            })
            .collect();
        let made: Vec<i32> = threads.into_iter().map(|thread| thread.join().unwrap()).collect();
        assert_eq!((made[0], cells.3.load(SeqCst)), (made[1], 1));
        assert_eq!(cells.0.get().map(|number| number + 7), Some(made[0]));
        assert_eq!(cells.0.set(9), Err(9));
        cells.1.wait();
        assert_eq!(*cells.0.wait() + 7, made[0]);
    });
    let doing = ["read v0", "lock m0", "read v0", "write v0 1", "broadcast c0", "unlock m0"];
    assert_eq!(asks(|| Once::new().call_once(|| ())), doing);
    assert_eq!(asks(|| assert_eq!(*OnceLock::new().get_or_init(|| 1), 1)), doing);
    assert_eq!(asks(|| assert_eq!(*LazyLock::new(|| 1), 1)), doing);
}

#[test]
fn channels() {
    both(|| {
        let (sender, receiver) = mpsc::channel();
        let other = sender.clone();
        let thread = thread::spawn(move || other.send(1).unwrap());
        sender.send(2).unwrap();
        drop(sender);
        let mut got: Vec<i32> = receiver.iter().collect();
        got.sort_unstable();
        assert_eq!(got, [1, 2]);
        assert_eq!(
            (receiver.recv(), receiver.try_recv()),
            (Err(RecvError), Err(TryRecvError::Disconnected))
        );
        thread.join().unwrap();
        let (sender, receiver) = mpsc::sync_channel(1);
        sender.send(1).unwrap();
        assert_eq!(sender.try_send(2), Err(TrySendError::Full(2)));
        assert_eq!(receiver.recv_timeout(Duration::from_secs(1)), Ok(1));
        drop(receiver);
        assert_eq!(sender.send(3), Err(SendError(3)));
        let (sender, receiver) = mpsc::sync_channel(0);
        let thread = thread::spawn(move || sender.send(4).unwrap());
        assert_eq!(receiver.into_iter().collect::<Vec<_>>(), [4]);
        thread.join().unwrap();
    });
    let steps = asks(|| {
        let (sender, receiver) = mpsc::channel();
        sender.send(1).unwrap();
        receiver.recv().unwrap();
    });
    let (sent, ends) =
        (["lock m0", "signal c0", "unlock m0"], ["lock m0", "broadcast c1", "unlock m0"]);
    let receiver_ends = ["lock m0", "broadcast c1", "unlock m0"];
    assert_eq!(
        steps,
        [
            &sent[..],
            &["lock m0", "unlock m0"],
            &receiver_ends,
            &["lock m0", "broadcast c0", "unlock m0"]
        ]
        .concat()
    );
    let bounded = asks(|| {
        let (sender, receiver) = mpsc::sync_channel(1);
        drop(sender.clone());
        sender.send(1).unwrap();
        receiver.recv().unwrap();
    });
    let cloned = ["lock m0", "unlock m0", "lock m0", "unlock m0"];
    let taken = ["lock m0", "broadcast c1", "unlock m0"];
    assert_eq!(
        bounded,
        [&cloned[..], &sent, &taken, &ends, &["lock m0", "broadcast c0", "unlock m0"]].concat()
    );
}

#[test]
fn threads() {
    both(|| {
        let parked = thread::Builder::new().name("parked".into()).spawn(|| {
            thread::park();
            thread::current().name().map(str::to_owned)
        });
        let parked = parked.unwrap();
        parked.thread().unpark();
        parked.thread().unpark();
        assert_eq!(parked.join().unwrap().as_deref(), Some("parked"));
        let mut numbers = [1, 2, 3];
        let sum = thread::scope(|scope| {
            let (first, rest) = numbers.split_at_mut(1);
            let adds = scope.spawn(|| rest.iter().sum::<i32>());
            scope.spawn(move || first[0] = 5);
            adds.join().unwrap()
        });
        assert_eq!((sum, numbers), (5, [5, 2, 3]));
        let (one, other) = (thread::current(), thread::spawn(thread::current).join().unwrap());
        assert!(one.id() == thread::current().id() && one.id() != other.id());
    });
    assert_eq!(asks(|| drop(thread::spawn(|| ()).join())), ["start t1", "begin", "join t1"]);
}

#[test]
fn park_waits_for_its_token() {
    fails_with("", thread::park, &["a deadlock: main waits at", "for the semaphore s0"]);
}

#[test]
fn types_have_stds_auto_traits() {
    fn is_both<T: Send + Sync>() {}
    fn is_send<T: Send>() {}
    is_both::<Mutex<u8>>();
    is_both::<RwLock<u8>>();
    is_both::<OnceLock<u8>>();
    is_both::<LazyLock<u8>>();
    is_both::<(Condvar, Barrier, Once, Semaphore, AtomicU32)>();
    is_both::<thread::JoinHandle<u8>>();
    is_both::<mpsc::Sender<u8>>();
    is_send::<mpsc::Receiver<u8>>();
}
