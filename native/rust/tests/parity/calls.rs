// Each stable method of the types is called once. `lib` is std, or this crate. A comment `// Of
// TYPE ..:` says of which types the calls below it are.

// Of Mutex:
pub fn mutexes() {
    let mutex = lib::sync::Mutex::new(1);
    *mutex.lock().unwrap() += 1;
    assert_eq!(*mutex.try_lock().unwrap(), 2);
    assert!(!mutex.is_poisoned());
    mutex.clear_poison();
    let mut mutex = lib::sync::Mutex::from(5);
    *mutex.get_mut().unwrap() += 1;
    assert_eq!(mutex.into_inner().unwrap(), 6);
    let shown = format!("{:?}", lib::sync::Mutex::<u8>::default());
    assert_eq!(shown, "Mutex { data: 0, poisoned: false, .. }");
}

// Of RwLock:
pub fn rwlocks() {
    let lock = lib::sync::RwLock::new(1);
    assert_eq!(*lock.read().unwrap() + *lock.try_read().unwrap(), 2);
    *lock.write().unwrap() += 1;
    *lock.try_write().unwrap() += 1;
    assert!(!lock.is_poisoned());
    lock.clear_poison();
    let mut lock = lib::sync::RwLock::from(5);
    *lock.get_mut().unwrap() += 1;
    assert_eq!(lock.into_inner().unwrap(), 6);
}

// Of Condvar WaitTimeoutResult:
#[allow(deprecated)]
pub fn condvars() {
    let pair = (lib::sync::Mutex::new(0), lib::sync::Condvar::new());
    pair.1.notify_one();
    pair.1.notify_all();
    lib::thread::scope(|scope| {
        let pair = &pair;
        scope.spawn(move || {
            *pair.0.lock().unwrap() = 1;
            pair.1.notify_all();
        });
        let mut guard = pair.0.lock().unwrap();
        while *guard == 0 {
            guard = pair.1.wait(guard).unwrap();
        }
        guard = pair.1.wait_while(guard, |value| *value == 0).unwrap();
        let (guard, result) =
            pair.1.wait_timeout_while(guard, Duration::from_secs(9), |value| *value == 0).unwrap();
        assert!(!result.timed_out());
        drop(guard);
    });
    if OUTSIDE {
        let guard = pair.0.lock().unwrap();
        let (guard, _) = pair.1.wait_timeout(guard, Duration::from_micros(1)).unwrap();
        drop(pair.1.wait_timeout_ms(guard, 1).unwrap());
    }
}

// Of Barrier BarrierWaitResult:
pub fn barriers() {
    let barrier = lib::sync::Barrier::new(1);
    assert!(barrier.wait().is_leader());
}

// Of Once OnceState:
pub fn once() {
    let once = lib::sync::Once::new();
    once.call_once(|| ());
    once.call_once_force(|state| assert!(!state.is_poisoned()));
    assert!(once.is_completed());
    once.wait();
    once.wait_force();
    // Of OnceLock:
    let cell = lib::sync::OnceLock::new();
    assert!(cell.get().is_none());
    assert_eq!(cell.set(1), Ok(()));
    assert_eq!(*cell.get_or_init(|| 2) + *cell.wait(), 2);
    let mut cell = cell.clone();
    *cell.get_mut().unwrap() += 1;
    assert_eq!((cell.take(), cell.into_inner()), (Some(2), None));
    assert_eq!(lib::sync::OnceLock::from(3), lib::sync::OnceLock::from(3));
    // Of LazyLock:
    let lazy = lib::sync::LazyLock::new(|| 7);
    assert_eq!(*lib::sync::LazyLock::force(&lazy) + *lazy, 14);
}

// Of Sender Receiver mpsc:
pub fn channels() {
    let (sender, receiver) = lib::sync::mpsc::channel();
    sender.clone().send(1).unwrap();
    sender.send(2).unwrap();
    assert_eq!((receiver.recv(), receiver.try_recv()), (Ok(1), Ok(2)));
    assert_eq!(receiver.try_iter().next(), None);
    sender.send(3).unwrap();
    assert_eq!(receiver.recv_timeout(Duration::from_secs(9)), Ok(3));
    drop(sender);
    assert_eq!(receiver.iter().next(), None);
    // Of SyncSender mpsc:
    let (sender, receiver) = lib::sync::mpsc::sync_channel(2);
    sender.send(1).unwrap();
    sender.try_send(2).unwrap();
    drop(sender);
    assert_eq!(receiver.into_iter().collect::<Vec<_>>(), [1, 2]);
}

// Of Builder JoinHandle Thread thread hint:
#[allow(deprecated)]
pub fn threads() {
    let builder = lib::thread::Builder::new().name("named".into()).stack_size(1 << 20);
    let handle = builder.spawn(|| lib::thread::current().name().map(str::to_owned)).unwrap();
    assert_eq!(handle.thread().name(), Some("named"));
    assert!(handle.thread().id() != lib::thread::current().id());
    assert_eq!(handle.join().unwrap().as_deref(), Some("named"));
    let handle = lib::thread::spawn(|| lib::thread::park());
    handle.thread().unpark();
    handle.join().unwrap();
    let handle = lib::thread::spawn(|| ());
    while !handle.is_finished() {
        lib::thread::yield_now();
        lib::hint::spin_loop();
        lib::thread::sleep(Duration::from_micros(1));
        lib::thread::sleep_ms(1);
    }
    // Of Builder Scope ScopedJoinHandle thread:
    let sum = lib::thread::scope(|scope| {
        let one = scope.spawn(|| 1);
        let other = lib::thread::Builder::new().spawn_scoped(scope, || 2).unwrap();
        assert!(one.thread().id() != other.thread().id());
        let _ = one.is_finished();
        one.join().unwrap() + other.join().unwrap()
    });
    assert_eq!(sum, 3);
    // Of thread hint:
    lib::hint::black_box(());
    let _: unsafe fn() -> ! = lib::hint::unreachable_unchecked;
    // SAFETY: it holds.
    #[allow(unsafe_code)]
    unsafe {
        lib::hint::assert_unchecked(true)
    };
    if OUTSIDE {
        lib::thread::park_timeout(Duration::from_micros(1));
        lib::thread::park_timeout_ms(1);
    }
    assert!(lib::thread::available_parallelism().is_ok() && !lib::thread::panicking());
}

// Of integers:
macro_rules! integers {
    ($($name:ident),*) => { $( {
        let mut n = lib::sync::atomic::$name::new(1);
        *n.get_mut() = 5;
        n.store(6, SeqCst);
        assert_eq!(n.load(SeqCst), 6);
        assert_eq!(n.swap(7, SeqCst), 6);
        assert_eq!(n.compare_and_swap(7, 8, SeqCst), 7);
        assert_eq!(n.compare_exchange(8, 9, SeqCst, SeqCst), Ok(8));
        while n.compare_exchange_weak(9, 10, SeqCst, SeqCst).is_err() {}
        assert_eq!(n.fetch_add(5, SeqCst), 10);
        assert_eq!(n.fetch_sub(3, SeqCst), 15);
        assert_eq!(n.fetch_and(8, SeqCst), 12);
        assert_eq!(n.fetch_or(3, SeqCst), 8);
        assert_eq!(n.fetch_xor(1, SeqCst), 11);
        assert_eq!(n.fetch_nand(2, SeqCst), 10);
        n.store(1, SeqCst);
        assert_eq!(n.fetch_max(4, SeqCst), 1);
        assert_eq!(n.fetch_min(2, SeqCst), 4);
        assert_eq!(n.fetch_update(SeqCst, SeqCst, |old| Some(old + 1)), Ok(2));
        assert_eq!(n.into_inner(), 3);
        assert_eq!(format!("{:?}", lib::sync::atomic::$name::from(4)), "4");
        assert_eq!(lib::sync::atomic::$name::default().load(SeqCst), 0);
    } )* };
}

#[allow(deprecated)]
pub fn atomics() {
    integers!(AtomicI8, AtomicI16, AtomicI32, AtomicI64, AtomicIsize);
    integers!(AtomicU8, AtomicU16, AtomicU32, AtomicU64, AtomicUsize);
    // Of AtomicBool:
    let mut flag = lib::sync::atomic::AtomicBool::new(false);
    assert!(!*flag.get_mut() && !flag.fetch_not(SeqCst));
    assert!(flag.fetch_and(true, SeqCst) && flag.fetch_nand(false, SeqCst));
    assert!(flag.fetch_or(false, SeqCst) && flag.fetch_xor(true, SeqCst));
    assert_eq!(flag.compare_and_swap(false, true, SeqCst), false);
    assert_eq!(flag.compare_exchange(true, false, SeqCst, SeqCst), Ok(true));
    while flag.compare_exchange_weak(false, true, SeqCst, SeqCst).is_err() {}
    assert_eq!(flag.fetch_update(SeqCst, SeqCst, |old| Some(!old)), Ok(true));
    flag.store(true, SeqCst);
    assert!(flag.load(SeqCst) && flag.swap(false, SeqCst) && !flag.into_inner());
    // Of AtomicPtr:
    let mut value = 3;
    let (first, none) = (&raw mut value, std::ptr::null_mut());
    let mut pointer = lib::sync::atomic::AtomicPtr::new(first);
    assert_eq!(*pointer.get_mut(), first);
    assert_eq!(pointer.load(SeqCst), first);
    assert_eq!(pointer.swap(none, SeqCst), first);
    assert_eq!(pointer.compare_and_swap(none, first, SeqCst), none);
    assert_eq!(pointer.compare_exchange(first, none, SeqCst, SeqCst), Ok(first));
    while pointer.compare_exchange_weak(none, first, SeqCst, SeqCst).is_err() {}
    assert_eq!(pointer.fetch_update(SeqCst, SeqCst, |_| Some(none)), Ok(first));
    pointer.store(first, SeqCst);
    assert_eq!(pointer.into_inner(), first);
    // Of atomic:
    lib::sync::atomic::fence(SeqCst);
    lib::sync::atomic::compiler_fence(SeqCst);
    lib::sync::atomic::spin_loop_hint();
}

// Of nothing:
pub fn all() {
    mutexes();
    rwlocks();
    condvars();
    barriers();
    once();
    channels();
    threads();
    atomics();
}
